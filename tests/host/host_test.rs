//! Compares the host's calls, as Rust links them, with Rust's own wrapping i16 and f64 operations, and the frames of a span with the
//! equation that they have to meet, in u128.

mod compare;

use compare::{with_neighbours, Group, Random};
use std::num::Wrapping;

mod ours {
    extern "C" {
        pub fn kadwunge_stamp_order(first: i16, second: i16) -> i32;
        pub fn kadwunge_frame_stamp(seconds: f64, timestep: f64) -> i32;
        pub fn kadwunge_mean_of_samples(
            needed: u32,
            rate: f64,
            samples: *const u8,
            samples_length: usize,
            answer: *mut u8,
            answer_length: usize,
        ) -> u32;
        pub fn kadwunge_frames_of_span(span: u64, p: u32, q: u32) -> SpanFrames;
    }

    #[repr(C)]
    #[derive(Clone, Copy, Debug, PartialEq)]
    pub struct SpanFrames {
        pub frames: u64,
        pub remainder: u64,
        pub refusal: u32,
        pub spare: u32,
    }
}

fn stamp_order(first: i16, second: i16) -> i32 {
    // SAFETY: the function takes two numbers and answers every pair of them.
    unsafe { ours::kadwunge_stamp_order(first, second) }
}

fn frame_stamp(seconds: f64, timestep: f64) -> i32 {
    // SAFETY: the function takes two numbers and answers every pair of them.
    unsafe { ours::kadwunge_frame_stamp(seconds, timestep) }
}

fn mean_of_samples(needed: u32, rate: f64, samples: &[u8], answer: &mut [u8]) -> u32 {
    // SAFETY: each pointer comes with the length of its slice, and the slices do not overlap; the function answers every content.
    unsafe { ours::kadwunge_mean_of_samples(needed, rate, samples.as_ptr(), samples.len(), answer.as_mut_ptr(), answer.len()) }
}

fn frames_of_span(span: u64, p: u32, q: u32) -> ours::SpanFrames {
    // SAFETY: the function takes three numbers and answers every three of them.
    unsafe { ours::kadwunge_frames_of_span(span, p, q) }
}

fn expected_order(first: i16, second: i16) -> i32 {
    i32::from((Wrapping(first) - Wrapping(second)).0.signum())
}

fn expected_stamp(seconds: f64, timestep: f64) -> i32 {
    if !(1.0 / 1024.0..=1.0).contains(&timestep) {
        return 65_537;
    }
    if !(seconds.abs() <= 4_294_967_296.0) {
        return 65_538;
    }
    let wrapped = (seconds / timestep + 32_768.0).rem_euclid(65_536.0) - 32_768.0;
    i32::from(wrapped as i16)
}

/// The samples that a mean discards at each extreme, and those that it stores.
fn counts(needed: u32, rate: f64) -> (usize, usize) {
    let discard = (f64::from(needed) * rate / 2.0).max(1.0).ceil() as usize;
    (discard, needed as usize + 2 * discard)
}

/// The mean, or the number of the refusal: sorted ascending, equal samples in the order in which they came.
fn expected_mean(needed: u32, rate: f64, samples: &[u8], room: usize) -> Result<f64, u32> {
    if !(1..=32).contains(&needed) || !(0.0..=1.0).contains(&rate) {
        return Err(1);
    }
    let (discard, store) = counts(needed, rate);
    if samples.len() != 8 * store || room != 8 {
        return Err(8);
    }
    let mut values: Vec<f64> = samples
        .chunks_exact(8)
        .map(|chunk| f64::from_le_bytes(chunk.try_into().expect("a chunk has 8 bytes")))
        .collect();
    if !values.iter().all(|x| x.abs() <= 8_589_934_592.0) {
        return Err(8);
    }
    values.sort_by(|x, y| x.partial_cmp(y).expect("a sample is finite"));
    let kept = &values[discard..store - discard];
    Ok(kept.iter().fold(0.0, |sum, x| sum + x) / kept.len() as f64)
}

/// In range, the equation and the bound themselves, which one pair alone meets; else the refusal and zeros.
fn span_answer_is_right(a: ours::SpanFrames, span: u64, p: u32, q: u32) -> bool {
    let in_range = span <= 1 << 40 && (1..=65_535).contains(&p) && (1..=65_535).contains(&q);
    if !in_range {
        return (a.refusal, a.frames, a.remainder, a.spare) == (31, 0, 0, 0);
    }
    let frame = u128::from(q) * 1_000_000;
    let parts = u128::from(a.frames) * frame + u128::from(a.remainder);
    u128::from(span) * u128::from(p) == parts && u128::from(a.remainder) < frame && (a.refusal, a.spare) == (0, 0)
}

fn check_span(group: &mut Group, span: u64, p: u32, q: u32) {
    let a = frames_of_span(span, p, q);
    group.check(span_answer_is_right(a, span, p, q), || format!("{span} {p} {q}: {a:?}"));
}

fn check_order(group: &mut Group, a: i16, b: i16) {
    group.check(stamp_order(a, b) == expected_order(a, b), || format!("{a}, {b}"));
}

fn check_stamp(group: &mut Group, s: f64, t: f64) {
    group.check(frame_stamp(s, t) == expected_stamp(s, t), || format!("{s:e}, {t:e}"));
}

/// Every byte of the answer buffer is compared, and one past each end of it.
fn check_mean(group: &mut Group, needed: u32, rate: f64, samples: &[u8], room: usize) {
    let mut buffer = vec![0xa5; room + 2];
    let number = mean_of_samples(needed, rate, samples, &mut buffer[1..=room]);
    let (expected, bytes) = match expected_mean(needed, rate, samples, room) {
        Ok(mean) => (0, mean.to_le_bytes().to_vec()),
        Err(refusal) => (refusal, vec![0; room]),
    };
    let untouched = buffer[0] == 0xa5 && buffer[room + 1] == 0xa5;
    group.check(number == expected && buffer[1..=room] == bytes && untouched, || {
        format!("{needed}, {rate:e}, {samples:x?}, answer of {room}: {number} {buffer:x?}")
    });
}

fn orders() -> bool {
    let mut near = Group::new("Rust stamp order, differences around 0, a quarter and half of the space");
    for a in i16::MIN..=i16::MAX {
        for around in [0u16, 16_384, 32_768, 49_152] {
            for d in -20i16..=20 {
                check_order(&mut near, a, a.wrapping_add(around as i16).wrapping_add(d));
            }
        }
    }
    let mut random = Group::new("Rust stamp order, random");
    let mut r = Random(0x2545_f491_4f6c_dd1d);
    for _ in 0..4_000_000 {
        let n = r.next();
        check_order(&mut random, n as i16, (n >> 16) as i16);
    }
    near.finish() & random.finish()
}

fn limits() -> Vec<f64> {
    let base = [
        0.0,
        0.5,
        1.0,
        1.5,
        1.0 / 1024.0,
        1.0 / 3.0,
        32_766.5,
        32_767.0,
        32_767.5,
        32_768.0,
        65_535.0,
        65_536.0,
        4_294_967_295.5,
        4_294_967_296.0,
        8_589_934_592.0,
        1e300,
        f64::MAX,
        f64::MIN_POSITIVE,
        5e-324,
        f64::INFINITY,
        1.0 / 60.0,
        3600.0,
    ];
    let mut values: Vec<f64> = base.iter().flat_map(|&x| with_neighbours(x)).collect();
    values.extend(values.clone().iter().map(|x| -x));
    values.extend([0x7ff8_0000_0000_0000, 0xfff8_0000_0000_0001, 0x7ff0_0000_0000_0001, u64::MAX].map(f64::from_bits));
    values
}

fn stamps() -> bool {
    let mut at_limits = Group::new("Rust frame stamp, limits");
    let values = limits();
    for &s in &values {
        for &t in &values {
            check_stamp(&mut at_limits, s, t);
        }
    }
    let mut random = Group::new("Rust frame stamp, random");
    let mut r = Random(0x9e37_79b9_7f4a_7c15);
    for _ in 0..2_000_000 {
        let n = r.next();
        let timestep = (r.next() % 1050 + 1) as f64 / 1024.0;
        check_stamp(&mut random, f64::from_bits(n), timestep);
        check_stamp(&mut random, n as i64 as f64 / 4.0e9, timestep);
        check_stamp(&mut random, n as i64 as f64 / 2f64.powi(31), f64::from_bits(r.next()));
    }
    at_limits.finish() & random.finish()
}

/// Samples of many sizes, with many equal ones, and zeros of both signs.
fn some_samples(r: &mut Random, count: usize) -> Vec<u8> {
    let kind = r.next() % 6;
    let one = |r: &mut Random| {
        let n = r.next();
        match if kind == 5 { n >> 61 } else { kind } {
            0 => n as i64 as f64 / 2f64.powi(30),
            1 => n as i64 as f64 / 2f64.powi(60),
            2 => (n % 7) as f64 - 3.0,
            3 => [0.0, -0.0][(n % 2) as usize],
            4 => f64::from_bits(n & 0x8000_0000_0000_0007),
            _ => [8_589_934_592.0, -8_589_934_592.0, 1e-300, 0.1][(n % 4) as usize],
        }
    };
    (0..count).flat_map(|_| one(r).to_le_bytes()).collect()
}

fn means() -> bool {
    let mut r = Random(0xd1b5_4a32_d192_ed03);
    let mut at_limits = Group::new("Rust mean of samples, limits of needed, rate and lengths");
    let rates = [0.0, -0.0, 1.0, 0.5, 0.2, 2.0, f64::INFINITY, f64::NAN, -f64::NAN]
        .map(with_neighbours)
        .concat();
    for needed in (0..=34).chain([65_536, 0x2000_0001, i32::MAX as u32, u32::MAX]) {
        for &rate in &rates {
            let passes = (1..=32).contains(&needed) && (0.0..=1.0).contains(&rate);
            let whole = if passes { 8 * counts(needed, rate).1 } else { 24 };
            for length in [0, 1, 7, 8].into_iter().chain(whole - 9..=whole + 9) {
                for room in [0, 7, 8, 9, 64] {
                    let mut samples = some_samples(&mut r, length.div_ceil(8));
                    samples.truncate(length);
                    check_mean(&mut at_limits, needed, rate, &samples, room);
                }
            }
        }
    }
    let mut edges = Group::new("Rust mean of samples, a sample at the limits in every place");
    let values = limits();
    for (needed, rate) in [(1, 0.0), (1, 1.0), (3, 1.0), (8, 0.2), (32, 0.0), (32, 1.0)] {
        let count = counts(needed, rate).1;
        for at in 0..count {
            for &x in &values {
                let mut samples = some_samples(&mut r, count);
                samples[8 * at..8 * at + 8].copy_from_slice(&x.to_le_bytes());
                check_mean(&mut edges, needed, rate, &samples, 8);
            }
        }
    }
    let mut random = Group::new("Rust mean of samples, random");
    for _ in 0..400_000 {
        let needed = (r.next() % 32) as u32 + 1;
        let rate = if r.next() % 4 == 0 {
            (r.next() % 33) as f64 / 32.0
        } else {
            (r.next() >> 11) as f64 / 2f64.powi(53)
        };
        let samples = some_samples(&mut r, counts(needed, rate).1);
        check_mean(&mut random, needed, rate, &samples, 8);
        let mut damaged = samples;
        let byte = (r.next() % damaged.len() as u64) as usize;
        damaged[byte] = r.next() as u8;
        check_mean(&mut random, needed, rate, &damaged, 8);
    }
    at_limits.finish() & edges.finish() & random.finish()
}

fn spans() -> bool {
    let mut at_limits = Group::new("Rust frames of a span, limits");
    let edge_spans = [0, 1_000_000, 1_001_000_000, 3_600_000_000, 65_535_000_000, 1_036_800_000_000, 1 << 40, u64::MAX / 65_535];
    let edge_parts = [0, 1, 25, 1_000, 1_001, 24_000, 60_000, 65_535, 65_536, 1 << 31];
    let around = |x: u64| [x.wrapping_sub(1), x, x.wrapping_add(1)];
    for span in edge_spans.into_iter().flat_map(around) {
        for p in edge_parts.into_iter().flat_map(around) {
            for q in edge_parts.into_iter().flat_map(around) {
                check_span(&mut at_limits, span, p as u32, q as u32);
            }
        }
    }
    let mut random = Group::new("Rust frames of a span, random");
    let mut r = Random(0x1234_5678_9abc_def1);
    for _ in 0..1_000_000 {
        let (n, m) = (r.next(), r.next());
        let (p, q) = ((m & 0xffff) as u32, (m >> 16 & 0xffff) as u32);
        check_span(&mut random, n >> 24, p, q);
        check_span(&mut random, n >> (m >> 58), p, q);
        check_span(&mut random, n >> 30, p, (m >> 40) as u32);
    }
    at_limits.finish() & random.finish()
}

fn main() {
    if !(orders() & stamps() & means() & spans()) {
        std::process::exit(1);
    }
}
