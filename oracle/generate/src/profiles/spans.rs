//! Request 1 of 02: spans and rates of every size, at their limits and beyond them.

use crate::{
    rng::Rng,
    text::{span_line, Out},
};

const SPAN_MAX: u64 = 1 << 40;
const PART_MAX: u64 = 65_535;
const SECOND: u64 = 1_000_000;

/// Rates at which film and television are cut.
const FILM_RATES: [(u64, u64); 8] = [
    (24, 1),
    (25, 1),
    (30, 1),
    (60, 1),
    (24_000, 1_001),
    (30_000, 1_001),
    (60_000, 1_001),
    (48_000, 1_001),
];

/// A number of at most so many bits, of every length alike.
fn of_any_length(rng: &mut Rng, bits: u64) -> u64 {
    let unused = 64 - rng.below(bits + 1);
    rng.bits().checked_shr(unused as u32).unwrap_or(0)
}

fn rate_part(rng: &mut Rng) -> u64 {
    match rng.below(24) {
        0 => rng.pick(&[0, PART_MAX + 1, u32::MAX.into(), u64::from(u32::MAX) + 2, u64::MAX]),
        1 => of_any_length(rng, 64),
        2..=4 => rng.pick(&[1, 2, PART_MAX - 1, PART_MAX]),
        _ => of_any_length(rng, 16).max(1),
    }
}

fn rate(rng: &mut Rng) -> (u64, u64) {
    if rng.once_in(3) {
        rng.pick(&FILM_RATES)
    } else {
        (rate_part(rng), rate_part(rng))
    }
}

/// The first span that has some whole number of frames, the one before it, or the one after.
fn around_a_frame(rng: &mut Rng, p: u64, q: u64) -> u64 {
    let p = p.clamp(1, PART_MAX);
    let q = q.clamp(1, PART_MAX);
    let frames = rng.below(SPAN_MAX * p / (q * SECOND)) + 1;
    let first = (frames * q * SECOND).div_ceil(p);
    (first + rng.below(3)).saturating_sub(1)
}

fn span(rng: &mut Rng, p: u64, q: u64) -> u64 {
    match rng.below(16) {
        0 => rng.pick(&[0, 1, SPAN_MAX - 1, SPAN_MAX, SPAN_MAX + 1, u64::MAX]),
        1 => of_any_length(rng, 64),
        2..=7 => around_a_frame(rng, p, q),
        8..=11 => rng.below(SPAN_MAX + 1),
        _ => of_any_length(rng, 40),
    }
}

/// Frames of spans.
pub fn spans(out: &mut Out, rng: &mut Rng) {
    for _ in 0..rng.between(10, 40) {
        let (p, q) = rate(rng);
        let span = span(rng, p, q);
        out.call(&span_line(span, p, q));
    }
}
