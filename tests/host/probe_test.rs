//! Compares each function of the crate `timestamp`, by way of the crate `probe`, with Rust's own f64 and i16 operations.
//! Two NaNs count as equal: Rattle's floats have one NaN, without sign or payload.

mod compare;

use compare::{with_neighbours, Group, Random};

mod ours {
    extern "C" {
        pub fn probe_add(s: u16, n: u16) -> u16;
        pub fn probe_sub(a: u16, b: u16) -> u16;
        pub fn probe_in_range(t: u16, midpoint: u16) -> bool;
        pub fn probe_value(t: u16) -> i16;
        pub fn probe_from_value(v: i16) -> u16;
        pub fn probe_from_unwrapped(frames: f64) -> f64;
        pub fn probe_from_seconds(seconds: f64, timestep: f64) -> f64;
        pub fn probe_from_timestamp(t: u16) -> f64;
        pub fn probe_float_sub(x: f64, y: f64) -> f64;
        pub fn probe_as_seconds(x: f64, timestep: f64) -> f64;
        pub fn probe_trunc_stamp(x: f64) -> u16;
        pub fn probe_ceil_stamp(x: f64) -> u16;
        pub fn probe_trunc(x: f64) -> f64;
        pub fn probe_ceil(x: f64) -> f64;
        pub fn probe_floor(x: f64) -> f64;
        pub fn probe_round(x: f64) -> f64;
    }
}

/// A function of one float and the Rust that it is compared with.
type OfFloat = (&'static str, unsafe extern "C" fn(f64) -> f64, fn(f64) -> f64);
/// A function of two floats and the Rust that it is compared with.
type OfFloats = (&'static str, unsafe extern "C" fn(f64, f64) -> f64, fn(f64, f64) -> f64);
/// A function from a float to a stamp and the Rust that it is compared with.
type ToStamp = (&'static str, unsafe extern "C" fn(f64) -> u16, fn(f64) -> i16);

fn wrapped(frames: f64) -> f64 {
    (frames + 32_768.0).rem_euclid(65_536.0) - 32_768.0
}

const OF_FLOAT: [OfFloat; 5] = [
    ("trunc", ours::probe_trunc, f64::trunc),
    ("ceil", ours::probe_ceil, f64::ceil),
    ("floor", ours::probe_floor, f64::floor),
    ("round", ours::probe_round, f64::round),
    ("FloatTimestamp::from_unwrapped", ours::probe_from_unwrapped, wrapped),
];

const OF_FLOATS: [OfFloats; 3] = [
    ("FloatTimestamp::from_seconds", ours::probe_from_seconds, |x, y| wrapped(x / y)),
    ("FloatTimestamp::sub", ours::probe_float_sub, |x, y| wrapped(x - y)),
    ("FloatTimestamp::as_seconds", ours::probe_as_seconds, |x, y| x * y),
];

const TO_STAMP: [ToStamp; 2] = [
    ("FloatTimestamp::trunc", ours::probe_trunc_stamp, |x| x as i16),
    ("FloatTimestamp::ceil", ours::probe_ceil_stamp, |x| x.ceil() as i16),
];

fn same(a: f64, b: f64) -> bool {
    a.to_bits() == b.to_bits() || (a.is_nan() && b.is_nan())
}

/// Limits; every exponent with digits all 0, all 1 and around a half and at each place; whole numbers and halves to 70,000 and their
/// neighbours; random values of several kinds: each with both signs.
fn floats() -> Vec<f64> {
    let mut values = vec![
        0.0,
        0.5,
        1.0,
        1.5,
        2.5,
        32_766.5,
        32_767.5,
        32_768.0,
        65_536.0,
        2f64.powi(52),
        2f64.powi(53),
        f64::MAX,
        f64::INFINITY,
        5e-324,
        f64::MIN_POSITIVE,
        1e300,
    ];
    values.extend([0x7ff8_0000_0000_0000, 0x7ff0_0000_0000_0001].map(f64::from_bits));
    for exponent in 0..2047u64 {
        // a one at each place and its neighbours, and ones from it up: 0, all ones and a half are among them, and
        // from 1 up to 2^53 places on both sides of the point
        for one in (0..52).map(|place| 1u64 << place) {
            for digits in [one - 1, one, one + 1, (1 << 52) - one] {
                values.push(f64::from_bits(exponent << 52 | digits));
            }
        }
    }
    for whole in 0..70_000u32 {
        values.extend(with_neighbours(f64::from(whole)));
        values.extend(with_neighbours(f64::from(whole) + 0.5));
    }
    let mut r = Random(0x9e37_79b9_7f4a_7c15);
    for _ in 0..700_000 {
        let n = r.next();
        values.extend([
            f64::from_bits(n),
            n as i64 as f64 / 2f64.powi((r.next() % 70) as i32),
            (n >> 40) as f64 / 2.0,
        ]);
    }
    values.extend(values.clone().iter().map(|x| -x));
    values
}

fn of_float(values: &[f64]) -> bool {
    OF_FLOAT.into_iter().fold(true, |good, (name, ours, rust)| {
        let mut group = Group::new(name);
        for &x in values {
            // SAFETY: the function takes a number and answers every one.
            group.check(same(unsafe { ours(x) }, rust(x)), || format!("{x:e}"));
        }
        group.finish() & good
    })
}

fn of_floats(values: &[f64]) -> bool {
    let reversed = values.iter().zip(values.iter().rev());
    let pairs: Vec<(&f64, &f64)> = reversed.chain(values.iter().zip(values.iter().skip(1))).collect();
    OF_FLOATS.into_iter().fold(true, |good, (name, ours, rust)| {
        let mut group = Group::new(name);
        for &(&x, &y) in &pairs {
            // SAFETY: the function takes two numbers and answers every pair.
            group.check(same(unsafe { ours(x, y) }, rust(x, y)), || format!("{x:e}, {y:e}"));
        }
        group.finish() & good
    })
}

fn to_stamp(values: &[f64]) -> bool {
    TO_STAMP.into_iter().fold(true, |good, (name, ours, rust)| {
        let mut group = Group::new(name);
        for &x in values {
            // SAFETY: the function takes a number and answers every one.
            group.check(unsafe { ours(x) } as i16 == rust(x), || format!("{x:e}"));
        }
        group.finish() & good
    })
}

/// The functions of one stamp, at every stamp.
fn of_stamp() -> bool {
    let mut value = Group::new("i16 from Timestamp");
    let mut from_value = Group::new("Timestamp from i16");
    let mut float = Group::new("FloatTimestamp from Timestamp");
    for t in 0..=u16::MAX {
        // SAFETY: the functions take a number and answer every one.
        let (v, bits, x) = unsafe {
            (
                ours::probe_value(t),
                ours::probe_from_value(t as i16),
                ours::probe_from_timestamp(t),
            )
        };
        value.check(v == t as i16, || t);
        from_value.check(bits == t, || t);
        float.check(same(x, f64::from(t as i16)), || t);
    }
    value.finish() & from_value.finish() & float.finish()
}

/// The functions of two stamps: every first stamp with second ones on a grid and around 0, a quarter and half of the space.
fn of_stamps() -> bool {
    let mut steps: Vec<u16> = (0..=u16::MAX).step_by(811).collect();
    for around in [0u16, 16_384, 32_768, 49_152] {
        steps.extend((-4i16..=4).map(|d| around.wrapping_add(d as u16)));
    }
    let mut add = Group::new("Timestamp::add");
    let mut sub = Group::new("Timestamp::sub");
    let mut range = Group::new("Timestamp::in_comparable_range");
    for a in 0..=u16::MAX {
        for &n in &steps {
            let b = a.wrapping_add(n);
            // SAFETY: the functions take two numbers and answer every pair.
            let (sum, difference, inside) = unsafe { (ours::probe_add(a, n), ours::probe_sub(a, b), ours::probe_in_range(a, b)) };
            add.check(sum == b, || format!("{a}, {n}"));
            sub.check(difference == a.wrapping_sub(b), || format!("{a}, {b}"));
            range.check(inside == (-16_383..=16_382).contains(&(a.wrapping_sub(b) as i16)), || {
                format!("{a}, {b}")
            });
        }
    }
    add.finish() & sub.finish() & range.finish()
}

fn main() {
    let values = floats();
    if !(of_float(&values) & of_floats(&values) & to_stamp(&values) & of_stamp() & of_stamps()) {
        std::process::exit(1);
    }
}
