//! Every limit from both sides: settings, deltas, tapes, and the host calls.

use super::{exact_settings, mixed_inbox};
use crate::{
    rng::Rng,
    run::{Exact, Run, TAPE},
    text::{self, Out, Settings},
};

/// The next float above a positive one, and the next below.
fn above(value: f64) -> f64 {
    f64::from_bits(value.to_bits() + 1)
}

fn below(value: f64) -> f64 {
    f64::from_bits(value.to_bits() - 1)
}

/// A float at, just inside or just outside of one of two limits, or no number.
fn at_limit(rng: &mut Rng, low: f64, high: f64) -> f64 {
    let outside_low = if low == 0.0 {
        -f64::from_bits(1)
    } else {
        below(low)
    };
    let choices = [
        low,
        high,
        above(low),
        below(high),
        outside_low,
        above(high),
        f64::NAN,
        f64::INFINITY,
        -low,
        -high,
        -0.0,
    ];
    rng.pick(&choices)
}

fn spoil_setting(rng: &mut Rng, settings: &mut Settings) {
    match rng.below(12) {
        0 => settings.timestep = at_limit(rng, 1.0 / 1024.0, 1.0),
        1 => settings.blend = at_limit(rng, 1.0 / 1024.0, 60.0),
        2 => settings.lag = at_limit(rng, 0.0, 60.0),
        3 => {
            // The frame count of the lag around 16,383, where halves round up.
            settings.timestep = 1.0 / 512.0;
            let frames = rng.pick(&[
                16_382.0,
                16_383.0,
                16_383.25,
                below(16_383.5),
                16_383.5,
                16_384.0,
            ]);
            settings.lag = frames / 512.0;
        }
        4 => settings.period = at_limit(rng, 0.0, 3600.0),
        5 => settings.deviation = at_limit(rng, 0.0, 3600.0),
        6 => settings.skip = at_limit(rng, 0.0, 3600.0),
        7 => settings.update_max = at_limit(rng, 0.0, 64.0 * settings.timestep),
        8 => settings.needed = rng.pick(&[0, 1, 2, 31, 32, 33, 4_294_967_295]),
        9 => settings.rate = at_limit(rng, 0.0, 1.0),
        10 => settings.fastforward_max = rng.pick(&[0, 1, 2, 63, 64, 65, 4_294_967_295]),
        _ => settings.method = rng.pick(&[0, 1, 2, 3, 4, 255]),
    }
}

/// Settings at their limits, and calls on the session that a refused open returns.
pub fn settings(out: &mut Out, rng: &mut Rng) {
    let mut settings = exact_settings(rng);
    settings.update_max = settings.timestep;
    spoil_setting(rng, &mut settings);
    if rng.once_in(8) {
        spoil_setting(rng, &mut settings);
    }
    let mut run = Run::new(out, rng, settings);
    run.open();
    for _ in 0..run.rng.between(1, 5) {
        match run.rng.below(5) {
            0 => run.report(),
            1 => run.issue(),
            2 => run.out.call("issue 16777216"),
            _ => {
                run.seconds += 1.0;
                let inbox = run.clock();
                run.update_at(1.0, run.seconds, TAPE, &inbox);
            }
        }
    }
}

/// Deltas and seconds negative, zero, tiny, huge, at their limits and no numbers.
pub fn deltas(out: &mut Out, rng: &mut Rng) {
    let settings = exact_settings(rng);
    let timestep = settings.timestep;
    let start = rng.between(-33_000, 33_000);
    let mut exact = Exact::begin(out, rng, settings, 4, 6, start);
    let run = &mut exact.run;
    for _ in 0..run.rng.between(12, 40) {
        let delta = match run.rng.below(9) {
            0 => at_limit(run.rng, 0.0, 3600.0),
            1 => -at_limit(run.rng, 0.0, 3600.0),
            2 => run.rng.any_float(),
            3 => -timestep * run.rng.range(0.0, 4.0),
            4 => f64::from_bits(run.rng.below(4)),
            5 => run.rng.pick(&[0.0, -0.0, 1.0e-300, -1.0e-300]),
            _ => timestep * run.rng.range(0.0, 4.0),
        };
        let seconds = match run.rng.below(10) {
            0 => at_limit(run.rng, 0.0, 4_294_967_296.0),
            1 => run.rng.any_float(),
            2 => -at_limit(run.rng, 0.0, 4_294_967_296.0),
            _ => {
                run.seconds += timestep;
                run.seconds
            }
        };
        let around = run.stamp();
        let inbox = mixed_inbox(run.rng, around, 2);
        run.update_at(delta, seconds, TAPE, &inbox);
        if run.rng.once_in(8) {
            run.issue();
        }
        if run.rng.once_in(8) {
            run.report();
        }
    }
}

/// Tapes of every length up to what the update needs: the same update is handed longer and longer
/// tapes, so that one is one word too short and the next exact.
pub fn tapes(out: &mut Out, rng: &mut Rng) {
    let settings = exact_settings(rng);
    let start = rng.between(-33_000, 33_000);
    let max_frames = rng.pick(&[1, 2, 3]);
    let mut exact = Exact::begin(out, rng, settings, max_frames, 4, start);
    exact.play(1, &[]);
    for _ in 0..exact.run.rng.between(2, 6) {
        let mut inbox = Vec::new();
        if exact.run.rng.once_in(2) {
            let behind = exact.run.rng.between(0, 3) as i16;
            inbox.extend(text::snapshot(exact.stamp().wrapping_sub(behind), 9));
        }
        let frames = exact.run.rng.between(1, max_frames);
        let most = 8 * frames as u64 + 4;
        let (old, target) = (exact.old, exact.target);
        for tape in 0..most {
            exact.update_tape(frames, target + frames, tape, &inbox);
            // As long as the tape is too short, the update is refused and the frame stays.
            exact.old = old;
            exact.target = target;
        }
        exact.old = old + frames;
        exact.target = target + frames;
        if exact.run.rng.once_in(2) {
            exact.run.issue();
        }
    }
    exact.run.report();
}

fn mean_call(rng: &mut Rng) -> String {
    let needed = match rng.below(8) {
        0 => rng.pick(&[0, 33, 4_294_967_295]),
        _ => rng.below(32) + 1,
    };
    let rate = match rng.below(8) {
        0 => at_limit(rng, 0.0, 1.0),
        1 => 0.0,
        2 => 1.0,
        _ => rng.unit(),
    };
    let count = if (1..=32).contains(&needed) && (0.0..=1.0).contains(&rate) {
        text::samples_to_store(needed, rate)
    } else {
        rng.below(6)
    };
    let scale = rng.pick(&[1.0, 1.0e-3, 1.0e9, 1.0e-310]);
    let two_33 = 8_589_934_592.0;
    let mut bytes = Vec::new();
    for _ in 0..count {
        let sample = match rng.below(20) {
            0 => -0.0,
            1 => 0.0,
            2 => rng.pick(&[two_33, -two_33]),
            _ => rng.range(-1.0, 1.0) * scale,
        };
        bytes.extend(sample.to_le_bytes());
    }
    if rng.once_in(12) && bytes.len() >= 8 {
        let sample = rng.pick(&[above(two_33), -above(two_33), f64::NAN, f64::NEG_INFINITY]);
        bytes[..8].copy_from_slice(&sample.to_le_bytes());
    }
    match rng.below(20) {
        0 => bytes.truncate(bytes.len().saturating_sub(1)),
        1 => bytes.extend([0; 8]),
        2 => bytes.clear(),
        _ => {}
    }
    let answer_length = match rng.below(12) {
        0 => rng.pick(&[0, 1, 7, 9, 16]),
        _ => 8,
    };
    text::mean_line(needed, rate, answer_length, &bytes)
}

fn stamp_call(rng: &mut Rng) -> String {
    let timestep = match rng.below(6) {
        0 => at_limit(rng, 1.0 / 1024.0, 1.0),
        1 => rng.range(1.0 / 1024.0, 1.0),
        _ => rng.pick(&[1.0, 0.5, 1.0 / 60.0, 1.0 / 1024.0]),
    };
    let seconds = match rng.below(8) {
        0 => at_limit(rng, 0.0, 4_294_967_296.0),
        1 => -at_limit(rng, 0.0, 4_294_967_296.0),
        2 => rng.any_float(),
        3 => {
            // Around a wrap, down to the last bits below it.
            let cycle = 65_536.0 * rng.between(-2, 2) as f64 + 32_768.0;
            let near = rng.pick(&[0.0, 0.5, 1.0, -0.5, -1.0, 1.5]);
            let tiny = 2.0_f64.powi(-(rng.between(30, 40) as i32));
            (cycle + near - tiny) * timestep
        }
        4 => rng.range(-4.0e9, 4.0e9),
        _ => rng.range(-1.0e5, 1.0e5) * timestep,
    };
    text::stamp_line(seconds, timestep)
}

fn order_call(rng: &mut Rng) -> String {
    let first = rng.bits() as i16;
    let second = match rng.below(6) {
        0 => rng.bits() as i16,
        1 => first,
        2 => first.wrapping_add(i16::MIN),
        3 => first.wrapping_add(i16::MAX),
        4 => first.wrapping_add(rng.between(-1, 1) as i16),
        _ => rng.pick(&[0, 1, -1, i16::MIN, i16::MAX]),
    };
    format!("order {first} {second}")
}

/// The host calls order, stamp and mean with inputs of every kind.
pub fn host(out: &mut Out, rng: &mut Rng) {
    for _ in 0..rng.between(10, 40) {
        let line = match rng.below(4) {
            0 => order_call(rng),
            1 | 2 => stamp_call(rng),
            _ => mean_call(rng),
        };
        out.call(&line);
    }
}
