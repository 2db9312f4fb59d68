//! Skips forward and back, half a cycle, landings before the wrap, and commands far away.

use super::{exact_settings, mixed_inbox, stamp_around};
use crate::{
    rng::Rng,
    run::{Exact, Run, TAPE},
    text::{self, Out},
};

/// A run with whole frames from any start.
fn begin<'a>(out: &'a mut Out, rng: &'a mut Rng) -> Exact<'a> {
    let settings = exact_settings(rng);
    let max_frames = rng.pick(&[1, 1, 2, 4, 8, 64]);
    let skip_frames = rng.pick(&[1, 2, 5, 20]);
    let start = match rng.below(3) {
        0 => rng.between(-100, 100),
        1 => 32_768 + rng.between(-40, 40),
        _ => rng.between(-70_000, 140_000),
    };
    Exact::begin(out, rng, settings, max_frames, skip_frames, start)
}

/// Plays until the first snapshot is shown, most of the time.
fn warm_up(exact: &mut Exact) {
    let handle = exact.run.rng.handle();
    let behind = exact.run.rng.between(0, 4) as i16;
    // The first update skips over the lag; the second meets a snapshot near the old stamp.
    exact.play(1, &[]);
    let inbox = text::snapshot(exact.stamp().wrapping_sub(behind), handle);
    exact.play(1, &inbox);
    for _ in 0..exact.run.rng.between(0, 8) {
        exact.play(1, &[]);
    }
}

/// Commands that wait when the skip comes: soon, late, and around its landing.
fn waiting_commands(rng: &mut Rng, old: i16, landing: i16) -> Vec<u32> {
    let mut inbox = Vec::new();
    for _ in 0..rng.below(5) {
        let around = if rng.once_in(3) { landing } else { old };
        let stamp = if rng.once_in(4) {
            stamp_around(rng, around)
        } else {
            around.wrapping_add(rng.between(1, 60) as i16)
        };
        inbox.extend(text::command(stamp, rng.handle()));
    }
    inbox
}

/// Where the next skip goes, with the frames of its update's delta.
fn jump(exact: &mut Exact) -> (i64, i64) {
    let old = exact.old;
    let max = exact.max_frames;
    match exact.run.rng.below(10) {
        0 | 1 => (1, old + exact.run.rng.between(1, 100)),
        2 => (1, old + exact.run.rng.between(100, 32_700)),
        3 | 4 => (0, old - exact.run.rng.between(1, 100)),
        5 => (0, old - exact.run.rng.between(100, 32_700)),
        // Exactly half a cycle: the frames of the update come first.
        6 => (max, old + max + 32_768),
        7 => (1, old + exact.run.rng.between(32_760, 32_776)),
        8 => (1, old + 65_536 + exact.run.rng.between(-3, 3)),
        _ => {
            let cycle = old.div_euclid(65_536) * 65_536;
            (1, cycle + 32_768 + exact.run.rng.between(-2, 2))
        }
    }
}

pub fn skip(out: &mut Out, rng: &mut Rng) {
    let mut exact = begin(out, rng);
    warm_up(&mut exact);
    for _ in 0..exact.run.rng.between(3, 10) {
        let (delta, target) = jump(&mut exact);
        let inbox = waiting_commands(exact.run.rng, exact.stamp(), target as i16);
        exact.play(1, &inbox);
        if exact.run.rng.once_in(3) {
            exact.run.issue();
        }
        if exact.run.rng.once_in(3) {
            let stamp = stamp_around(exact.run.rng, exact.stamp());
            exact.play(1, &text::snapshot(stamp, 6));
        }
        exact.update(delta, target, &[]);
        exact.run.report();
        for _ in 0..exact.run.rng.between(0, 5) {
            exact.play(1, &[]);
        }
    }
}

/// Frame counts between 32,767 and the wrap, at fractions whose seconds are exact.
fn before_wrap(rng: &mut Rng) -> f64 {
    let fraction = match rng.below(6) {
        0 => 0.5,
        1 => two_to(-20),
        2 => 1.0 - two_to(-20),
        3 => 1.0,
        4 => 0.0,
        _ => rng.between(1, 1023) as f64 / 1024.0,
    };
    32_767.0 + fraction
}

/// Frame counts at the last bits: 32,768 - 2^-38 wraps and the next below do not; -1 + 2^-38
/// leaves an overshoot of a whole timestep.
fn last_bits(rng: &mut Rng) -> f64 {
    rng.pick(&[
        32_768.0 - two_to(-38),
        32_768.0 - two_to(-37),
        32_768.0 - 3.0 * two_to(-38),
        32_767.0 + two_to(-37),
        32_767.0 + two_to(-38),
        -1.0 + two_to(-38),
        -1.0 + two_to(-37),
        5.0 + two_to(-38),
    ])
}

fn two_to(exponent: i32) -> f64 {
    2.0_f64.powi(exponent)
}

/// Skips that land between 32,767 and the wrap, also with a skip threshold of 0.
pub fn land(out: &mut Out, rng: &mut Rng) {
    let mut settings = exact_settings(rng);
    let timestep = settings.timestep;
    let always = rng.once_in(3);
    settings.skip = if always { 0.0 } else { 2.0 * timestep };
    settings.update_max = rng.pick(&[0.0, 1.0, 4.0]) * timestep;
    // In the first cycle and without lag the last bits of a frame count are exact in seconds.
    let first_cycle = rng.once_in(3);
    let cycle = if first_cycle {
        settings.lag = 0.0;
        0.0
    } else {
        65_536.0 * rng.between(-2, 4) as f64
    };
    let mut run = Run::new(out, rng, settings);
    let start = cycle + 32_768.0 - run.rng.pick(&[3.0, 4.0, 100.0, 20_000.0, 50_000.0]);
    run.seconds = start * timestep;
    run.open();
    run.sync(timestep);
    for _ in 0..run.rng.between(2, 5) {
        if !run.rng.once_in(3) {
            let inbox = mixed_inbox(run.rng, start as i16, 3);
            run.update(timestep, &inbox);
        }
        let frames = if first_cycle {
            last_bits(run.rng)
        } else {
            cycle + before_wrap(run.rng)
        };
        let seconds = frames * timestep - run.settings.lag;
        for _ in 0..run.rng.between(1, 3) {
            let delta = run.rng.pick(&[0.0, timestep, 0.25 * timestep, -timestep]);
            run.update_at(delta, seconds, TAPE, &[]);
        }
        run.report();
        run.seconds = seconds + run.rng.pick(&[0.25, 1.0, 2.0, -5.0, 300.0]) * timestep;
        run.update_at(timestep, run.seconds, TAPE, &[]);
    }
}

/// Commands at the edges of the range, the base midpoint at 0, and moves far away.
pub fn far(out: &mut Out, rng: &mut Rng) {
    let mut exact = begin(out, rng);
    for _ in 0..exact.run.rng.between(8, 30) {
        let around = match exact.run.rng.below(4) {
            0 => 0,
            _ => exact.stamp(),
        };
        let inbox = mixed_inbox(exact.run.rng, around, 8);
        match exact.run.rng.below(8) {
            0 => {
                let (delta, target) = jump(&mut exact);
                exact.update(delta, target, &inbox);
            }
            1 => {
                let target = exact.old + exact.run.rng.between(-20_000, 20_000);
                exact.update(1, target, &inbox);
            }
            _ => exact.play(1, &inbox),
        }
        if exact.run.rng.once_in(6) {
            exact.run.issue();
        }
        if exact.run.rng.once_in(6) {
            exact.run.report();
        }
    }
}
