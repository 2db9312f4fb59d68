//! Ordinary play at several rates with jitter and loss, also around the wrap, and play with
//! settings and times of any kind.

use super::{mixed_inbox, stamp_around};
use crate::{
    rng::Rng,
    run::{Run, FASTFORWARD},
    text::{self, Out, Settings},
};

fn usual_settings(rng: &mut Rng) -> Settings {
    let timestep = rng.pick(&[
        1.0 / 60.0,
        1.0 / 60.0,
        1.0 / 64.0,
        1.0 / 30.0,
        1.0 / 128.0,
        0.1,
        1.0 / 1000.0,
    ]);
    Settings {
        timestep,
        blend: rng.pick(&[0.2, 0.05, 1.0, 1.0 / 60.0]),
        lag: rng.pick(&[0.0, 0.1, 0.3, 1.0]),
        period: rng.pick(&[0.2, 0.5, 2.0]),
        deviation: rng.pick(&[0.01, 0.1, 1.0]),
        skip: rng.pick(&[0.1, 1.0, 5.0]),
        update_max: rng.pick(&[0.25_f64, 0.1, 1.0]).min(64.0 * timestep),
        needed: rng.pick(&[1, 2, 3, 8]),
        rate: rng.pick(&[0.0, 0.2, 0.5]),
        fastforward_max: rng.pick(&FASTFORWARD),
        method: rng.below(3),
    }
}

/// What an ordinary run is like.
struct Style {
    delta: f64,
    jitter: f64,
    /// One message in so many is lost.
    loss: u64,
}

fn style(rng: &mut Rng) -> Style {
    Style {
        delta: 1.0 / rng.pick(&[20.0, 30.0, 60.0, 60.0, 64.0, 144.0, 240.0]),
        jitter: rng.pick(&[0.0, 0.05, 0.3, 0.9]),
        loss: rng.pick(&[2, 5, 1000]),
    }
}

/// The messages that a server's client meets in ordinary play.
fn usual_inbox(run: &mut Run, loss: u64) -> Vec<u32> {
    let mut inbox = Vec::new();
    if run.rng.once_in(6) && !run.rng.once_in(loss) {
        let trip = run.rng.range(0.0, 0.15);
        let noise = run.rng.range(-0.02, 0.02);
        let server = run.seconds + run.offset - trip / 2.0 + noise;
        inbox.extend(text::clock(run.id, run.seconds - trip, server));
    }
    for _ in 0..run.rng.below(3) {
        if !run.rng.once_in(loss) {
            let stamp = run.stamp().wrapping_add(run.rng.between(-12, 12) as i16);
            inbox.extend(text::command(stamp, run.rng.handle()));
        }
    }
    if run.rng.once_in(5) && !run.rng.once_in(loss) {
        let behind = (run.settings.lag / run.settings.timestep) as i64 + run.rng.between(0, 9);
        let stamp = run.stamp().wrapping_sub(behind as i16);
        inbox.extend(text::snapshot(stamp, run.rng.handle()));
    }
    inbox
}

fn ordinary(run: &mut Run, style: &Style) {
    run.open();
    run.sync(style.delta);
    for _ in 0..run.rng.between(30, 120) {
        let mut delta = style.delta * (1.0 + style.jitter * run.rng.range(-1.0, 1.0));
        if run.rng.once_in(60) {
            delta += run.rng.range(0.1, 4.0);
        }
        run.seconds += delta;
        let inbox = usual_inbox(run, style.loss);
        run.update_at(delta, run.seconds, crate::run::TAPE, &inbox);
        if run.rng.once_in(4) {
            run.issue();
        }
        if run.rng.once_in(5) {
            run.report();
        }
    }
}

pub fn play(out: &mut Out, rng: &mut Rng) {
    let settings = usual_settings(rng);
    let style = style(rng);
    let mut run = Run::new(out, rng, settings);
    run.id = run.rng.below(1 << 28) as u32;
    run.seconds = run.rng.range(0.0, 100.0);
    run.offset = run.rng.range(-50.0, 5000.0);
    ordinary(&mut run, &style);
}

/// Ordinary play that reaches a wrap of the stamps.
pub fn wrap(out: &mut Out, rng: &mut Rng) {
    let settings = usual_settings(rng);
    let style = style(rng);
    let mut run = Run::new(out, rng, settings);
    run.seconds = run.rng.range(0.0, 100.0);
    let cycles = run.rng.between(-3, 3);
    let frame = 65_536 * cycles + 32_768 - run.rng.between(0, 60);
    run.offset = frame as f64 * settings.timestep - run.seconds - settings.lag;
    if run.rng.once_in(2) {
        run.offset += run.rng.unit() * settings.timestep;
    }
    ordinary(&mut run, &style);
}

/// A number between two limits, often at one of them.
fn within(rng: &mut Rng, low: f64, high: f64) -> f64 {
    match rng.below(8) {
        0 => low,
        1 => high,
        2 => low + (high - low) * rng.unit().powi(8),
        3 if low == 0.0 => -0.0,
        _ => rng.range(low, high),
    }
}

fn wild_settings(rng: &mut Rng) -> Settings {
    let timestep = match rng.below(4) {
        0 => within(rng, 1.0 / 1024.0, 1.0),
        1 => rng.range(1.0 / 1024.0, 0.02),
        2 => 1.0 / rng.between(1, 1024) as f64,
        _ => rng.pick(&[1.0, 0.5, 1.0 / 60.0]),
    };
    let lag_most = (16_383.0 * timestep).min(60.0);
    let needed_most = rng.pick(&[2, 4, 32]);
    Settings {
        timestep,
        blend: match rng.below(3) {
            0 => within(rng, 1.0 / 1024.0, 60.0),
            1 => timestep,
            _ => rng.range(1.0 / 1024.0, 1.0).max(timestep / 3.0),
        },
        lag: match rng.below(3) {
            0 => 0.0,
            1 => rng.range(0.0, lag_most) * 0.01,
            _ => within(rng, 0.0, lag_most),
        },
        period: within(rng, 0.0, 3600.0),
        deviation: within(rng, 0.0, noticed_span(timestep)),
        skip: match rng.below(4) {
            0 => 0.0,
            1 => timestep * 0.5,
            2 => rng.range(0.0, 20.0 * timestep),
            _ => within(rng, 0.0, 3600.0),
        },
        update_max: match rng.below(3) {
            0 => 64.0 * timestep,
            1 => rng.range(0.0, 4.0 * timestep),
            _ => within(rng, 0.0, 64.0 * timestep),
        },
        needed: rng.below(needed_most) + 1,
        rate: within(rng, 0.0, 1.0),
        fastforward_max: match rng.below(2) {
            0 => rng.pick(&FASTFORWARD),
            _ => rng.below(64) + 1,
        },
        method: rng.below(3),
    }
}

/// A span in which deviations of a run's clock are noticed.
fn noticed_span(timestep: f64) -> f64 {
    200.0 * timestep
}

/// A delta of any size that fits the settings.
fn wild_delta(rng: &mut Rng, settings: &Settings) -> f64 {
    let timestep = settings.timestep;
    match rng.below(16) {
        0 => 0.0,
        1 => -timestep * rng.range(0.0, 3.0),
        2 => settings.update_max,
        3 => rng.range(0.0, 80.0 * timestep),
        4 => timestep * 0.5,
        5 => rng.range(0.0, 1.0e-9),
        6..=9 => timestep,
        _ => rng.range(0.0, 3.0 * timestep),
    }
}

/// Settings, times and stamps of any kind.
pub fn wild(out: &mut Out, rng: &mut Rng) {
    let settings = wild_settings(rng);
    let mut run = Run::new(out, rng, settings);
    run.id = run.rng.below(1 << 28) as u32;
    run.seconds = run.rng.range(-1.0e4, 1.0e4);
    run.offset = match run.rng.below(3) {
        0 => 0.0,
        1 => run.rng.range(-1.0e4, 1.0e4),
        _ => run.rng.range(-4.0e9, 4.0e9),
    };
    run.open();
    run.sync(settings.timestep);
    for _ in 0..run.rng.between(20, 90) {
        let delta = wild_delta(run.rng, &settings);
        run.seconds += delta;
        if run.rng.once_in(25) {
            let frames = run.rng.pick(&[3.0, 60.0, 2_000.0, 33_000.0, 70_000.0]);
            run.seconds += run.rng.range(-1.0, 1.0) * frames * settings.timestep;
        }
        let around = run.stamp();
        let mut inbox = match run.rng.below(3) {
            0 => mixed_inbox(run.rng, around, 4),
            1 => text::snapshot(around.wrapping_sub(run.rng.between(0, 40) as i16), 3).to_vec(),
            _ => Vec::new(),
        };
        if run.rng.once_in(4) {
            let late = run.rng.range(0.0, 4.0 * settings.timestep);
            let server = run.seconds + run.offset + run.rng.range(-1.0, 1.0) * late;
            inbox.extend(text::clock(run.id, run.seconds - late, server));
        }
        run.update_at(delta, run.seconds, crate::run::TAPE, &inbox);
        if run.rng.once_in(5) {
            run.issue();
        }
        if run.rng.once_in(6) {
            run.report();
        }
    }
}

/// Updates at the maximum of 64 timesteps, which play 64 or 65 frames.
pub fn full(out: &mut Out, rng: &mut Rng) {
    let mut settings = wild_settings(rng);
    settings.timestep = rng.range(1.0 / 1024.0, 1.0);
    settings.update_max = 64.0 * settings.timestep;
    settings.skip = 3600.0;
    settings.lag = 0.0;
    settings.needed = 1;
    settings.rate = 0.0;
    let mut run = Run::new(out, rng, settings);
    run.open();
    run.sync(settings.timestep);
    for _ in 0..run.rng.between(1, 5) {
        let delta = settings.update_max * run.rng.pick(&[1.0, 1.0, 1.01, 2.0, 0.99]);
        let mut inbox = Vec::new();
        if run.rng.once_in(3) {
            let stamp = stamp_around(run.rng, run.stamp());
            inbox.extend(text::snapshot(stamp, run.rng.handle()));
        }
        run.update(delta, &inbox);
        run.report();
    }
}
