//! Clock messages of every kind, and calls that come too early.

use super::{exact_settings, mixed_inbox};
use crate::{
    rng::Rng,
    run::{Exact, Run, TAPE},
    text::{self, Out},
};

const TWO_32: f64 = 4_294_967_296.0;

/// Times at and beyond the limit, and those that are no numbers.
fn bad_or_edge_time(rng: &mut Rng) -> f64 {
    let beyond = f64::from_bits(TWO_32.to_bits() + 1);
    let edge = rng.pick(&[
        TWO_32,
        beyond,
        f64::INFINITY,
        f64::NAN,
        0.0,
        f64::from_bits(1),
    ]);
    if rng.once_in(2) {
        -edge
    } else {
        edge
    }
}

/// Clock messages with wrong ids, bad times, several to an inbox, and drifting offsets.
pub fn clocks(out: &mut Out, rng: &mut Rng) {
    let mut settings = exact_settings(rng);
    settings.needed = rng.pick(&[1, 2, 5, 8, 31, 32]);
    settings.rate = rng.pick(&[0.0, -0.0, 0.1, 0.2, 0.5, 1.0]);
    settings.skip = 8.0 * settings.timestep;
    settings.update_max = 4.0 * settings.timestep;
    settings.deviation = rng.pick(&[0.0, 0.5, 3.0]) * settings.timestep;
    let mut run = Run::new(out, rng, settings);
    run.id = run.rng.pick(&[0, 7, 0x0fff_ffff]);
    run.offset = run.rng.pick(&[0.0, -0.0, 0.3, 1000.0, -4.0e9, 4.0e9]);
    run.open();
    if run.rng.once_in(2) {
        run.sync(settings.timestep);
    }
    for _ in 0..run.rng.between(20, 70) {
        run.seconds += settings.timestep;
        let mut inbox = Vec::new();
        for _ in 0..run.rng.pick(&[0, 1, 1, 1, 2, 3]) {
            let drift = run.rng.range(-6.0, 6.0) * settings.timestep;
            let (mut id, mut send) = (run.id, run.seconds - run.rng.range(0.0, 0.5));
            let mut server = run.seconds + run.offset + drift;
            match run.rng.below(24) {
                0 => id = run.rng.pick(&[1, 7, 8]),
                1 => send = bad_or_edge_time(run.rng),
                2 => server = bad_or_edge_time(run.rng),
                3 => server = -0.0,
                4 => send = run.rng.any_float(),
                _ => {}
            }
            inbox.extend(text::clock(id, send, server));
        }
        run.update_at(settings.timestep, run.seconds, TAPE, &inbox);
        if run.rng.once_in(10) {
            run.report();
        }
    }
}

fn any_early_call(run: &mut Run) {
    let timestep = run.settings.timestep;
    let inbox = match run.rng.below(4) {
        0 => text::command(run.stamp(), 1).to_vec(),
        1 => text::snapshot(run.stamp(), 1).to_vec(),
        2 => [run.clock(), text::snapshot(run.stamp(), 1).to_vec()].concat(),
        _ => Vec::new(),
    };
    match run.rng.below(4) {
        0 => run.report(),
        1 => run.issue(),
        _ => run.update(timestep, &inbox),
    }
}

/// Issues, reports, commands and snapshots before the clock is synced or the client ready.
pub fn early(out: &mut Out, rng: &mut Rng) {
    let settings = exact_settings(rng);
    if rng.once_in(2) {
        let mut run = Run::new(out, rng, settings);
        run.settings.update_max = settings.timestep;
        run.settings.skip = 4.0 * settings.timestep;
        run.open();
        for _ in 0..run.rng.between(3, 12) {
            any_early_call(&mut run);
        }
        return;
    }
    let start = rng.between(-33_000, 33_000);
    let mut exact = Exact::begin(out, rng, settings, 2, 2, start);
    let count = exact.run.rng.pick(&[0, 1, 63, 64]);
    let mut inbox = Vec::new();
    for _ in 0..count {
        inbox.extend(text::command(exact.stamp().wrapping_add(9), 1));
    }
    exact.update(0, exact.target, &inbox);
    for _ in 0..exact.run.rng.between(2, 6) {
        exact.run.issue();
        exact.run.report();
        let inbox = mixed_inbox(exact.run.rng, exact.stamp(), 2);
        exact.play(1, &inbox);
    }
}
