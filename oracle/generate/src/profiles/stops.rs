//! Runs that reach each kind of refusal 26 that can arise, and pass close by it.

use super::exact_settings;
use crate::{
    rng::Rng,
    run::Exact,
    text::{self, Out, Settings},
};

pub fn stops(out: &mut Out, rng: &mut Rng) {
    match rng.below(3) {
        0 => {
            let near = rng.pick(&[0, 0, 0, 1, -1]);
            healthy_half_cycle(out, rng, near);
        }
        1 => {
            let ahead = rng.pick(&[1, 2, 2, 3, 5]);
            obsolete_ahead(out, rng, ahead);
        }
        _ => healthy_ends_obsolete(out, rng),
    }
}

/// Settings in which the new world never catches up (m = 1).
fn slow_settings(rng: &mut Rng) -> Settings {
    let mut settings = exact_settings(rng);
    settings.lag = 0.0;
    settings.needed = 1;
    settings.fastforward_max = 1;
    settings
}

/// Loads a snapshot `behind` frames behind the old world, which stays so with m = 1.
pub fn load_behind(exact: &mut Exact, behind: i64) {
    let stamp = exact.stamp().wrapping_sub(behind as i16);
    exact.play(1, &text::snapshot(stamp, 5));
}

/// The same update over again: the session is unchanged, so the refusal is too.
fn repeat(exact: &mut Exact, times: i64) {
    for _ in 0..times {
        exact.play(1, &[]);
        exact.target -= 1;
    }
    exact.run.report();
}

/// The new world falls half a cycle behind by a skip, give or take `near` frames.
pub fn healthy_half_cycle(out: &mut Out, rng: &mut Rng, near: i64) {
    let settings = slow_settings(rng);
    let start = rng.between(-40_000, 40_000);
    let mut exact = Exact::begin(out, rng, settings, 1, 2, start);
    let behind = exact.run.rng.between(2, 40);
    load_behind(&mut exact, behind);
    // One frame is played before the skip, and the new world keeps its distance in it.
    let target = exact.old + 1 - behind + 32_768 + near;
    exact.update(1, target, &[]);
    exact.run.report();
    let times = exact.run.rng.between(1, 3);
    repeat(&mut exact, times);
    let back = exact.old - exact.run.rng.between(3, 9);
    exact.update(0, back, &[]);
    exact.play(1, &[]);
    exact.run.report();
}

/// A queued snapshot comes to lie `ahead` frames ahead of the old world by a skip back.
pub fn obsolete_ahead(out: &mut Out, rng: &mut Rng, ahead: i64) {
    let settings = slow_settings(rng);
    let start = rng.between(-40_000, 40_000);
    let mut exact = Exact::begin(out, rng, settings, 1, 1, start);
    let behind = ahead + exact.run.rng.between(1, 20);
    load_behind(&mut exact, behind);
    let newest = text::snapshot(exact.stamp(), 6);
    let target = exact.old - ahead;
    exact.update(0, target, &newest);
    exact.run.report();
    let times = exact.run.rng.between(1, 3);
    repeat(&mut exact, times);
}

/// The new world runs half a cycle past a snapshot that is still queued. The largest lag puts the
/// last queued stamp almost half a cycle back, so that such a snapshot is let in.
pub fn healthy_ends_obsolete(out: &mut Out, rng: &mut Rng) {
    let mut settings = slow_settings(rng);
    settings.timestep = rng.pick(&[1.0 / 512.0, 1.0 / 1024.0]);
    settings.lag = 16_383.0 * settings.timestep;
    let start = rng.between(-40_000, 40_000);
    let mut exact = Exact::begin(out, rng, settings, 64, 1, start);
    // The first update skips over the lag.
    exact.play(1, &[]);
    let back = exact.run.rng.between(1, 5);
    let behind = back + exact.run.rng.between(1, 10);
    load_behind(&mut exact, behind);
    let newest = text::snapshot(exact.stamp(), 6);
    let target = exact.old - back;
    exact.update(0, target, &newest);
    let after = exact.run.rng.between(1, 6);
    let stamp = exact
        .stamp()
        .wrapping_sub(32_766)
        .wrapping_add(after as i16);
    exact.play(1, &text::snapshot(stamp, 8));
    exact.run.report();
    for _ in 0..exact.run.rng.between(2, 5) {
        let frames = exact.run.rng.between(1, 16);
        exact.play(frames, &[]);
    }
    exact.run.report();
}
