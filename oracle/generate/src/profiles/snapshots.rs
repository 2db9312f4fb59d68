//! Snapshots late, stale, in the future and half a cycle away, at every status.

use super::{exact_settings, stamp_around};
use crate::{
    rng::Rng,
    run::Exact,
    text::{self, Out},
};

fn snapshot_stamp(rng: &mut Rng, old: i16, last: i16) -> i16 {
    let difference = match rng.below(10) {
        0..=3 => return old.wrapping_sub(rng.between(0, 12) as i16),
        4 => -rng.between(12, 400),
        5 => return last.wrapping_add(rng.between(-3, 3) as i16),
        6 => rng.between(1, 10),
        7 => rng.pick(&[-32_768, -32_767, 32_767, -32_766, 32_766]),
        8 => -rng.between(400, 32_767),
        _ => return stamp_around(rng, old),
    };
    old.wrapping_add(difference as i16)
}

pub fn snapshots(out: &mut Out, rng: &mut Rng) {
    let mut settings = exact_settings(rng);
    settings.lag = rng.pick(&[0.0, 0.0, 3.0, 40.0]) * settings.timestep;
    let max_frames = rng.pick(&[1, 2, 4, 16]);
    let skip_frames = rng.pick(&[1, 2, 5]);
    let start = rng.between(-33_000, 33_000);
    let mut exact = Exact::begin(out, rng, settings, max_frames, skip_frames, start);
    let mut last = exact.stamp();
    for _ in 0..exact.run.rng.between(20, 60) {
        let mut inbox = Vec::new();
        for _ in 0..exact.run.rng.pick(&[0, 0, 1, 1, 2]) {
            last = snapshot_stamp(exact.run.rng, exact.stamp(), last);
            inbox.extend(text::snapshot(last, exact.run.rng.handle()));
        }
        if exact.run.rng.once_in(4) {
            let stamp = exact
                .stamp()
                .wrapping_add(exact.run.rng.between(-6, 6) as i16);
            inbox.extend(text::command(stamp, exact.run.rng.handle()));
        }
        match exact.run.rng.below(14) {
            0 => {
                let target = exact.old - exact.run.rng.between(1, 30);
                exact.update(0, target, &inbox);
            }
            1 => {
                let target = exact.old + exact.run.rng.between(1, 30);
                exact.update(1, target, &inbox);
            }
            2 => exact.update(0, exact.target, &inbox),
            _ => {
                let frames = exact.run.rng.between(1, max_frames);
                exact.play(frames, &inbox);
            }
        }
        if exact.run.rng.once_in(3) {
            exact.run.report();
        }
    }
}
