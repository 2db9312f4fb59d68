//! Full buffers, inboxes of every length, and damaged words of every kind.

use super::exact_settings;
use crate::{
    rng::Rng,
    run::{Exact, Run},
    text::{self, Out},
};

/// Commands with stamps from `first` on, a few to a stamp.
fn commands(rng: &mut Rng, first: i16, count: u64) -> Vec<u32> {
    let spread = rng.pick(&[1, 3, 100]);
    let mut inbox = Vec::new();
    for _ in 0..count {
        let stamp = first.wrapping_add(rng.below(spread) as i16);
        inbox.extend(text::command(stamp, rng.handle()));
    }
    inbox
}

/// Buffers at 63, 64 and 65 commands, filled by inboxes and by issues.
pub fn buffers(out: &mut Out, rng: &mut Rng) {
    let settings = exact_settings(rng);
    let start = rng.between(-33_000, 33_000);
    let mut exact = Exact::begin(out, rng, settings, 4, 3, start);
    exact.play(1, &[]);
    if !exact.run.rng.once_in(4) {
        let inbox = text::snapshot(exact.stamp(), 1);
        exact.play(1, &inbox);
        for _ in 0..4 {
            exact.play(1, &[]);
        }
    }
    let ahead = exact.run.rng.pick(&[1, 2, 5, 200]);
    let count = exact.run.rng.pick(&[62, 63, 64, 65]);
    let first = exact.stamp().wrapping_add(ahead);
    let inbox = commands(exact.run.rng, first, count);
    exact.update(0, exact.target, &inbox);
    for _ in 0..exact.run.rng.between(0, 4) {
        exact.run.issue();
    }
    // One more for a full buffer: in range, at its edges, or out of it.
    for _ in 0..exact.run.rng.between(1, 3) {
        let difference = exact.run.rng.pick(&[1, 3, -3, 16_382, 16_383, -16_384]);
        let stamp = exact.stamp().wrapping_add(difference);
        exact.update(0, exact.target, &text::command(stamp, 2));
    }
    exact.run.report();
    let jump = exact.run.rng.pick(&[1, 1, 2, 50, -50, 16_000]);
    if exact.run.rng.once_in(2) {
        exact.update(1, exact.old + jump, &[]);
    }
    for _ in 0..exact.run.rng.between(1, 6) {
        let mut inbox = Vec::new();
        if exact.run.rng.once_in(3) {
            inbox.extend(text::snapshot(exact.stamp(), 3));
        }
        exact.play(1, &inbox);
    }
    let refill = exact.run.rng.pick(&[1, 60, 64]);
    let first = exact.stamp().wrapping_add(1);
    let inbox = commands(exact.run.rng, first, refill);
    exact.play(1, &inbox);
}

/// Well-formed words: clock messages of 7 words and messages of 2 with stamps half a cycle away,
/// which no buffer takes.
fn words_of_length(rng: &mut Rng, run_id: u32, old: i16, length: usize) -> Vec<u32> {
    let mut words = Vec::new();
    if length % 2 == 1 && length >= 7 {
        words.extend(text::clock(run_id, 0.0, 0.0));
    }
    while words.len() + 1 < length {
        let stamp = old
            .wrapping_add(i16::MIN)
            .wrapping_add(rng.between(-9, 9) as i16);
        let message = if rng.once_in(2) {
            text::snapshot(stamp, 4)
        } else {
            text::command(stamp, 4)
        };
        words.extend(message);
    }
    if words.len() < length {
        words.push(rng.pick(&[0x1000_0001, 0x2000_0001, 0x3000_0001]));
    }
    words
}

/// Inboxes of 0, 1, 4,095, 4,096 and 4,097 words.
pub fn inboxes(out: &mut Out, rng: &mut Rng) {
    let settings = exact_settings(rng);
    let start = rng.between(-33_000, 33_000);
    let mut exact = Exact::begin(out, rng, settings, 4, 3, start);
    for length in [0, 1, 4_095, 4_096, 4_097] {
        let id = exact.run.id;
        let old = exact.stamp();
        let inbox = words_of_length(exact.run.rng, id, old, length);
        exact.play(1, &inbox);
    }
    exact.run.report();
}

/// Spoils one word, or cuts the inbox off.
fn spoil(rng: &mut Rng, inbox: &mut Vec<u32>) {
    if inbox.is_empty() {
        inbox.push(rng.bits() as u32);
        return;
    }
    let place = rng.below(inbox.len() as u64) as usize;
    match rng.below(9) {
        // Another kind, one spare or payload bit, or any word.
        0 => inbox[place] = inbox[place] & 0x0fff_ffff | (rng.below(16) as u32) << 28,
        1 | 2 => inbox[place] ^= 1 << rng.below(28),
        3 => inbox[place] ^= 1 << rng.between(24, 27),
        4 => inbox[place] = rng.bits() as u32,
        // A word too few or too many, or the end inside a message.
        5 => {
            inbox.remove(place);
        }
        6 => inbox.insert(place, inbox[place]),
        7 => inbox.truncate(place),
        _ => {
            inbox.pop();
        }
    }
}

/// Damaged words of every kind, before and after the clock is synced.
pub fn damage(out: &mut Out, rng: &mut Rng) {
    let settings = exact_settings(rng);
    let mut run = Run::new(out, rng, settings);
    run.settings.update_max = settings.timestep;
    run.settings.skip = 4.0 * settings.timestep;
    run.open();
    if !run.rng.once_in(5) {
        run.sync(settings.timestep);
    }
    for _ in 0..run.rng.between(6, 24) {
        let mut inbox = Vec::new();
        for _ in 0..run.rng.below(4) {
            let stamp = run.stamp().wrapping_add(run.rng.between(-4, 4) as i16);
            let handle = run.rng.handle();
            match run.rng.below(3) {
                0 => inbox.extend(text::command(stamp, handle)),
                1 => inbox.extend(text::snapshot(stamp, handle)),
                _ => inbox.extend(run.clock()),
            }
        }
        spoil(run.rng, &mut inbox);
        if run.rng.once_in(5) {
            spoil(run.rng, &mut inbox);
        }
        run.update(settings.timestep, &inbox);
    }
    run.report();
}
