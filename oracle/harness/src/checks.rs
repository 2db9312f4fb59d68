//! What must hold after every accepted call: the ledger sums, the step words, and 01's "Sound".

use crate::limits::{sample_passes, Settings, BUFFER_CAPACITY};
use crystalorb::client::probe::{BufferView, View, WorldsView};
use observe::{rule::in_range, Ledger, Record};

/// held after = held before + taken + copied - replaced - applied - left out, written without
/// differences.
pub fn ledger(side: &str, before: usize, after: usize, ledger: &Ledger) -> Result<(), String> {
    let gained = before as u64 + ledger.taken + ledger.copied;
    let lost = ledger.replaced + ledger.applied + ledger.left_out;
    if gained == lost + after as u64 {
        Ok(())
    } else {
        Err(format!(
            "the {side} ledger does not add up: held {before} before, {after} after, {ledger:?}"
        ))
    }
}

/// "F = frames that TimeKeeper::update plays; C = steps of the world then new": every frame steps
/// the old world once, and the step words on the tape are F + C.
pub fn steps(record: &Record) -> Result<(), String> {
    let words = record.tape.iter().filter(|word| *word >> 28 == 1).count() as u64;
    if words == record.frames + record.catch_up_steps && record.old_steps == record.frames {
        Ok(())
    } else {
        Err(format!(
            "{words} step words, {} of the old world, with F = {} and C = {}",
            record.old_steps, record.frames, record.catch_up_steps
        ))
    }
}

/// The old stamp moves by F and the skip's distance, modulo 65,536; a frame makes at most m catch-up
/// steps.
pub fn stamps(old_before: i16, old_after: i16, record: &Record, most: u64) -> Result<(), String> {
    let distance = record
        .skip
        .map_or(0, |skip| skip.to.wrapping_sub(skip.from));
    let expected = old_before
        .wrapping_add(record.frames as i16)
        .wrapping_add(distance);
    if old_after != expected {
        Err(format!(
            "the old stamp went from {old_before} to {old_after} with F = {} and skip {:?}",
            record.frames, record.skip
        ))
    } else if record.catch_up_steps > most * record.frames {
        Err(format!(
            "{} catch-up steps in {} frames",
            record.catch_up_steps, record.frames
        ))
    } else {
        Ok(())
    }
}

fn buffer_sound(buffer: &BufferView) -> bool {
    let differences: Vec<i16> = buffer
        .entries
        .iter()
        .map(|(stamp, _)| stamp.wrapping_sub(buffer.midpoint))
        .collect();
    buffer.entries.len() <= BUFFER_CAPACITY
        && differences.windows(2).all(|pair| pair[0] <= pair[1])
        && buffer
            .entries
            .iter()
            .all(|(stamp, handle)| in_range(*stamp, buffer.midpoint) && handle.0 < 1 << 24)
}

fn worlds_fault(worlds: &WorldsView, settings: &Settings) -> Option<&'static str> {
    let buffers = [&worlds.sides[0], &worlds.sides[1], &worlds.base];
    let stamps_differ = worlds.old_stamp() != worlds.new_stamp();
    let [left, right] = worlds.initialised;
    let (old, new) = if worlds.left_is_new {
        (right, left)
    } else {
        (left, right)
    };
    if !buffers.into_iter().all(buffer_sound) {
        Some("a buffer's count, order or range")
    } else if !(0.0..=1.0).contains(&worlds.weight) || (stamps_differ && worlds.weight != 0.0) {
        Some("the blend weight")
    } else if !(0.0..=settings.timestep).contains(&worlds.overshoot) {
        Some("the overshoot")
    } else if old && !new {
        Some("old initialised without new")
    } else {
        None
    }
}

/// "Every session returned by an accepted call is sound."
pub fn sound(view: &View, settings: &Settings, stored: usize) -> Result<(), String> {
    let fault = if view.samples.len() >= stored || !view.samples.iter().all(|s| sample_passes(*s)) {
        Some("the samples")
    } else if !view.timer.is_finite() || view.timer > 3_600.0 {
        Some("the request timer")
    } else if view.offset.is_some() != view.worlds.is_some()
        || !view.offset.iter().all(|offset| sample_passes(*offset))
    {
        Some("the offset")
    } else if view.worlds.is_some() && view.id.is_none() {
        Some("the client id")
    } else {
        view.worlds
            .as_ref()
            .and_then(|worlds| worlds_fault(worlds, settings))
    };
    match fault {
        None => Ok(()),
        Some(part) => Err(format!(
            "an accepted call returned an unsound session: {part}"
        )),
    }
}
