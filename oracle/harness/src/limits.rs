//! The limits of 01 that the Rust does not check. Each function quotes the sentence it follows.

use crate::inbox::{self, Fault, Message};
use crystalorb::client::probe::{BufferView, View, WorldsView};
use observe::rule::in_range;
pub use observe::settings::Settings;

pub const TWO_32: f64 = 4_294_967_296.0;
pub const TWO_33: f64 = 8_589_934_592.0;

/// "3 over 4,096 words"
const INBOX_WORDS_MAX: usize = 4_096;

/// "Each buffer holds 64 commands."
pub const BUFFER_CAPACITY: usize = 64;

fn between(value: f64, low: f64, high: f64) -> bool {
    low <= value && value <= high
}

/// "timestep 1/1024 to 1 s"
pub fn timestep_passes(timestep: f64) -> bool {
    between(timestep, 1.0 / 1024.0, 1.0)
}

/// "samples needed 1 to 32; outlier rate 0 to 1"
pub fn mean_settings_pass(needed: u64, rate: f64) -> bool {
    (1..=32).contains(&needed) && between(rate, 0.0, 1.0)
}

/// The paragraph "Settings" of 01; a NaN passes nowhere and -0.0 passes as 0.
pub fn settings_pass(settings: &Settings) -> bool {
    timestep_passes(settings.timestep)
        // "blend_latency 1/1024 to 60"
        && between(settings.blend, 1.0 / 1024.0, 60.0)
        // "lag latency 0 to 60, its frame count at most 16,383"
        && between(settings.lag, 0.0, 60.0)
        && (settings.lag / settings.timestep).round() <= 16_383.0
        // "request period, deviation, skip threshold 0 to 3,600"
        && between(settings.period, 0.0, 3_600.0)
        && between(settings.deviation, 0.0, 3_600.0)
        && between(settings.skip, 0.0, 3_600.0)
        // "update_delta_seconds_max 0 to 64 x timestep"
        && between(settings.update_max, 0.0, 64.0 * settings.timestep)
        && mean_settings_pass(settings.needed, settings.rate)
        // "m 1 to 64 (the Rust stops at 0)"
        && (1..=64).contains(&settings.fastforward_max)
        && settings.method <= 2
}

/// "|delta| <= 3,600, |seconds| <= 2^32, both finite."
fn times_pass(delta: f64, seconds: f64) -> bool {
    between(delta, -3_600.0, 3_600.0) && seconds_pass(seconds)
}

/// "seconds not finite or beyond 2^32"
pub fn seconds_pass(seconds: f64) -> bool {
    between(seconds, -TWO_32, TWO_32)
}

/// "7 an issue's handle over 24 bits"
pub fn handle_passes(handle: u64) -> bool {
    handle < 1 << 24
}

/// "8 ... a sample not finite or beyond 2^33"
pub fn sample_passes(sample: f64) -> bool {
    between(sample, -TWO_33, TWO_33)
}

/// "6 a clock time not finite or beyond 2^32"
fn clock_times_pass(message: &Message) -> bool {
    match message {
        Message::Clock { send, server, .. } => seconds_pass(*send) && seconds_pass(*server),
        _ => true,
    }
}

/// Refusals 2 to 6 of an update, lowest number first, or the messages of its inbox.
pub fn update_input(delta: f64, seconds: f64, words: &[u32]) -> Result<Vec<Message>, u32> {
    if !times_pass(delta, seconds) {
        return Err(2);
    }
    if words.len() > INBOX_WORDS_MAX {
        return Err(3);
    }
    let messages = inbox::messages(words).map_err(|fault| match fault {
        Fault::Word => 4_u32,
        Fault::End => 5,
    })?;
    if !messages.iter().all(clock_times_pass) {
        return Err(6);
    }
    Ok(messages)
}

/// Refusals 21 to 23 of an update on a sound session.
pub fn update_session(view: &View, messages: &[Message]) -> Result<(), u32> {
    let has_commands_or_snapshots = messages
        .iter()
        .any(|message| !matches!(message, Message::Clock { .. }));
    // "21 an inbox's command or snapshot, or a report, while the clock syncs"
    if view.worlds.is_none() && has_commands_or_snapshots {
        return Err(21);
    }
    // "22 another client id", also two ids within one inbox
    if !ids_agree(view.id, messages) {
        return Err(22);
    }
    let commands = messages.iter().filter_map(|message| match message {
        Message::Command { stamp, .. } => Some(*stamp),
        _ => None,
    });
    match &view.worlds {
        Some(worlds) if !commands_fit(worlds, commands) => Err(23),
        _ => Ok(()),
    }
}

fn ids_agree(known: Option<usize>, messages: &[Message]) -> bool {
    let mut known = known;
    messages.iter().all(|message| match message {
        Message::Clock { id, .. } => *known.get_or_insert(*id as usize) == *id as usize,
        _ => true,
    })
}

/// "23 a command for a buffer that takes it but holds 64": the commands are received one after the
/// other by the base and by both sides, whose midpoints stay where they are meanwhile.
pub fn commands_fit(worlds: &WorldsView, commands: impl Iterator<Item = i16>) -> bool {
    let buffers: [&BufferView; 3] = [&worlds.base, &worlds.sides[0], &worlds.sides[1]];
    let mut counts = buffers.map(|buffer| buffer.entries.len());
    for stamp in commands {
        for (buffer, count) in buffers.iter().zip(&mut counts) {
            if in_range(stamp, buffer.midpoint) {
                if *count >= BUFFER_CAPACITY {
                    return false;
                }
                *count += 1;
            }
        }
    }
    true
}
