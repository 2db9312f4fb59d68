//! The host calls of 01, order, stamp and mean, answered by the Rust's own stamps and clock.

use crate::limits::{mean_settings_pass, sample_passes, seconds_pass, timestep_passes};
use crystalorb::{
    clocksync::probe::{mean, samples_to_store},
    timestamp::Timestamp,
    Config,
};

/// "Order is -1, 0 or 1, first against second."
pub fn order(first: i16, second: i16) -> i32 {
    let stamp = |value: i16| Timestamp::default() + value;
    stamp(first).cmp(&stamp(second)) as i32
}

/// "The frame stamp (cut toward zero) is returned signed, or 65,536 plus 1 for a timestep outside
/// the settings' range, or plus 2 for seconds not finite or beyond 2^32."
pub fn frame_stamp(seconds: f64, timestep: f64) -> i32 {
    if !timestep_passes(timestep) {
        65_536 + 1
    } else if !seconds_pass(seconds) {
        65_536 + 2
    } else {
        i32::from(i16::from(Timestamp::from_seconds(seconds, timestep)))
    }
}

/// "The mean takes samples needed and rate; it returns 0 and writes 8 bytes, low byte first, or
/// returns 1 (needed or rate out of range) or 8 and zeroes the answer buffer."
pub fn mean_of_bytes(needed: u64, rate: f64, answer_length: usize, bytes: &[u8]) -> (u32, Vec<u8>) {
    match try_mean(needed, rate, answer_length, bytes) {
        Ok(value) => (0, value.to_le_bytes().to_vec()),
        Err(refusal) => (refusal, vec![0; answer_length]),
    }
}

fn try_mean(needed: u64, rate: f64, answer_length: usize, bytes: &[u8]) -> Result<f64, u32> {
    if !mean_settings_pass(needed, rate) {
        return Err(1);
    }
    let config = Config {
        clock_sync_needed_sample_count: needed as usize,
        clock_sync_assumed_outlier_rate: rate,
        ..Config::new()
    };
    // "8 ... sample bytes not 8 times the samples to store ... or an answer buffer not of 8 bytes"
    if bytes.len() != 8 * samples_to_store(&config) || answer_length != 8 {
        return Err(8);
    }
    let samples: Vec<f64> = bytes
        .chunks_exact(8)
        .map(|chunk| f64::from_le_bytes(chunk.try_into().expect("a chunk has 8 bytes")))
        .collect();
    if !samples.iter().all(|sample| sample_passes(*sample)) {
        return Err(8);
    }
    Ok(mean(&config, &samples))
}
