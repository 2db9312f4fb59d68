//! Shows the clock's state and lends its mean to the host call.

use super::ClockSyncer;
use crate::Config;

impl ClockSyncer {
    pub(crate) fn samples(&self) -> Vec<f64> {
        self.server_seconds_offset_samples.iter().copied().collect()
    }

    pub(crate) fn request_timer(&self) -> f64 {
        self.seconds_since_last_request_sent
    }
}

/// How many samples the clock stores before it takes their mean.
pub fn samples_to_store(config: &Config) -> usize {
    config.clock_sync_samples_needed_to_store()
}

/// The clock's mean of these samples.
pub fn mean(config: &Config, samples: &[f64]) -> f64 {
    let mut clock = ClockSyncer::new(config.clone());
    clock.server_seconds_offset_samples = samples.iter().copied().collect();
    clock.rolling_mean_offset_seconds()
}
