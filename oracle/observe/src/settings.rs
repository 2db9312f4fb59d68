//! The settings of an `open` call.

/// The settings in the order of the call, before they are known to be within limits.
#[derive(Clone, Copy, Debug, PartialEq)]
pub struct Settings {
    pub timestep: f64,
    pub blend: f64,
    pub lag: f64,
    pub period: f64,
    pub deviation: f64,
    pub skip: f64,
    pub update_max: f64,
    pub needed: u64,
    pub rate: f64,
    pub fastforward_max: u64,
    pub method: u64,
}
