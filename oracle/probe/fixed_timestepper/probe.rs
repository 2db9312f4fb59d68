//! Shows the time keeper's overshoot.

use super::{FixedTimestepper, TerminationCondition, TimeKeeper};

impl<T: FixedTimestepper, const C: TerminationCondition> TimeKeeper<T, C> {
    pub(crate) fn overshoot(&self) -> f64 {
        self.timestep_overshoot_seconds
    }
}
