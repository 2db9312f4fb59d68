//! Observes loads and catch-up steps of one world, and shows its parts.
//! The build renames two functions of simulation.rs to `unobserved_*`; these stand in their place.

use super::{InitializationType, Simulation};
use crate::{
    command::CommandBuffer,
    timestamp::{Timestamp, Timestamped},
    world::World,
};

impl<WorldType: World, const INITIALIZATION_TYPE: InitializationType>
    Simulation<WorldType, INITIALIZATION_TYPE>
{
    pub(crate) fn command_buffer(&self) -> &CommandBuffer<WorldType::CommandType> {
        &self.command_buffer
    }

    pub(crate) fn has_initialized(&self) -> bool {
        self.has_initialized
    }

    pub(crate) fn world_mut(&mut self) -> &mut WorldType {
        &mut self.world
    }

    pub fn apply_completed_snapshot(
        &mut self,
        completed_snapshot: &Timestamped<WorldType::SnapshotType>,
        rewound_command_buffer: CommandBuffer<WorldType::CommandType>,
    ) {
        observe::loaded(
            self.command_buffer.address(),
            self.command_buffer.command_count(),
            rewound_command_buffer.command_count(),
        );
        self.unobserved_apply_completed_snapshot(completed_snapshot, rewound_command_buffer);
    }

    pub fn try_completing_simulations_up_to(
        &mut self,
        target_completed_timestamp: Timestamp,
        max_steps: usize,
    ) {
        observe::catch_up(true);
        self.unobserved_try_completing_simulations_up_to(target_completed_timestamp, max_steps);
        observe::catch_up(false);
    }
}
