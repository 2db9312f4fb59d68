//! A world that logs each call as a tape word.

use crystalorb::{fixed_timestepper::Stepper, world::World};
use observe::{Handle, Shown, Side};

#[derive(Clone, Debug, Default)]
pub struct LoggingWorld {
    /// Told by the harness as soon as the worlds exist, before any call reaches them.
    side: Option<Side>,
}

impl LoggingWorld {
    pub fn name(&mut self, side: Side) {
        self.side = Some(side);
    }

    fn side(&self) -> Side {
        self.side
            .expect("a world is told its side before it is used")
    }
}

impl Stepper for LoggingWorld {
    fn step(&mut self) {
        observe::world_stepped(self.side());
    }
}

impl World for LoggingWorld {
    type CommandType = Handle;
    type SnapshotType = Handle;
    type DisplayStateType = Shown;

    fn command_is_valid(_command: &Handle, _client_id: usize) -> bool {
        true
    }

    fn apply_command(&mut self, command: &Handle) {
        observe::command_applied(self.side(), *command);
    }

    fn apply_snapshot(&mut self, snapshot: Handle) {
        observe::snapshot_applied(self.side(), snapshot);
    }

    /// Only a server takes snapshots of its world.
    fn snapshot(&self) -> Handle {
        unreachable!("a client takes no snapshot")
    }

    fn display_state(&self) -> Shown {
        Shown::World(self.side())
    }
}
