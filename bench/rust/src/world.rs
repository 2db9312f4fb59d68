//! The leanest world that leaves the words of our tape: each call of the client appends a word to a
//! buffer that is laid out once.

use crystalorb::{
    command::Command,
    fixed_timestepper::Stepper,
    world::{DisplayState, World},
};

/// A command or a snapshot.
#[derive(Clone, Copy, Debug)]
pub struct Handle(pub u32);

impl Command for Handle {}

/// The words of an update, and how many steps of a world are among them.
pub struct Tape {
    words: [u32; 256],
    count: usize,
    steps: u64,
    worlds: u32,
}

impl Tape {
    fn put(&mut self, word: u32) {
        if self.count < self.words.len() {
            self.words[self.count] = word;
        }
        self.count += 1;
    }

    pub fn words(&self) -> &[u32] {
        &self.words[..self.count]
    }

    pub fn steps(&self) -> u64 {
        self.steps
    }
}

static mut TAPE: Tape = Tape {
    words: [0; 256],
    count: 0,
    steps: 0,
    worlds: 0,
};

/// The one tape. The client makes its worlds itself, so that a world cannot be handed the tape.
pub fn tape() -> &'static mut Tape {
    // The program has one thread, and no caller keeps the reference across a call of another.
    unsafe { &mut *std::ptr::addr_of_mut!(TAPE) }
}

/// Before an update: nothing is on the tape.
pub fn clear() {
    let tape = tape();
    tape.count = 0;
    tape.steps = 0;
}

/// Before a fresh client: the next world that is made is the left one.
pub fn begin() {
    tape().worlds = 0;
}

/// A world knows its side alone: bit 27 of its words.
#[derive(Debug)]
pub struct TapeWorld {
    bit: u32,
}

impl Default for TapeWorld {
    /// The client makes its left world first.
    fn default() -> Self {
        let tape = tape();
        let bit = (tape.worlds & 1) << 27;
        tape.worlds += 1;
        Self { bit }
    }
}

impl Stepper for TapeWorld {
    fn step(&mut self) {
        let tape = tape();
        tape.put(1 << 28 | self.bit);
        tape.steps += 1;
    }
}

impl World for TapeWorld {
    type CommandType = Handle;
    type SnapshotType = Handle;
    type DisplayStateType = Shown;

    fn command_is_valid(_command: &Handle, _client_id: usize) -> bool {
        true
    }

    fn apply_command(&mut self, command: &Handle) {
        tape().put(2 << 28 | self.bit | command.0);
    }

    fn apply_snapshot(&mut self, snapshot: Handle) {
        tape().put(3 << 28 | self.bit | snapshot.0);
    }

    /// Only a server takes snapshots of its world.
    fn snapshot(&self) -> Handle {
        unreachable!("a client takes no snapshot")
    }

    fn display_state(&self) -> Shown {
        Shown::World(self.bit)
    }
}

/// What a display state shows: a world by its bit, or a mix with a weight.
#[derive(Clone, Copy, Debug)]
pub enum Shown {
    World(u32),
    Mix(f64),
}

impl DisplayState for Shown {
    fn from_interpolation(_old: &Self, _new: &Self, t: f64) -> Self {
        Shown::Mix(t)
    }

    /// Called at the end of each frame, by a line that bench/build adds to the client.
    fn published(state: Option<&Self>) {
        let tape = tape();
        match state {
            None => tape.put(7 << 28),
            Some(Shown::World(bit)) => tape.put(4 << 28 | bit),
            Some(Shown::Mix(weight)) => {
                let bits = weight.to_bits();
                tape.put(5 << 28);
                tape.put(6 << 28 | (bits >> 56) as u32);
                tape.put(6 << 28 | (bits >> 28) as u32 & 0x0fff_ffff);
                tape.put(6 << 28 | bits as u32 & 0x0fff_ffff);
            }
        }
    }
}
