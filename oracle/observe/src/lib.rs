//! What the harness observes while a client plays one call: the tape, frames, catch-up steps,
//! each side's ledger, skips, and buffer operations that deviate from 01's rule.
//! The probes inside the client report here; the harness reads the record after the call.

pub mod rule;
pub mod settings;

use std::cell::RefCell;

/// A command or a snapshot: a handle of 24 bits that the host owns.
#[derive(Clone, Copy, Debug, PartialEq, Eq)]
pub struct Handle(pub u32);

/// What a published display state shows.
#[derive(Clone, Copy, Debug, PartialEq)]
pub enum Shown {
    /// One world as it is.
    World(Side),
    /// A mix of both worlds with this weight.
    Mix(f64),
}

/// Left or right world.
#[derive(Clone, Copy, Debug, PartialEq, Eq)]
pub enum Side {
    Left,
    Right,
}

impl Side {
    pub fn index(self) -> usize {
        match self {
            Side::Left => 0,
            Side::Right => 1,
        }
    }

    /// Bit 27 of a tape word names the world.
    fn bit(self) -> u32 {
        (self.index() as u32) << 27
    }
}

/// The reconciliation status, without the weight of Blending.
#[derive(Clone, Copy, Debug, PartialEq, Eq)]
pub enum Status {
    Awaiting,
    Blending,
    Healthy,
    Obsolete,
    Overshot,
}

impl Status {
    pub const ALL: [Status; 5] = [
        Status::Awaiting,
        Status::Blending,
        Status::Healthy,
        Status::Obsolete,
        Status::Overshot,
    ];

    pub fn name(self) -> &'static str {
        match self {
            Status::Awaiting => "Awaiting",
            Status::Blending => "Blending",
            Status::Healthy => "Healthy",
            Status::Obsolete => "Obsolete",
            Status::Overshot => "Overshot",
        }
    }
}

/// What one call did to the buffer of one side. Each count is raised where the thing happens.
#[derive(Clone, Copy, Debug, Default, PartialEq, Eq)]
pub struct Ledger {
    pub taken: u64,
    pub copied: u64,
    pub replaced: u64,
    pub applied: u64,
    pub left_out: u64,
}

/// A skip of the time keeper: the old world's stamp just before it and the stamp that it sets.
#[derive(Clone, Copy, Debug, PartialEq, Eq)]
pub struct Skip {
    pub from: i16,
    pub to: i16,
}

/// A buffer operation whose result differs from 01's rule.
#[derive(Clone, Debug)]
pub struct Deviation {
    pub operation: &'static str,
    pub argument: i16,
    pub before: Vec<i16>,
    pub rust: Vec<i16>,
    pub rule: Vec<i16>,
}

/// The panic payload that ends a call at its first deviation where the rule is not followed.
pub struct Deviated;

/// The panic payload of a 66th frame in one update (refusal 25).
pub struct FrameLimit;

/// "25 a 66th frame in one update."
const FRAMES_MAX: u64 = 65;

#[derive(Default)]
pub struct Record {
    pub tape: Vec<u32>,
    pub frames: u64,
    pub catch_up_steps: u64,
    pub old_steps: u64,
    pub ledgers: [Ledger; 2],
    pub skip: Option<Skip>,
    pub transitions: [[u64; 5]; 5],
    pub loads: u64,
    pub deviations: Vec<Deviation>,
    follow_rule: bool,
    in_catch_up: bool,
    status_before: usize,
    stamp_before_skip: i16,
    /// Where the buffers of the left and the right world stand in memory during this call.
    buffers: [usize; 2],
}

thread_local! {
    static RECORD: RefCell<Record> = RefCell::default();
}

fn with<R>(function: impl FnOnce(&mut Record) -> R) -> R {
    RECORD.with(|record| function(&mut record.borrow_mut()))
}

/// Begins a new record. `buffers` are the addresses of the left and the right world's buffers,
/// 0 where there are no worlds yet.
pub fn begin(follow_rule: bool, buffers: [usize; 2]) {
    with(|record| {
        *record = Record {
            follow_rule,
            buffers,
            ..Record::default()
        }
    });
}

/// Takes the record of the call that has ended.
pub fn finish() -> Record {
    with(std::mem::take)
}

impl Record {
    fn ledger_of(&mut self, buffer: usize) -> Option<&mut Ledger> {
        let index = self.buffers.iter().position(|&b| b == buffer && b != 0)?;
        Some(&mut self.ledgers[index])
    }
}

/// The three 8, 28 and 28 bit parts of a float as words of the given kind, high part first.
pub fn float_words(kind: u32, value: f64) -> [u32; 3] {
    let bits = value.to_bits();
    [bits >> 56, (bits >> 28) & 0x0fff_ffff, bits & 0x0fff_ffff]
        .map(|part| (kind << 28) | part as u32)
}

// Reports of the logging world.

pub fn world_stepped(side: Side) {
    with(|record| {
        record.tape.push((1 << 28) | side.bit());
        if record.in_catch_up {
            record.catch_up_steps += 1;
        } else {
            record.old_steps += 1;
        }
    });
}

pub fn command_applied(side: Side, command: Handle) {
    with(|record| {
        record.tape.push((2 << 28) | side.bit() | command.0);
        record.ledgers[side.index()].applied += 1;
    });
}

pub fn snapshot_applied(side: Side, snapshot: Handle) {
    with(|record| {
        record.tape.push((3 << 28) | side.bit() | snapshot.0);
        record.loads += 1;
    });
}

// Reports of the probe in the client.

/// A frame begins. Ends the call where it would be one too many.
pub fn frame_begins(status: Status) {
    let too_many = with(|record| {
        record.status_before = status as usize;
        let too_many = record.frames == FRAMES_MAX;
        record.frames += 1;
        too_many
    });
    if too_many {
        std::panic::panic_any(FrameLimit);
    }
}

/// A frame has ended and published `shown`.
pub fn frame_ended(status: Status, shown: Option<Shown>) {
    with(|record| {
        match shown {
            None => record.tape.push(7 << 28),
            Some(Shown::World(side)) => record.tape.push((4 << 28) | side.bit()),
            Some(Shown::Mix(weight)) => {
                record.tape.push(5 << 28);
                record.tape.extend(float_words(6, weight));
            }
        }
        record.transitions[record.status_before][status as usize] += 1;
    });
}

pub fn catch_up(begins: bool) {
    with(|record| record.in_catch_up = begins);
}

pub fn before_skip(old_stamp: i16) {
    with(|record| record.stamp_before_skip = old_stamp);
}

pub fn skipped(to: i16) {
    with(|record| {
        record.skip = Some(Skip {
            from: record.stamp_before_skip,
            to,
        });
    });
}

// Reports of the probes in the buffers. A buffer is named by its address.

pub fn taken(buffer: usize) {
    with(|record| {
        if let Some(ledger) = record.ledger_of(buffer) {
            ledger.taken += 1;
        }
    });
}

pub fn left_out(buffer: usize, entries: usize) {
    with(|record| {
        if let Some(ledger) = record.ledger_of(buffer) {
            ledger.left_out += entries as u64;
        }
    });
}

pub fn loaded(buffer: usize, replaced: usize, copied: usize) {
    with(|record| {
        if let Some(ledger) = record.ledger_of(buffer) {
            ledger.replaced += replaced as u64;
            ledger.copied += copied as u64;
        }
    });
}

/// Notes a deviation; ends the call where the rule is not followed.
pub fn deviated(deviation: Deviation) {
    let follow_rule = with(|record| {
        record.deviations.push(deviation);
        record.follow_rule
    });
    if !follow_rule {
        std::panic::panic_any(Deviated);
    }
}
