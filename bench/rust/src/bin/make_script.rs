//! Makes a script of calls: `make_script NAME REPETITIONS [UPDATES] > SCRIPT`, cut to so many
//! updates; `make_script NAME calls` says how many calls it has. The same name gives the same calls.
//! bench/README.md says what each script is after.

use std::{
    env,
    io::{self, Write},
    process::ExitCode,
};

const NAMES: &str = "ordinary idle catch-up buffers-full";

/// The server's clock is ahead by so many seconds: the first frames are some 700 before a stamp
/// wraps, and half a frame keeps the worlds' time away from whole frames.
const OFFSET: f64 = 534.0 + 0.5 / 60.0;

const LAG: f64 = 0.3;

/// What a script does at each update.
struct Plan {
    updates: u64,
    blend: f64,
    /// A clock message every so many updates once the clock is synced; 0 for none.
    clock: u64,
    /// A snapshot every so many updates; 0 for the first alone.
    snapshot: u64,
    /// How many frames a snapshot is behind the server.
    behind: i64,
    /// A command from the inbox every so many updates; 0 for none.
    command: u64,
    /// A command of this client every so many updates; 0 for none.
    issue: u64,
    /// A report every so many updates; 0 for none.
    report: u64,
    /// Commands for frames far ahead that the first snapshot brings with it.
    far_ahead: i64,
}

fn plan_of(name: &str) -> Option<Plan> {
    let ordinary = Plan {
        updates: 3600,
        blend: 0.2,
        clock: 12,
        snapshot: 6,
        behind: 3,
        command: 6,
        issue: 10,
        report: 60,
        far_ahead: 0,
    };
    match name {
        "ordinary" => Some(ordinary),
        "idle" => Some(Plan {
            clock: 0,
            snapshot: 0,
            command: 0,
            issue: 0,
            report: 0,
            ..ordinary
        }),
        "catch-up" => Some(Plan {
            blend: 1.0 / 60.0,
            behind: 582,
            command: 20,
            issue: 0,
            report: 0,
            ..ordinary
        }),
        "buffers-full" => Some(Plan {
            command: 0,
            issue: 0,
            report: 0,
            far_ahead: 64,
            ..ordinary
        }),
        _ => None,
    }
}

/// How many clock messages sync the clock: 8 needed, and 1 left out at each end.
const SAMPLES: u64 = 10;

struct Script {
    words: Vec<u32>,
    handle: u32,
    calls: u64,
}

impl Script {
    fn float(&mut self, x: f64) {
        let bits = x.to_bits();
        self.words.push((bits >> 32) as u32);
        self.words.push(bits as u32);
    }

    fn next_handle(&mut self) -> u32 {
        self.handle = (self.handle + 1) % (1 << 24);
        self.handle
    }

    fn stamped(&mut self, inbox: &mut Vec<u32>, kind: u32, frame: i64) {
        inbox.push(kind << 28 | u32::from(frame as u16));
        inbox.push(4 << 28 | self.next_handle());
    }
}

/// The three words of a float in an inbox.
fn time_words(x: f64) -> [u32; 3] {
    let bits = x.to_bits();
    [bits >> 56, bits >> 28 & 0x0fff_ffff, bits & 0x0fff_ffff].map(|part| 5 << 28 | part as u32)
}

fn every(period: u64, i: u64) -> bool {
    period != 0 && i % period == 0
}

fn script_of(plan: &Plan, repetitions: u32) -> Script {
    let mut s = Script {
        words: vec![repetitions],
        handle: 0,
        calls: 1,
    };
    for x in [1.0 / 60.0, plan.blend, LAG, 0.2, 0.1, 1.0, 0.25, 0.2] {
        s.float(x);
    }
    s.words.extend([8, 10, 2]);
    let mut before = 0.0;
    for i in 1..=plan.updates {
        let seconds = i as f64 / 60.0;
        let server_frame = ((seconds + OFFSET) * 60.0) as i64;
        let mut inbox = Vec::new();
        if i <= SAMPLES || every(plan.clock, i) {
            inbox.push(3 << 28 | 7);
            inbox.extend(time_words(seconds - 0.05));
            inbox.extend(time_words(seconds - 0.025 + OFFSET));
        }
        // The worlds play from the update after the sync on; a few updates later they are at the
        // server's time with the lag.
        let playing = i.saturating_sub(SAMPLES + 10);
        if playing > 0 {
            if every(plan.command, playing) {
                s.stamped(&mut inbox, 1, server_frame + 12);
            }
            if playing == 1 {
                for n in 0..plan.far_ahead {
                    s.stamped(&mut inbox, 1, server_frame + 8000 + n);
                }
            }
            if playing == 1 || every(plan.snapshot, playing) {
                s.stamped(&mut inbox, 2, server_frame - plan.behind);
            }
        }
        s.words.push(1);
        s.float(seconds - before);
        s.float(seconds);
        s.words.push(inbox.len() as u32);
        s.words.extend(inbox);
        s.calls += 1;
        before = seconds;
        if playing > 10 {
            if every(plan.issue, playing) {
                let handle = s.next_handle();
                s.words.extend([2, handle]);
                s.calls += 1;
            }
            if every(plan.report, playing) {
                s.words.push(3);
                s.calls += 1;
            }
        }
    }
    s
}

/// What the arguments ask for.
enum Asked {
    Bytes(Vec<u8>),
    Calls(u64),
}

fn asked_by(arguments: &[String]) -> Option<Asked> {
    let mut plan = plan_of(arguments.first()?)?;
    let second = arguments.get(1)?;
    if second == "calls" {
        return Some(Asked::Calls(script_of(&plan, 0).calls));
    }
    if let Some(updates) = arguments.get(2) {
        plan.updates = updates.parse().ok()?;
    }
    let script = script_of(&plan, second.parse().ok()?);
    Some(Asked::Bytes(
        script
            .words
            .into_iter()
            .flat_map(u32::to_le_bytes)
            .collect(),
    ))
}

fn main() -> ExitCode {
    let arguments: Vec<String> = env::args().skip(1).collect();
    match asked_by(&arguments) {
        Some(Asked::Bytes(bytes)) => match io::stdout().write_all(&bytes) {
            Ok(()) => ExitCode::SUCCESS,
            Err(_) => ExitCode::FAILURE,
        },
        Some(Asked::Calls(calls)) => {
            println!("{calls}");
            ExitCode::SUCCESS
        }
        None => {
            eprintln!("usage: make_script NAME REPETITIONS [UPDATES] | make_script NAME calls");
            eprintln!("NAME is one of {NAMES}");
            ExitCode::from(2)
        }
    }
}
