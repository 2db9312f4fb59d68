//! Plays a text of calls on the Rust client: calls on standard input, answers on standard output,
//! statistics and notes on standard error.

mod checks;
mod host;
mod inbox;
mod limits;
mod network;
mod panics;
mod session;
mod spans;
mod statistics;
mod text;
mod world;

use limits::Settings;
use session::{Failure, Session};
use statistics::Statistics;
use std::{
    io::{self, BufRead, BufWriter, Write},
    process::ExitCode,
};
use text::{Call, UpdateText};

const USAGE: &str = "usage: harness [--rule] [--quiet] < CALLS > ANSWERS
  --rule   where a buffer operation deviates from 01's rule, go on by the rule
           (without it the program ends at the first deviation)
  --quiet  no statistics on standard error";

/// Settings that do not pass: before the first `open` there is no sound session.
const NO_SETTINGS: Settings = Settings {
    timestep: 0.0,
    blend: 0.0,
    lag: 0.0,
    period: 0.0,
    deviation: 0.0,
    skip: 0.0,
    update_max: 0.0,
    needed: 0,
    rate: 0.0,
    fastforward_max: 0,
    method: 0,
};

/// What ends a run before the end of its text.
enum End {
    /// The line is no call.
    BadCall,
    /// A deviation, where the rule is not followed.
    Deviated(String),
    /// Something that must not happen.
    Broken(String),
}

struct Player {
    follow_rule: bool,
    session: Session,
    statistics: Statistics,
}

impl Player {
    /// Plays one line and returns its answer.
    fn answer(&mut self, line: &str) -> Result<String, End> {
        let call = text::parse(line).ok_or(End::BadCall)?;
        self.statistics.call(name_of(&call));
        match call {
            Call::Open(settings) => {
                self.session = Session::open(settings);
                let refusal = if self.session.is_sound() { 0 } else { 1 };
                self.statistics.refused(refusal, None);
                if refusal == 0 {
                    self.statistics.run_begins();
                }
                Ok(text::open_text(refusal))
            }
            Call::Update {
                delta,
                seconds,
                tape_length,
                words,
            } => self.update(delta, seconds, tape_length, &words),
            Call::Issue(handle) => self.issue(handle),
            Call::Report => self.report(),
            Call::Session => Ok(text::session_text(&self.session.view())),
            Call::Order(first, second) => Ok(format!("order {}", host::order(first, second))),
            Call::Stamp { seconds, timestep } => {
                Ok(format!("stamp {}", host::frame_stamp(seconds, timestep)))
            }
            Call::Mean {
                needed,
                rate,
                answer_length,
                bytes,
            } => {
                let (refusal, answer) =
                    host::mean_of_bytes(needed, rate, answer_length as usize, &bytes);
                self.statistics.mean(refusal);
                Ok(text::mean_text(refusal, &answer))
            }
            Call::Span { span, p, q } => {
                let answer = spans::frames_of_span(span, p, q);
                self.statistics.refused(answer.err().unwrap_or(0), None);
                self.statistics.answered_by_request(1);
                Ok(text::span_text(answer))
            }
        }
    }

    /// The number of a refusal, or the end of the run.
    fn refusal(&mut self, failure: Failure) -> Result<u32, End> {
        match failure {
            Failure::Refused(number, kind) => {
                self.statistics.refused(number, kind);
                Ok(number)
            }
            Failure::Deviated(record) => {
                self.statistics.deviations(&record);
                Err(End::Deviated(format!("{:?}", record.deviations)))
            }
            Failure::Broken(text) => Err(End::Broken(text)),
        }
    }

    fn update(
        &mut self,
        delta: f64,
        seconds: f64,
        tape_length: u64,
        words: &[u32],
    ) -> Result<String, End> {
        match self
            .session
            .update(self.follow_rule, delta, seconds, tape_length, words)
        {
            Ok(updated) => {
                let words = &updated.record.tape;
                self.statistics.refused(0, None);
                self.statistics.deviations(&updated.record);
                self.statistics.updated(&updated, words.len());
                Ok(text::update_text(&UpdateText {
                    refusal: 0,
                    frames: updated.record.frames,
                    catch_up_steps: updated.record.catch_up_steps,
                    clock_request: updated.clock_request,
                    ledgers: updated.ledgers,
                    words,
                    tape_length,
                }))
            }
            Err(failure) => Ok(text::update_text(&UpdateText {
                refusal: self.refusal(failure)?,
                tape_length,
                ..UpdateText::default()
            })),
        }
    }

    fn issue(&mut self, handle: u64) -> Result<String, End> {
        match self.session.issue(self.follow_rule, handle) {
            Ok(issued) => {
                self.statistics.refused(0, None);
                self.statistics.deviations(&issued.record);
                Ok(text::issue_text(0, issued.stamp, &issued.ledgers))
            }
            Err(failure) => {
                let refusal = self.refusal(failure)?;
                Ok(text::issue_text(refusal, 0, &Default::default()))
            }
        }
    }

    fn report(&mut self) -> Result<String, End> {
        match self.session.report() {
            Ok(view) => {
                self.statistics.refused(0, None);
                if let Some(worlds) = &view.worlds {
                    self.statistics.status(worlds.status);
                }
                Ok(text::report_text(0, Some(&view)))
            }
            Err(failure) => Ok(text::report_text(self.refusal(failure)?, None)),
        }
    }
}

fn name_of(call: &Call) -> &'static str {
    match call {
        Call::Open(_) => "open",
        Call::Update { .. } => "update",
        Call::Issue(_) => "issue",
        Call::Report => "report",
        Call::Session => "session",
        Call::Order(..) => "order",
        Call::Stamp { .. } => "stamp",
        Call::Mean { .. } => "mean",
        Call::Span { .. } => "span",
    }
}

/// Plays the whole text. Returns the exit status.
fn run(player: &mut Player) -> io::Result<u8> {
    let mut input = io::stdin().lock();
    let mut output = BufWriter::new(io::stdout().lock());
    let mut line = Vec::new();
    for number in 1_u64.. {
        line.clear();
        if input.read_until(b'\n', &mut line)? == 0 {
            break;
        }
        if line.last() == Some(&b'\n') {
            line.pop();
        }
        if line.is_empty() || line[0] == b'#' {
            continue;
        }
        let result = match std::str::from_utf8(&line) {
            Ok(text) => player.answer(text),
            Err(_) => Err(End::BadCall),
        };
        match result {
            Ok(answer) => writeln!(output, "{answer}")?,
            Err(End::BadCall) => {
                writeln!(output, "bad call at line {number}")?;
                break;
            }
            Err(End::Deviated(text)) => {
                output.flush()?;
                eprintln!("line {number}: a buffer operation deviates from the rule: {text}");
                return Ok(3);
            }
            Err(End::Broken(text)) => {
                output.flush()?;
                eprintln!("line {number}: {text}");
                return Ok(1);
            }
        }
    }
    output.flush()?;
    Ok(0)
}

fn main() -> ExitCode {
    let mut follow_rule = false;
    let mut quiet = false;
    for argument in std::env::args().skip(1) {
        match argument.as_str() {
            "--rule" => follow_rule = true,
            "--quiet" => quiet = true,
            _ => {
                eprintln!("{USAGE}");
                return ExitCode::from(2);
            }
        }
    }
    panics::install_hook();
    let mut player = Player {
        follow_rule,
        session: Session::open(NO_SETTINGS),
        statistics: Statistics::default(),
    };
    let status = run(&mut player);
    if !quiet {
        player.statistics.print();
    }
    match status {
        Ok(status) => ExitCode::from(status),
        Err(error) => {
            eprintln!("harness: {error}");
            ExitCode::from(1)
        }
    }
}
