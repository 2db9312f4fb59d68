//! Lines of the call text, and inbox words.

pub use observe::settings::Settings;
use std::{
    fmt::Write as _,
    io::{self, BufWriter, Stdout, Write as _},
};

pub fn float(value: f64) -> String {
    format!("{:016x}", value.to_bits())
}

pub fn open_line(settings: &Settings) -> String {
    let s = settings;
    let floats: Vec<String> = [
        s.timestep,
        s.blend,
        s.lag,
        s.period,
        s.deviation,
        s.skip,
        s.update_max,
    ]
    .map(float)
    .to_vec();
    format!(
        "open {} {} {} {} {}",
        floats.join(" "),
        s.needed,
        float(s.rate),
        s.fastforward_max,
        s.method
    )
}

pub fn update_line(delta: f64, seconds: f64, tape: u64, inbox: &[u32]) -> String {
    let mut line = format!("update {} {} {tape}", float(delta), float(seconds));
    for word in inbox {
        write!(line, " {word:08x}").expect("writing to a string");
    }
    line
}

pub fn mean_line(needed: u64, rate: f64, answer_length: u64, bytes: &[u8]) -> String {
    let digits: String = if bytes.is_empty() {
        "-".to_owned()
    } else {
        bytes.iter().map(|byte| format!("{byte:02x}")).collect()
    };
    format!("mean {needed} {} {answer_length} {digits}", float(rate))
}

pub fn stamp_line(seconds: f64, timestep: f64) -> String {
    format!("stamp {} {}", float(seconds), float(timestep))
}

pub fn span_line(span: u64, p: u64, q: u64) -> String {
    format!("span {span} {p} {q}")
}

pub fn command(stamp: i16, handle: u32) -> [u32; 2] {
    [0x1000_0000 | u32::from(stamp as u16), 0x4000_0000 | handle]
}

pub fn snapshot(stamp: i16, handle: u32) -> [u32; 2] {
    [0x2000_0000 | u32::from(stamp as u16), 0x4000_0000 | handle]
}

fn float_words(value: f64) -> [u32; 3] {
    let bits = value.to_bits();
    [bits >> 56, (bits >> 28) & 0x0fff_ffff, bits & 0x0fff_ffff]
        .map(|part| 0x5000_0000 | part as u32)
}

pub fn clock(id: u32, send: f64, server: f64) -> Vec<u32> {
    let mut words = vec![0x3000_0000 | id];
    words.extend(float_words(send));
    words.extend(float_words(server));
    words
}

/// The samples that a clock stores before it takes their mean.
pub fn samples_to_store(needed: u64, rate: f64) -> u64 {
    needed + 2 * (needed as f64 * rate / 2.0).max(1.0).ceil() as u64
}

/// Prints calls up to a limit.
pub struct Out {
    stream: BufWriter<Stdout>,
    left: u64,
    /// A `session` line follows every so many calls; 0 for never.
    sessions: u64,
    since_session: u64,
}

impl Out {
    pub fn new(limit: u64, sessions: u64) -> Self {
        Self {
            stream: BufWriter::new(io::stdout()),
            left: limit,
            sessions,
            since_session: 0,
        }
    }

    pub fn is_full(&self) -> bool {
        self.left == 0
    }

    pub fn comment(&mut self, text: &str) {
        self.print(&format!("# {text}"));
    }

    /// One call, and a `session` line after it where one is due (host calls do not count).
    pub fn call(&mut self, line: &str) {
        if self.left == 0 {
            return;
        }
        self.left -= 1;
        self.print(line);
        let host = ["order", "stamp", "mean", "span"]
            .iter()
            .any(|name| line.starts_with(name));
        if self.sessions == 0 || host {
            return;
        }
        self.since_session += 1;
        if self.since_session == self.sessions {
            self.since_session = 0;
            self.print("session");
        }
    }

    /// Prints a line; a reader that went away ends the program quietly.
    pub fn print(&mut self, line: &str) {
        if writeln!(self.stream, "{line}").is_err() {
            std::process::exit(0);
        }
    }

    pub fn flush(&mut self) {
        if self.stream.flush().is_err() {
            std::process::exit(0);
        }
    }
}
