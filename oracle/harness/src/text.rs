//! Calls and answers as text, to the letter of replay-format.md.

use crate::{limits::Settings, session::SideLedger};
use crystalorb::client::probe::{BufferView, StageName, View, WorldsView};
use observe::Status;
use std::fmt::Write;

#[derive(Debug, PartialEq)]
pub enum Call {
    Open(Settings),
    Update {
        delta: f64,
        seconds: f64,
        tape_length: u64,
        words: Vec<u32>,
    },
    Issue(u64),
    Report,
    Session,
    Order(i16, i16),
    Stamp {
        seconds: f64,
        timestep: f64,
    },
    Mean {
        needed: u64,
        rate: f64,
        answer_length: u64,
        bytes: Vec<u8>,
    },
    /// Request 1 of 02.
    Span {
        span: u64,
        p: u64,
        q: u64,
    },
}

/// Lower-case hexadecimal digits of exactly this number.
fn hex(field: &str, digits: usize) -> Option<u64> {
    let good = |byte: u8| byte.is_ascii_digit() || (b'a'..=b'f').contains(&byte);
    if field.len() != digits || !field.bytes().all(good) {
        return None;
    }
    u64::from_str_radix(field, 16).ok()
}

fn float(field: &str) -> Option<f64> {
    hex(field, 16).map(f64::from_bits)
}

fn word(field: &str) -> Option<u32> {
    hex(field, 8).map(|word| word as u32)
}

fn decimal(field: &str) -> Option<u64> {
    if field.is_empty() || !field.bytes().all(|byte| byte.is_ascii_digit()) {
        return None;
    }
    field.parse().ok()
}

/// A signed decimal stamp.
fn stamp(field: &str) -> Option<i16> {
    let digits = field.strip_prefix('-').unwrap_or(field);
    decimal(digits)?;
    field.parse().ok()
}

fn bytes(field: &str) -> Option<Vec<u8>> {
    if field == "-" {
        return Some(Vec::new());
    }
    if field.is_empty() || !field.is_ascii() || field.len() % 2 != 0 {
        return None;
    }
    (0..field.len())
        .step_by(2)
        .map(|at| hex(&field[at..at + 2], 2).map(|byte| byte as u8))
        .collect()
}

fn settings(fields: &[&str]) -> Option<Settings> {
    let [timestep, blend, lag, period, deviation, skip, update_max, needed, rate, fastforward_max, method] =
        fields
    else {
        return None;
    };
    Some(Settings {
        timestep: float(timestep)?,
        blend: float(blend)?,
        lag: float(lag)?,
        period: float(period)?,
        deviation: float(deviation)?,
        skip: float(skip)?,
        update_max: float(update_max)?,
        needed: decimal(needed)?,
        rate: float(rate)?,
        fastforward_max: decimal(fastforward_max)?,
        method: decimal(method)?,
    })
}

/// Reads one line; `None` is a bad call.
pub fn parse(line: &str) -> Option<Call> {
    let fields: Vec<&str> = line.split(' ').collect();
    match fields.as_slice() {
        ["open", rest @ ..] => settings(rest).map(Call::Open),
        ["update", delta, seconds, tape_length, words @ ..] => Some(Call::Update {
            delta: float(delta)?,
            seconds: float(seconds)?,
            tape_length: decimal(tape_length)?,
            words: words
                .iter()
                .map(|field| word(field))
                .collect::<Option<_>>()?,
        }),
        ["issue", handle] => decimal(handle).map(Call::Issue),
        ["report"] => Some(Call::Report),
        ["session"] => Some(Call::Session),
        ["order", first, second] => Some(Call::Order(stamp(first)?, stamp(second)?)),
        ["stamp", seconds, timestep] => Some(Call::Stamp {
            seconds: float(seconds)?,
            timestep: float(timestep)?,
        }),
        ["mean", needed, rate, answer_length, sample_bytes] => Some(Call::Mean {
            needed: decimal(needed)?,
            rate: float(rate)?,
            answer_length: decimal(answer_length)?,
            bytes: bytes(sample_bytes)?,
        }),
        ["span", span, p, q] => Some(Call::Span {
            span: decimal(span)?,
            p: decimal(p)?,
            q: decimal(q)?,
        }),
        _ => None,
    }
}

fn float_text(value: f64) -> String {
    format!("{:016x}", value.to_bits())
}

/// An optional value, `none` where there is none.
fn optional<T>(value: Option<T>, text: impl FnOnce(T) -> String) -> String {
    value.map_or_else(|| "none".to_owned(), text)
}

fn joined(items: impl Iterator<Item = String>) -> String {
    items.collect::<Vec<_>>().join(",")
}

fn stage_text(stage: StageName) -> &'static str {
    match stage {
        StageName::SyncingClock => "SyncingClock",
        StageName::SyncingInitialState => "SyncingInitialState",
        StageName::Ready => "Ready",
    }
}

fn ledger_text(ledger: &SideLedger) -> String {
    let counts = ledger.counts;
    format!(
        "{},{},{},{},{},{}",
        ledger.held, counts.taken, counts.copied, counts.replaced, counts.applied, counts.left_out
    )
}

pub fn open_text(refusal: u32) -> String {
    format!("open refusal={refusal}")
}

/// The numbers of an update's answer; all 0 in a refusal.
#[derive(Default)]
pub struct UpdateText<'a> {
    pub refusal: u32,
    pub frames: u64,
    pub catch_up_steps: u64,
    pub clock_request: bool,
    pub ledgers: [SideLedger; 2],
    pub words: &'a [u32],
    pub tape_length: u64,
}

/// No update plays as many words as this, so that longer tapes need not be laid out whole.
const TAPE_LAID_OUT: u64 = 1 << 16;

/// Lays the words out on a tape that is handed over full of ffffffff.
fn tape(words: &[u32], length: u64) -> Vec<u32> {
    let mut tape = vec![u32::MAX; length.min(TAPE_LAID_OUT) as usize];
    tape[..words.len()].copy_from_slice(words);
    // "Tape past the last word is zeroed."
    tape[words.len()..].fill(0);
    tape
}

pub fn update_text(answer: &UpdateText) -> String {
    let tape = tape(answer.words, answer.tape_length);
    let (played, rest) = tape.split_at(answer.words.len());
    let mut line = format!(
        "update refusal={} F={} C={} request={} L={} R={} words={} tape=",
        answer.refusal,
        answer.frames,
        answer.catch_up_steps,
        u8::from(answer.clock_request),
        ledger_text(&answer.ledgers[0]),
        ledger_text(&answer.ledgers[1]),
        played.len(),
    );
    for (index, word) in played.iter().enumerate() {
        let comma = if index == 0 { "" } else { "," };
        write!(line, "{comma}{word:08x}").expect("writing to a string");
    }
    line.push_str(if rest.iter().all(|word| *word == 0) {
        " rest=zero"
    } else {
        " rest=dirty"
    });
    line
}

pub fn issue_text(refusal: u32, stamp: i16, ledgers: &[SideLedger; 2]) -> String {
    format!(
        "issue refusal={refusal} stamp={stamp} L={} R={}",
        ledger_text(&ledgers[0]),
        ledger_text(&ledgers[1])
    )
}

/// The weight that a report gives: Blending's, and 0 otherwise.
fn report_weight(worlds: &WorldsView) -> f64 {
    if worlds.status == Status::Blending {
        worlds.weight
    } else {
        0.0
    }
}

/// A report's answer; a refused one shows no worlds.
pub fn report_text(refusal: u32, view: Option<&View>) -> String {
    match view.and_then(|view| view.worlds.as_ref().map(|worlds| (view, worlds))) {
        None => format!(
            "report refusal={refusal} stage={} status={} weight={} old=0 new=0 time=none",
            stage_text(StageName::SyncingClock),
            Status::Awaiting.name(),
            float_text(0.0)
        ),
        Some((view, worlds)) => format!(
            "report refusal={refusal} stage={} status={} weight={} old={} new={} time={}",
            stage_text(view.stage),
            worlds.status.name(),
            float_text(report_weight(worlds)),
            worlds.old_stamp(),
            worlds.new_stamp(),
            optional(worlds.time, float_text)
        ),
    }
}

fn buffer_text(buffer: &BufferView) -> String {
    let entries = buffer
        .entries
        .iter()
        .map(|(stamp, handle)| format!("{stamp}:{:x}", handle.0));
    format!("{}[{}]", buffer.midpoint, joined(entries))
}

fn worlds_text(worlds: &WorldsView) -> String {
    let digits = worlds.initialised.map(u8::from);
    format!(
        "new={} left={} right={} init={}{} base={} queued={} last_queued={} last_received={} \
         weight={} before={} after={} overshoot={} time={} status={}",
        if worlds.left_is_new { "left" } else { "right" },
        buffer_text(&worlds.sides[0]),
        buffer_text(&worlds.sides[1]),
        digits[0],
        digits[1],
        buffer_text(&worlds.base),
        optional(worlds.queued, |(stamp, handle)| format!(
            "{stamp}:{:x}",
            handle.0
        )),
        optional(worlds.last_queued, |stamp| stamp.to_string()),
        optional(worlds.last_received, |stamp| stamp.to_string()),
        float_text(worlds.weight),
        optional(worlds.before, |stamp| stamp.to_string()),
        optional(worlds.after, |stamp| stamp.to_string()),
        float_text(worlds.overshoot),
        optional(worlds.time, float_text),
        worlds.status.name()
    )
}

pub fn session_text(view: &View) -> String {
    let mut line = format!(
        "session stage={} offset={} timer={} id={} samples={}",
        stage_text(view.stage),
        optional(view.offset, float_text),
        float_text(view.timer),
        optional(view.id, |id| id.to_string()),
        joined(view.samples.iter().map(|sample| float_text(*sample)))
    );
    if let Some(worlds) = &view.worlds {
        line.push(' ');
        line.push_str(&worlds_text(worlds));
    }
    line
}

pub fn mean_text(refusal: u32, answer: &[u8]) -> String {
    if answer.is_empty() {
        return format!("mean {refusal} -");
    }
    let bytes: String = answer.iter().map(|byte| format!("{byte:02x}")).collect();
    format!("mean {refusal} {bytes}")
}

pub fn span_text(answer: Result<(u128, u128), u32>) -> String {
    let (refusal, (frames, rest)) = match answer {
        Ok(counted) => (0, counted),
        Err(refusal) => (refusal, (0, 0)),
    };
    format!("span refusal={refusal} frames={frames} rest={rest}")
}
