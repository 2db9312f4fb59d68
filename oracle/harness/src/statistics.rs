//! How often each refusal, status and transition was met, for the lines on standard error.

use crate::{panics::Stop26, session::Updated};
use crystalorb::client::probe::StageName;
use observe::{Record, Skip, Status};
use std::{collections::BTreeMap, fmt::Write};

#[derive(Default)]
pub struct Statistics {
    calls: BTreeMap<&'static str, u64>,
    /// Calls that a request of 02 answered in place of the Rust, by the request's number.
    by_request: BTreeMap<u32, u64>,
    refusals: BTreeMap<u32, u64>,
    stops: BTreeMap<&'static str, u64>,
    statuses: BTreeMap<&'static str, u64>,
    transitions: [[u64; 5]; 5],
    stages: BTreeMap<&'static str, u64>,
    events: BTreeMap<&'static str, u64>,
    frames_most: u64,
    words_most: usize,
    deviations: BTreeMap<&'static str, u64>,
    /// Runs, each from an accepted `open` to the next, those with a deviation, and whether the present run has one.
    runs: u64,
    runs_deviating: u64,
    run_deviates: bool,
}

fn stage_change(before: StageName, after: StageName) -> Option<&'static str> {
    match (before, after) {
        (StageName::SyncingClock, StageName::SyncingInitialState) => {
            Some("SyncingClock->SyncingInitialState")
        }
        (StageName::SyncingInitialState, StageName::Ready) => Some("SyncingInitialState->Ready"),
        _ => None,
    }
}

fn skip_name(skip: Skip) -> &'static str {
    match skip.to.wrapping_sub(skip.from) {
        i16::MIN => "skip-half-cycle",
        0 => "skip-0",
        distance if distance > 0 => "skip-forward",
        _ => "skip-back",
    }
}

fn listed<K: std::fmt::Display>(counts: &BTreeMap<K, u64>) -> String {
    let mut text = String::new();
    for (name, count) in counts {
        write!(text, " {name}={count}").expect("writing to a string");
    }
    text
}

impl Statistics {
    pub fn call(&mut self, name: &'static str) {
        *self.calls.entry(name).or_default() += 1;
    }

    pub fn answered_by_request(&mut self, request: u32) {
        *self.by_request.entry(request).or_default() += 1;
    }

    /// Calls other than `session`, and those of them that no request answered.
    fn calls_and_rust_alone(&self) -> (u64, u64) {
        let all = self.calls.values().sum::<u64>() - self.calls.get("session").unwrap_or(&0);
        (all, all - self.by_request.values().sum::<u64>())
    }

    pub fn refused(&mut self, number: u32, kind: Option<Stop26>) {
        *self.refusals.entry(number).or_default() += 1;
        let kind = kind.map(|kind| match kind {
            Stop26::HealthyToOvershot => "26-Healthy-half-cycle-behind",
            Stop26::ObsoleteToOvershot => "26-Obsolete-loads-ahead",
            Stop26::HealthyToObsolete => "26-Healthy-ends-Obsolete",
        });
        if let Some(kind) = kind {
            *self.stops.entry(kind).or_default() += 1;
        }
    }

    /// The mean call's 1 is counted apart from the refusal 1 of `open`.
    pub fn mean(&mut self, number: u32) {
        if number == 1 {
            self.event("mean-returns-1", 1);
        } else {
            self.refused(number, None);
        }
    }

    pub fn status(&mut self, status: Status) {
        *self.statuses.entry(status.name()).or_default() += 1;
    }

    fn event(&mut self, name: &'static str, count: u64) {
        *self.events.entry(name).or_default() += count;
    }

    pub fn run_begins(&mut self) {
        self.runs += 1;
        self.run_deviates = false;
    }

    pub fn deviations(&mut self, record: &Record) {
        for deviation in &record.deviations {
            *self.deviations.entry(deviation.operation).or_default() += 1;
        }
        if !record.deviations.is_empty() {
            *self.deviations.entry("calls-with-a-deviation").or_default() += 1;
            if !self.run_deviates {
                self.run_deviates = true;
                self.runs_deviating += 1;
            }
        }
    }

    pub fn updated(&mut self, updated: &Updated, words: usize) {
        let record = &updated.record;
        self.event("frames", record.frames);
        self.event("catch-up-steps", record.catch_up_steps);
        self.event("loads", record.loads);
        self.event("clock-requests", u64::from(updated.clock_request));
        if record.frames == 65 {
            self.event("updates-of-65-frames", 1);
        }
        if let Some(skip) = record.skip {
            self.event(skip_name(skip), 1);
        }
        for (total, row) in self.transitions.iter_mut().zip(&record.transitions) {
            for (total, count) in total.iter_mut().zip(row) {
                *total += count;
            }
        }
        if let Some(change) = stage_change(updated.stage_before, updated.stage_after) {
            *self.stages.entry(change).or_default() += 1;
        }
        self.frames_most = self.frames_most.max(record.frames);
        self.words_most = self.words_most.max(words);
    }

    pub fn print(&self) {
        let mut transitions = BTreeMap::new();
        for before in Status::ALL {
            for after in Status::ALL {
                let count = self.transitions[before as usize][after as usize];
                if count > 0 {
                    transitions.insert(format!("{}->{}", before.name(), after.name()), count);
                }
            }
        }
        eprintln!("statistics calls:{}", listed(&self.calls));
        eprintln!(
            "statistics refusals:{}{}",
            listed(&self.refusals),
            listed(&self.stops)
        );
        eprintln!("statistics statuses reported:{}", listed(&self.statuses));
        eprintln!(
            "statistics frames, status before->after:{}",
            listed(&transitions)
        );
        eprintln!("statistics stages:{}", listed(&self.stages));
        eprintln!(
            "statistics events:{} most-frames={} most-words={}",
            listed(&self.events),
            self.frames_most,
            self.words_most
        );
        eprintln!(
            "statistics buffer operations that deviate from the rule:{}",
            if self.deviations.is_empty() {
                " none".to_owned()
            } else {
                listed(&self.deviations)
            }
        );
        let (all, rust_alone) = self.calls_and_rust_alone();
        eprintln!(
            "statistics calls that no request of 02 answers: {rust_alone} of {all} ({:.2} %), by request:{}",
            100.0 * rust_alone as f64 / all.max(1) as f64,
            if self.by_request.is_empty() {
                " none".to_owned()
            } else {
                listed(&self.by_request)
            }
        );
        eprintln!(
            "statistics runs, each from an accepted open to the next: {}, with a deviation: {} ({:.2} %)",
            self.runs,
            self.runs_deviating,
            100.0 * self.runs_deviating as f64 / self.runs.max(1) as f64
        );
    }
}
