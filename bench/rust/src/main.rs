//! Plays a script of calls many times over on the Rust client: reads the script on standard input
//! (bench/README.md has its layout), plays it from a fresh client as often as it says, and writes a
//! checksum of the answers.

mod network;
mod script;
mod world;

use crystalorb::{
    client::{
        stage::{Stage, StageMut},
        Client, ReconciliationStatus,
    },
    Config, TweeningMethod,
};
use network::Inbox;
use script::{Call, Calls};
use std::io::{self, Read};
use world::{Handle, TapeWorld};

/// Two sums over numbers: of the numbers, and of the first sum after each of them, so that their
/// order counts.
#[derive(Clone, Copy, Default)]
struct Sums {
    first: u64,
    second: u64,
}

impl Sums {
    fn add(&mut self, number: u64) {
        self.first = self.first.wrapping_add(number);
        self.second = self.second.wrapping_add(self.first);
    }
}

fn config_of(script: &[u32]) -> Config {
    let float = |at: usize| script::float_at(script, at);
    Config {
        timestep_seconds: float(1),
        blend_latency: float(3),
        lag_compensation_latency: float(5),
        clock_sync_request_period: float(7),
        max_tolerable_clock_deviation: float(9),
        timestamp_skip_threshold_seconds: float(11),
        update_delta_seconds_max: float(13),
        clock_sync_assumed_outlier_rate: float(15),
        clock_sync_needed_sample_count: script[17] as usize,
        fastforward_max_per_step: script[18] as usize,
        tweening_method: match script[19] {
            0 => TweeningMethod::MostRecentlyPassed,
            1 => TweeningMethod::Nearest,
            _ => TweeningMethod::Interpolated,
        },
        ..Config::new()
    }
}

fn bits(stamp: i16) -> u64 {
    u64::from(stamp as u16)
}

/// Plays the script once. No call of it is refused, so that every refusal is 0.
fn play(script: &[u32], sums: &mut Sums) {
    world::begin();
    let mut client = Client::<TapeWorld>::new(config_of(script));
    sums.add(0);
    for call in Calls::new(script) {
        match call {
            Call::Update {
                delta,
                seconds,
                inbox,
            } => {
                world::clear();
                client.update(delta, seconds, &mut Inbox::new(inbox));
                let tape = world::tape();
                sums.add(0);
                sums.add(tape.steps());
                sums.add(tape.words().len() as u64);
                for word in tape.words() {
                    sums.add(u64::from(*word));
                }
            }
            Call::Issue(handle) => {
                let StageMut::Ready(mut ready) = client.stage_mut() else {
                    panic!("an issue before the client is ready");
                };
                let stamp = ready.simulating_timestamp();
                ready.issue_command(Handle(handle), &mut Inbox::new(&[]));
                sums.add(0);
                sums.add(bits(stamp.into()));
            }
            Call::Report => {
                let Stage::Ready(ready) = client.stage() else {
                    panic!("a report before the client is ready");
                };
                sums.add(0);
                sums.add(match ready.reconciliation_status() {
                    ReconciliationStatus::AwaitingSnapshot => 1,
                    ReconciliationStatus::Fastforwarding(_) => 2,
                    ReconciliationStatus::Blending(_) => 3,
                });
                sums.add(bits(ready.last_completed_timestamp().into()));
                sums.add(ready.display_state().float_timestamp().to_bits());
            }
        }
    }
}

fn main() -> io::Result<()> {
    let mut bytes = Vec::new();
    io::stdin().lock().read_to_end(&mut bytes)?;
    let script: Vec<u32> = bytes
        .chunks_exact(4)
        .map(|word| u32::from_le_bytes([word[0], word[1], word[2], word[3]]))
        .collect();
    let mut sums = Sums::default();
    for _ in 0..script[0] {
        play(&script, &mut sums);
    }
    println!("{:016x}{:016x}", sums.first, sums.second);
    Ok(())
}
