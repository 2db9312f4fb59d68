//! Generates texts of calls: random ones by seed and profile, and the constructed cases.

mod cases;
mod profiles;
mod rng;
mod run;
mod text;

use rng::Rng;
use std::process::ExitCode;
use text::Out;

fn usage() -> ExitCode {
    eprintln!("usage: generate SEED PROFILE|all CALLS [--sessions[=N]]");
    eprintln!("       generate case NAME");
    eprintln!("       generate profiles|cases");
    eprintln!("SEED, CALLS and N are decimal.");
    eprintln!("--sessions adds a session line after every call, --sessions=N after every Nth.");
    ExitCode::from(2)
}

fn random(seed: &str, profile: &str, calls: &str, option: &str) -> Option<()> {
    let seed: u64 = seed.parse().ok()?;
    let calls: u64 = calls.parse().ok()?;
    let sessions: u64 = match option {
        "" => 0,
        "--sessions" => 1,
        _ => option.strip_prefix("--sessions=")?.parse().ok()?,
    };
    let about = profiles::about(profile)?;
    let mut out = Out::new(calls, sessions);
    let command = format!("generate {seed} {profile} {calls} {option}");
    out.comment(&format!("Random calls: {about}."));
    out.comment(&format!("Made by: {}", command.trim_end()));
    let mut rng = Rng::new(seed);
    while !out.is_full() {
        profiles::play(profile, &mut out, &mut rng);
    }
    out.flush();
    Some(())
}

fn main() -> ExitCode {
    let arguments: Vec<String> = std::env::args().skip(1).collect();
    let arguments: Vec<&str> = arguments.iter().map(String::as_str).collect();
    let done = match arguments.as_slice() {
        ["profiles"] => {
            for profile in profiles::ALL {
                println!("{}", profile.name);
            }
            Some(())
        }
        ["cases"] => {
            for case in cases::ALL {
                println!("{}", case.name);
            }
            Some(())
        }
        ["case", name] => cases::print(name),
        [seed, profile, calls] => random(seed, profile, calls, ""),
        [seed, profile, calls, option] => random(seed, profile, calls, option),
        _ => None,
    };
    match done {
        Some(()) => ExitCode::SUCCESS,
        None => usage(),
    }
}
