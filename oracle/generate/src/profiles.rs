//! The profiles of random runs. Each plays one run: an `open` and the calls after it.

mod clocks;
mod inboxes;
mod limits;
mod ordinary;
mod skips;
mod snapshots;
mod spans;
mod stops;

use crate::{
    rng::Rng,
    run::{EXACT_TIMESTEPS, FASTFORWARD},
    text::{self, Out, Settings},
};

pub struct Profile {
    pub name: &'static str,
    /// How often `all` chooses it, against the other profiles.
    weight: u64,
    pub about: &'static str,
    play: fn(&mut Out, &mut Rng),
}

const fn profile(
    name: &'static str,
    weight: u64,
    about: &'static str,
    play: fn(&mut Out, &mut Rng),
) -> Profile {
    Profile {
        name,
        weight,
        about,
        play,
    }
}

pub const ALL: &[Profile] = &[
    profile(
        "play",
        20,
        "ordinary play at several rates, with jitter, loss and pauses",
        ordinary::play,
    ),
    profile(
        "wrap",
        12,
        "ordinary play around a wrap of the stamps",
        ordinary::wrap,
    ),
    profile(
        "wild",
        16,
        "settings, times and stamps of any kind within the limits",
        ordinary::wild,
    ),
    profile(
        "full",
        4,
        "updates at the maximum of 64 timesteps",
        ordinary::full,
    ),
    profile(
        "skip",
        12,
        "skips forward and back, of half a cycle and around the wrap, with waiting commands",
        skips::skip,
    ),
    profile(
        "land",
        8,
        "skips that land between 32,767 and the wrap, also with a skip threshold of 0",
        skips::land,
    ),
    profile(
        "far",
        12,
        "commands and snapshots at the edges of the range and half a cycle away, with skips",
        skips::far,
    ),
    profile(
        "snapshots",
        14,
        "snapshots late, stale, in the future and half a cycle away, with small skips",
        snapshots::snapshots,
    ),
    profile(
        "stops",
        12,
        "each kind of refusal 26 that can arise, and runs that pass close by it",
        stops::stops,
    ),
    profile(
        "buffers",
        6,
        "buffers at 63, 64 and 65 commands",
        inboxes::buffers,
    ),
    profile(
        "inboxes",
        2,
        "inboxes of 0, 1, 4,095, 4,096 and 4,097 words",
        inboxes::inboxes,
    ),
    profile("damage", 8, "damaged words of every kind", inboxes::damage),
    profile(
        "clocks",
        8,
        "clock messages with wrong ids, bad times and drifting offsets",
        clocks::clocks,
    ),
    profile(
        "early",
        8,
        "calls before the clock is synced or the client ready",
        clocks::early,
    ),
    profile(
        "settings",
        8,
        "settings at their limits, and calls on the session of a refused open",
        limits::settings,
    ),
    profile(
        "deltas",
        8,
        "deltas and seconds negative, zero, tiny, huge, at their limits and no numbers",
        limits::deltas,
    ),
    profile(
        "tapes",
        8,
        "tapes of 0 words up to the exact length, one word too short among them",
        limits::tapes,
    ),
    profile("host", 6, "the host calls order, stamp and mean", limits::host),
    profile(
        "spans",
        4,
        "the frames of spans and rates of every size, around whole frames and at the limits",
        spans::spans,
    ),
];

/// What a profile, or `all` of them, is after; `None` where there is none of this name.
pub fn about(name: &str) -> Option<&'static str> {
    if name == "all" {
        return Some("runs of all profiles by weight");
    }
    let profile = ALL.iter().find(|profile| profile.name == name)?;
    Some(profile.about)
}

/// Plays one run of a profile, or of one chosen by weight for `all`.
pub fn play(name: &str, out: &mut Out, rng: &mut Rng) {
    let chosen = if name == "all" {
        by_weight(rng)
    } else {
        ALL.iter()
            .find(|profile| profile.name == name)
            .expect("the name was checked")
    };
    (chosen.play)(out, rng);
}

fn by_weight(rng: &mut Rng) -> &'static Profile {
    let total = ALL.iter().map(|profile| profile.weight).sum();
    let mut place = rng.below(total);
    for profile in ALL {
        if place < profile.weight {
            return profile;
        }
        place -= profile.weight;
    }
    unreachable!("the weights add up to the total")
}

/// Settings with an exact timestep, whole frames of lag, and a clock that syncs soon.
fn exact_settings(rng: &mut Rng) -> Settings {
    let timestep = rng.pick(&EXACT_TIMESTEPS);
    let blend = rng.pick(&[1.0, 2.0, 3.0, 4.0, 8.0, 30.0]) * timestep;
    let lag = rng.pick(&[0.0, 0.0, 1.0, 2.0, 10.0]) * timestep;
    Settings {
        timestep,
        blend: blend.clamp(1.0 / 1024.0, 60.0),
        lag,
        period: rng.pick(&[0.0, 0.2, 1.0, 100.0, 3600.0]),
        deviation: rng.pick(&[0.0, 0.1, 1.0, 3600.0]),
        skip: 0.0,
        update_max: 0.0,
        needed: rng.pick(&[1, 1, 1, 2, 3]),
        rate: 0.0,
        fastforward_max: rng.pick(&FASTFORWARD),
        method: rng.below(3),
    }
}

/// Stamps of interest around a stamp: near, at the edges of the range, and half a cycle away.
fn stamp_around(rng: &mut Rng, around: i16) -> i16 {
    let difference = match rng.below(12) {
        0..=5 => rng.between(-8, 8),
        6 | 7 => rng.between(-120, 120),
        8 => rng.pick(&[-16_384, -16_383, 16_382, 16_383, 16_384]),
        9 => rng.pick(&[-32_768, -32_767, 32_767, 32_766, -32_766]),
        10 => rng.between(-16_500, 16_500),
        _ => rng.between(-32_768, 32_767),
    };
    around.wrapping_add(difference as i16)
}

/// Some commands and snapshots with stamps of interest.
fn mixed_inbox(rng: &mut Rng, around: i16, most: u64) -> Vec<u32> {
    let mut inbox = Vec::new();
    for _ in 0..rng.below(most + 1) {
        let stamp = stamp_around(rng, around);
        let handle = rng.handle();
        if rng.once_in(3) {
            inbox.extend(text::snapshot(stamp, handle));
        } else {
            inbox.extend(text::command(stamp, handle));
        }
    }
    inbox
}
