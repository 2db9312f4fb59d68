//! The constructed cases: short lists that each show one thing.

mod spans;

use crate::{
    rng::Rng,
    run::{Exact, Run, TAPE},
    text::{self, Out, Settings},
};

pub struct Case {
    pub name: &'static str,
    about: &'static str,
    make: fn(&mut Out),
}

const fn case(name: &'static str, about: &'static str, make: fn(&mut Out)) -> Case {
    Case { name, about, make }
}

pub const ALL: &[Case] = &[
    case(
        "p-run",
        "The run of 01 marked P, with a session line after every call.",
        p_run,
    ),
    case(
        "p-facts",
        "The facts of 01 marked P on stamps, frame counts and the mean, as host calls; \
         the accepted range around 100; the rounding up of 32,767.5 and -1.5 by skips.",
        p_facts,
    ),
    case(
        "p-tween-half",
        "A tween weight of 0.5 under each tweening method: Nearest gives 1.",
        p_tween_half,
    ),
    case(
        "p-catch-up",
        "m = 3, g = 7: the new world is behind 5, 3, 1, 0.",
        p_catch_up,
    ),
    case(
        "stop26-healthy-half-cycle",
        "26: Healthy with N - O = -32,768, refused again while nothing changes; \
         one frame less and one frame more are no 26.",
        stop26_healthy_half_cycle,
    ),
    case(
        "stop26-obsolete-ahead",
        "26: Obsolete loads S with S - O = 2; S - O = 1 is no 26.",
        stop26_obsolete_ahead,
    ),
    case(
        "stop26-healthy-ends-obsolete",
        "26: a frame that began Healthy ends Obsolete, half a cycle past a queued snapshot.",
        stop26_healthy_ends_obsolete,
    ),
    case(
        "stop27-edges",
        "27 at its edges: skips to 32,768 - 2^-37, 32,767.5 and 32,767 + 2^-37 frames are \
         refused; 32,768 - 2^-38 rounds to the wrap and 32,767 + 2^-38 to 32,767, and are not.",
        stop27_edges,
    ),
    case(
        "stop27-threshold-0",
        "27 in ordinary play with a skip threshold of 0: the whole frame before the wrap.",
        stop27_threshold_0,
    ),
    case(
        "overshoot-timestep",
        "A skip to -1 + 2^-38 frames leaves an overshoot equal to the timestep.",
        overshoot_timestep,
    ),
    case(
        "display-past-wrap",
        "The display time reaches 32,768.0 at the wrap, and falls below -32,768 after a skip back.",
        display_past_wrap,
    ),
    case(
        "skip-back",
        "A skip back applies the waiting commands after the last publish word: of the new world \
         first where the stamps were equal, then of the old world.",
        skip_back,
    ),
    case(
        "skip-half-cycle",
        "A skip of exactly half a cycle counts as earlier and leaves out every waiting command.",
        skip_half_cycle,
    ),
    case(
        "skip-forward",
        "A skip forward keeps the waiting commands that are in range and leaves out the others.",
        skip_forward,
    ),
    case(
        "base-midpoint-0",
        "In the first update with worlds the base midpoint is 0: a far command is taken by both \
         sides and not by the base.",
        base_midpoint_0,
    ),
    case(
        "awaiting-loads-ahead",
        "Awaiting loads a snapshot ahead of the old world: no catch-up step, Overshot, then reset.",
        awaiting_loads_ahead,
    ),
    case(
        "stale-snapshots",
        "Stale and future snapshots; a stale one sets last queued to the queued snapshot's stamp.",
        stale_snapshots,
    ),
    case(
        "weight-below-1",
        "Ten blends of 0.1 end at 1 - 2^-53: the new world is published by kind 4 in Blending.",
        weight_below_1,
    ),
    case(
        "frames-65",
        "Updates of 64 timesteps that play 64 or 65 frames.",
        frames_65,
    ),
    case(
        "buffers-64",
        "Buffers at 63, 64 and 65 commands, by inbox and by issue.",
        buffers_64,
    ),
    case(
        "inbox-lengths",
        "Inboxes of 0, 1, 4,095, 4,096 and 4,097 words.",
        inbox_lengths,
    ),
    case(
        "tape-lengths",
        "One update with tapes of 0 words up to the exact length, one word too short among them.",
        tape_lengths,
    ),
    case(
        "clock",
        "One sample an update, from the last clock message; the request when the timer is strictly \
         above the period; a new offset beyond the deviation; a negative delta passed on.",
        clock,
    ),
    case(
        "refusals-input",
        "Refusals 1 to 8, each from both sides.",
        refusals_input,
    ),
    case(
        "refusals-session",
        "Refusals 20 to 24 and 26 to 28, and the order in which numbers are given.",
        refusals_session,
    ),
    case(
        "unsound",
        "A refused open returns an unsound session: 20 after the refusals of the input.",
        unsound,
    ),
    case(
        "mean-zero-sign",
        "The mean of samples -0.0 is +0.0, since the sum begins at +0.0.",
        mean_zero_sign,
    ),
    case(
        "whole-part",
        "Frame counts cut to stamps. By hand: 2^k - 2^-30 gives 2^k - 1, 2^k and 2^k + 1/2 give 2^k, \
         2^(k+1) - 1 itself, below 1 all give 0; -x gives minus that.",
        whole_part,
    ),
    case(
        "spans",
        "Request 1 of 02, the frames of spans. Each answer is worked out by hand in the comment above its call: \
         span x p / (q x 1,000,000) and what is left of it.",
        spans::spans,
    ),
    case(
        "deviation-move",
        "The BTreeMap deviates from the rule in a move: a skip back by 20,000 frames drops a \
         command that the rule keeps.",
        deviation_move,
    ),
    case(
        "deviation-drain",
        "The BTreeMap deviates from the rule in a drain: a snapshot 20,000 frames back drains a \
         command that the rule keeps.",
        deviation_drain,
    ),
    case(
        "bad-call-spaces",
        "A bad call: two spaces between fields. Comments and empty lines are counted as lines.",
        bad_call_spaces,
    ),
    case(
        "bad-call-name",
        "A bad call: a name that is none of the calls.",
        bad_call_name,
    ),
    case(
        "bad-call-digits",
        "A bad call: upper-case hexadecimal digits.",
        bad_call_digits,
    ),
    case(
        "bad-call-word",
        "A bad call: a word of 7 digits.",
        bad_call_word,
    ),
    case(
        "bad-call-fields",
        "A bad call: an open with a field too few.",
        bad_call_fields,
    ),
    case(
        "bad-call-span",
        "A bad call: a span over 64 bits. By hand: 2^64 - 1 is out of range and gets 31, 2^64 is no call.",
        spans::bad_call_span,
    ),
];

/// Prints a case with its comments; `None` where there is none of this name.
pub fn print(name: &str) -> Option<()> {
    let case = ALL.iter().find(|case| case.name == name)?;
    let mut out = Out::new(u64::MAX, 1);
    out.comment(case.about);
    out.comment(&format!("Made by: generate case {name}"));
    (case.make)(&mut out);
    out.flush();
    Some(())
}

/// The settings of the run marked P.
const P: Settings = Settings {
    timestep: 1.0,
    blend: 2.0,
    lag: 0.0,
    period: 100.0,
    deviation: 1.0,
    skip: 10.0,
    update_max: 4.0,
    needed: 1,
    rate: 0.0,
    fastforward_max: 2,
    method: 2,
};

/// Opens a run with whole frames (timestep 1 unless the settings say otherwise).
fn exact<'a>(
    out: &'a mut Out,
    rng: &'a mut Rng,
    settings: Settings,
    max_frames: i64,
    skip_frames: i64,
    start: i64,
) -> Exact<'a> {
    Exact::begin(out, rng, settings, max_frames, skip_frames, start)
}

/// A source of random numbers for runs that draw none.
fn unused() -> Rng {
    Rng::new(0)
}

/// Plays until the client is Ready and Awaiting: a load, the blend, and two published states.
fn make_ready(exact: &mut Exact) {
    let inbox = text::snapshot(exact.stamp(), 5);
    exact.play(1, &inbox);
    for _ in 0..3 {
        exact.play(1, &[]);
    }
}

/// One frame with two commands: one that is due in 20 frames, and one near the end of the accepted range.
fn command_soon_and_late(exact: &mut Exact) {
    let commands = [
        text::command(exact.stamp().wrapping_add(20), 1),
        text::command(exact.stamp().wrapping_add(16_000), 2),
    ]
    .concat();
    exact.play(1, &commands);
}

fn p_run(out: &mut Out) {
    out.call(&text::open_line(&P));
    for second in [1.0, 2.0, 3.0] {
        let inbox = text::clock(7, second, second);
        out.call(&text::update_line(1.0, second, 100, &inbox));
    }
    out.call("report");
    let inbox = [0x1000_0004, 0x4000_0009, 0x2000_0003, 0x4000_0005];
    out.call(&text::update_line(1.0, 4.0, 100, &inbox));
    out.call("report");
    for second in [5.0, 6.0] {
        out.call(&text::update_line(1.0, second, 100, &[]));
        out.call("report");
    }
}

fn p_facts(out: &mut Out) {
    for (first, second) in [
        (32_767, -32_768),
        (-32_768, 32_767),
        (0, -32_768),
        (-32_768, 0),
        (5, 5),
        (6, 5),
        (5, 6),
    ] {
        out.call(&format!("order {first} {second}"));
    }
    for frames in [
        32_768.0, 32_767.5, -1.5, 65_536.0, -32_768.0, -32_768.5, 0.0, -0.5,
    ] {
        out.call(&text::stamp_line(frames, 1.0));
    }
    let samples: Vec<u8> = [9.0_f64, 1.0, 4.0]
        .iter()
        .flat_map(|sample| sample.to_le_bytes())
        .collect();
    out.call(&text::mean_line(1, 0.0, 8, &samples));
    // The accepted range around 100: two commands are in, two are out.
    let mut rng = unused();
    let mut run = exact(out, &mut rng, P, 4, 10, 99);
    run.play(1, &[]);
    let stamps = [-16_283, 16_482, -16_284, 16_483];
    let inbox: Vec<u32> = stamps
        .iter()
        .flat_map(|stamp| text::command(*stamp, 1))
        .collect();
    run.update(0, run.target, &inbox);
    // Rounding up: -1.5 gives -1. (32,767.5 gives 32,767 and then refusal 27.)
    let mut rng = unused();
    let run = exact(run.run.out, &mut rng, P, 4, 10, 99);
    for frames in [-1.5, 32_767.5] {
        run.run.out.call(&text::update_line(0.0, frames, TAPE, &[]));
    }
}

fn p_tween_half(out: &mut Out) {
    for method in 0..3 {
        let mut rng = unused();
        let settings = Settings { method, ..P };
        let mut run = exact(out, &mut rng, settings, 4, 10, 3);
        make_ready(&mut run);
        run.run.update_at(0.5, run.target as f64 + 0.5, TAPE, &[]);
        run.run.report();
    }
}

fn p_catch_up(out: &mut Out) {
    let mut rng = unused();
    let settings = Settings {
        fastforward_max: 3,
        ..P
    };
    let mut run = exact(out, &mut rng, settings, 4, 10, 100);
    let inbox = text::snapshot(93, 5);
    run.play(1, &inbox);
    for _ in 0..4 {
        run.run.report();
        run.play(1, &[]);
    }
}

/// P's settings with a new world that never catches up.
const SLOW: Settings = Settings {
    fastforward_max: 1,
    ..P
};

fn stop26_healthy_half_cycle(out: &mut Out) {
    for near in [0, -1, 1] {
        let mut rng = unused();
        let mut run = exact(out, &mut rng, SLOW, 1, 2, 100);
        // The new world is 10 frames behind; the skip makes it 32,768 + near.
        let inbox = text::snapshot(90, 5);
        run.play(1, &inbox);
        run.update(1, run.old + 1 - 10 + 32_768 + near, &[]);
        run.run.report();
        let target = run.target + 1;
        run.update(1, target, &[]);
        run.update(1, target, &[]);
        run.run.report();
    }
}

fn stop26_obsolete_ahead(out: &mut Out) {
    for ahead in [2, 1] {
        let mut rng = unused();
        let mut run = exact(out, &mut rng, SLOW, 1, 1, 100);
        let inbox = text::snapshot(90, 5);
        run.play(1, &inbox);
        let newest = text::snapshot(run.stamp(), 6);
        run.update(0, run.old - ahead, &newest);
        run.run.report();
        let target = run.target + 1;
        run.update(1, target, &[]);
        run.update(1, target, &[]);
        run.run.report();
    }
}

fn stop26_healthy_ends_obsolete(out: &mut Out) {
    let mut rng = unused();
    let timestep = 1.0 / 512.0;
    let settings = Settings {
        timestep,
        lag: 16_383.0 * timestep,
        ..SLOW
    };
    let mut run = exact(out, &mut rng, settings, 64, 1, 0);
    // The first update skips over the lag.
    run.play(1, &[]);
    let inbox = text::snapshot(run.stamp() - 10, 5);
    run.play(1, &inbox);
    // A snapshot that a skip back leaves ahead of the old world resets last queued.
    let inbox = text::snapshot(run.stamp(), 6);
    run.update(0, run.old - 3, &inbox);
    // One just after the reset stamp is queued, almost half a cycle behind.
    let inbox = text::snapshot(run.stamp().wrapping_sub(32_765), 8);
    run.play(1, &inbox);
    for _ in 0..12 {
        run.play(1, &[]);
    }
    run.run.report();
}

/// Fractions of 2, exact.
fn two_to(exponent: i32) -> f64 {
    2.0_f64.powi(exponent)
}

fn stop27_edges(out: &mut Out) {
    for frames in [
        32_768.0 - two_to(-38),
        32_768.0 - two_to(-37),
        32_767.5,
        32_767.0 + two_to(-37),
        32_767.0 + two_to(-38),
        32_767.0,
    ] {
        let mut rng = unused();
        let mut run = exact(out, &mut rng, P, 4, 10, 100);
        make_ready(&mut run);
        run.run.update_at(1.0, frames, TAPE, &[]);
        run.run.report();
        // The session is unchanged where it was refused; past the wrap it goes on.
        run.run.update_at(1.0, frames, TAPE, &[]);
        run.run.update_at(1.0, 32_770.0, TAPE, &[]);
        run.run.report();
    }
}

fn stop27_threshold_0(out: &mut Out) {
    let settings = Settings {
        skip: 0.0,
        update_max: 4.0,
        ..P
    };
    let mut rng = unused();
    let mut run = Run::new(out, &mut rng, settings);
    run.seconds = 32_760.0;
    run.open();
    run.sync(1.0);
    let inbox = text::snapshot(run.stamp(), 5);
    run.update(0.75, &inbox);
    for _ in 0..10 {
        run.update(0.75, &[]);
    }
    run.report();
}

fn overshoot_timestep(out: &mut Out) {
    let mut rng = unused();
    let mut run = exact(out, &mut rng, P, 4, 10, 100);
    make_ready(&mut run);
    run.run.update_at(0.0, -1.0 + two_to(-38), TAPE, &[]);
    run.run.report();
    run.run.update_at(1.0, two_to(-38), TAPE, &[]);
    run.run.report();
}

fn display_past_wrap(out: &mut Out) {
    let mut rng = unused();
    let mut run = exact(out, &mut rng, P, 4, 10, 32_763);
    make_ready(&mut run);
    run.run.report();
    for target in [32_767.5, 32_768.0, 32_768.25] {
        run.run.update_at(0.5, target, TAPE, &[]);
        run.run.report();
    }
    // After a skip back the two published states lie 67 frames apart, the later one first.
    run.run.update_at(0.0, 32_700.0, TAPE, &[]);
    run.run.update_at(1.0, 32_701.0, TAPE, &[]);
    run.run.report();
    run.run.update_at(1.0, 32_702.0, TAPE, &[]);
    run.run.report();
}

fn skip_back(out: &mut Out) {
    // Equal stamps: both worlds are reset.
    let mut rng = unused();
    let mut run = exact(out, &mut rng, P, 4, 10, 100);
    make_ready(&mut run);
    let stamp = run.stamp();
    let commands = [
        text::command(stamp.wrapping_add(3), 1),
        text::command(stamp.wrapping_add(2), 2),
        text::command(stamp.wrapping_add(3), 3),
    ]
    .concat();
    run.play(1, &commands);
    run.update(0, run.old - 50, &[]);
    run.run.report();
    run.play(1, &[]);
    // Stamps that differ: the old world alone is reset.
    let mut rng = unused();
    let mut run = exact(run.run.out, &mut rng, SLOW, 4, 10, 100);
    let inbox = [text::snapshot(40, 5), text::command(105, 4)].concat();
    run.play(1, &inbox);
    run.update(0, run.old - 30, &[]);
    run.run.report();
    run.play(1, &[]);
    run.run.report();
}

fn skip_half_cycle(out: &mut Out) {
    let mut rng = unused();
    let mut run = exact(out, &mut rng, P, 4, 10, 100);
    make_ready(&mut run);
    command_soon_and_late(&mut run);
    run.update(4, run.old + 4 + 32_768, &[]);
    run.run.report();
    run.play(1, &[]);
    run.run.report();
}

fn skip_forward(out: &mut Out) {
    let mut rng = unused();
    let mut run = exact(out, &mut rng, P, 4, 10, 100);
    make_ready(&mut run);
    command_soon_and_late(&mut run);
    run.update(1, run.old + 40, &[]);
    run.play(1, &[]);
    run.update(1, run.old + 32_700, &[]);
    run.play(1, &[]);
    run.run.report();
}

fn base_midpoint_0(out: &mut Out) {
    let mut rng = unused();
    let mut run = exact(out, &mut rng, P, 4, 10, 20_000);
    // 20,003 is out of the base's range around 0 and 16,000 is in it.
    let commands = [
        text::command(20_003, 1),
        text::command(16_000, 2),
        text::snapshot(20_000, 5),
    ]
    .concat();
    run.play(1, &commands);
    for _ in 0..3 {
        run.play(1, &[]);
    }
    run.run.report();
}

fn awaiting_loads_ahead(out: &mut Out) {
    for ahead in [1, 2, 40] {
        let mut rng = unused();
        let mut run = exact(out, &mut rng, P, 4, 1, 100);
        make_ready(&mut run);
        let inbox = [
            text::snapshot(run.stamp(), 6),
            text::command(run.stamp().wrapping_add(2), 1),
        ]
        .concat();
        run.update(0, run.old - ahead, &inbox);
        for _ in 0..3 {
            run.play(1, &[]);
            run.run.report();
        }
    }
}

fn stale_snapshots(out: &mut Out) {
    let mut rng = unused();
    let settings = Settings { lag: 5.0, ..SLOW };
    let mut run = exact(out, &mut rng, settings, 4, 1, 100);
    run.play(1, &[]);
    // Loaded; then a newer one, a stale one and one in the future.
    for behind in [20_i16, 10, 15, -3] {
        let inbox = text::snapshot(run.stamp().wrapping_sub(behind), 5);
        run.play(1, &inbox);
    }
    // A skip back resets last queued to O - 2 x lag frames.
    let inbox = text::snapshot(run.stamp(), 6);
    run.update(0, run.old - 1, &inbox);
    // One stale by that stamp sets last queued to the queued one's stamp: the next is stale too.
    let stale = text::snapshot(run.stamp().wrapping_sub(11), 7);
    let good = text::snapshot(run.stamp().wrapping_sub(9), 8);
    run.update(0, run.target, &[stale, good].concat());
    run.update(0, run.target, &good);
    run.run.report();
}

fn weight_below_1(out: &mut Out) {
    let mut rng = unused();
    let settings = Settings { blend: 10.0, ..P };
    let mut run = exact(out, &mut rng, settings, 4, 10, 100);
    make_ready(&mut run);
    for _ in 0..8 {
        run.play(1, &[]);
        run.run.report();
    }
    // Once more with both worlds initialised, so that mixes are published.
    let inbox = text::snapshot(run.stamp(), 6);
    run.play(1, &inbox);
    for _ in 0..11 {
        run.play(1, &[]);
        run.run.report();
    }
}

fn frames_65(out: &mut Out) {
    for timestep in [1.0, 1.0 / 60.0, 1.0 / 30.0, 0.1, 0.7, 1.0 / 49.0] {
        let settings = Settings {
            timestep,
            update_max: 64.0 * timestep,
            skip: 3600.0,
            fastforward_max: 1,
            ..P
        };
        let mut rng = unused();
        let mut run = Run::new(out, &mut rng, settings);
        run.open();
        run.sync(timestep);
        run.update(64.0 * timestep, &[]);
        run.update(65.0 * timestep, &[]);
    }
}

/// So many commands for one stamp.
fn commands(count: usize, stamp: i16) -> Vec<u32> {
    (0..count)
        .flat_map(|index| text::command(stamp, index as u32))
        .collect()
}

fn buffers_64(out: &mut Out) {
    for count in [63, 64, 65] {
        let mut rng = unused();
        let mut run = exact(out, &mut rng, P, 4, 10, 100);
        make_ready(&mut run);
        let stamp = run.stamp().wrapping_add(9);
        run.update(0, run.target, &commands(count, stamp));
        run.run.out.call("issue 1");
        run.run.out.call("issue 2");
        // Out of every range: not taken, so no 23.
        let far = run.stamp().wrapping_add(16_383);
        run.update(0, run.target, &text::command(far, 3));
        run.update(0, run.target, &text::command(stamp, 3));
        for _ in 0..3 {
            run.play(4, &[]);
        }
    }
}

fn inbox_lengths(out: &mut Out) {
    let mut rng = unused();
    let mut run = exact(out, &mut rng, P, 4, 10, 100);
    run.play(1, &[]);
    run.play(1, &[0x1000_0001]);
    let clocks: Vec<u32> = (0..585)
        .flat_map(|_| text::clock(7, 103.0, 103.0))
        .collect();
    run.play(1, &clocks);
    // Half a cycle away: read and taken by no buffer.
    let far: Vec<u32> = (0..2_048).flat_map(|_| text::command(-32_000, 1)).collect();
    run.play(1, &far);
    let mut one_more = far;
    one_more.push(0x1000_0001);
    run.play(1, &one_more);
}

fn tape_lengths(out: &mut Out) {
    let mut rng = unused();
    let mut run = exact(out, &mut rng, P, 4, 10, 3);
    let inbox = [text::command(4, 9), text::snapshot(3, 5)].concat();
    // The P run's update of six words.
    for tape in 0..=6 {
        run.old = 3;
        run.update_tape(1, 4, tape, &inbox);
    }
    run.update_tape(0, 4, 0, &[]);
    run.update_tape(1, 5, 2, &[]);
    run.update_tape(1, 5, 3, &[]);
    run.update_tape(1, 6, 5, &[]);
}

fn clock(out: &mut Out) {
    let settings = Settings {
        period: 2.0,
        deviation: 1.0,
        ..P
    };
    out.call(&text::open_line(&settings));
    let mut second = 0.0;
    let mut update = |out: &mut Out, delta: f64, offsets: &[f64]| {
        second += 1.0;
        let inbox: Vec<u32> = offsets
            .iter()
            .flat_map(|offset| text::clock(7, second, second + offset))
            .collect();
        out.call(&text::update_line(delta, second, TAPE, &inbox));
    };
    // Two messages in one inbox: the last counts.
    update(out, 1.0, &[50.0, 10.0]);
    update(out, 1.0, &[11.0]);
    // The timer is strictly above 2 only now.
    update(out, 1.0, &[]);
    update(out, 1.0, &[12.0]);
    // The mean 12 is within the deviation of 11, the mean 13 is not.
    update(out, 1.0, &[13.0]);
    update(out, 1.0, &[14.0]);
    // The raw delta reaches the timer.
    update(out, -3.0, &[]);
    update(out, 1.0, &[]);
    out.call("report");
}

fn refusals_input(out: &mut Out) {
    let down = |value: f64| f64::from_bits(value.to_bits() - 1);
    let up = |value: f64| f64::from_bits(value.to_bits() + 1);
    let least = f64::from_bits(1);
    let mut open = |change: &dyn Fn(&mut Settings)| {
        let mut settings = P;
        change(&mut settings);
        out.call(&text::open_line(&settings));
    };
    // 1: each setting at its limits and one float beyond.
    for value in [1.0 / 1024.0, down(1.0 / 1024.0), 1.0, up(1.0), f64::NAN] {
        open(&|s| {
            s.timestep = value;
            s.update_max = 0.0;
        });
    }
    for value in [1.0 / 1024.0, down(1.0 / 1024.0), 60.0, up(60.0), f64::NAN] {
        open(&|s| s.blend = value);
    }
    for value in [0.0, -0.0, -least, 60.0, up(60.0), f64::NAN] {
        open(&|s| s.lag = value);
    }
    for frames in [16_383.0, down(16_383.5), 16_383.5] {
        open(&|s| {
            s.timestep = 1.0 / 512.0;
            s.update_max = 0.0;
            s.lag = frames / 512.0;
        });
    }
    for value in [
        0.0,
        -0.0,
        -least,
        3600.0,
        up(3600.0),
        f64::NAN,
        f64::INFINITY,
    ] {
        open(&|s| s.period = value);
        open(&|s| s.deviation = value);
        open(&|s| s.skip = value);
    }
    for value in [0.0, -0.0, -least, 64.0, up(64.0), f64::NAN] {
        open(&|s| s.update_max = value);
    }
    for value in [0, 1, 32, 33] {
        open(&|s| s.needed = value);
    }
    for value in [0.0, -0.0, -least, 1.0, up(1.0), f64::NAN] {
        open(&|s| s.rate = value);
    }
    for value in [0, 1, 64, 65] {
        open(&|s| s.fastforward_max = value);
    }
    for value in [0, 1, 2, 3] {
        open(&|s| s.method = value);
    }
    open(&|_| {});
    let mut update = |delta: f64, seconds: f64, inbox: &[u32]| {
        out.call(&text::update_line(delta, seconds, TAPE, inbox));
    };
    // 2
    let two_32 = 4_294_967_296.0;
    for delta in [
        3600.0,
        -3600.0,
        up(3600.0),
        -up(3600.0),
        f64::NAN,
        f64::INFINITY,
    ] {
        update(delta, 1.0, &[]);
    }
    for seconds in [
        two_32,
        -two_32,
        up(two_32),
        -up(two_32),
        f64::NAN,
        f64::NEG_INFINITY,
    ] {
        update(0.0, seconds, &[]);
    }
    // 3 comes before 4; 2 before both.
    update(0.0, 1.0, &[0; 4_097]);
    update(0.0, 1.0, &[0; 4_096]);
    update(3601.0, 1.0, &[0; 4_097]);
    // 4: kinds, places and spare bits.
    for inbox in [
        &[0x0000_0001][..],
        &[0x4000_0001],
        &[0x5000_0001],
        &[0x6000_0001],
        &[0xf000_0001],
        &[0x1001_0001, 0x4000_0001],
        &[0x2800_0001, 0x4000_0001],
        &[0x1000_0001, 0x4100_0001],
        &[0x1000_0001, 0x5000_0001],
        &[0x1000_0001, 0x1000_0001],
        &[0x3000_0007, 0x5000_0100],
        &[0x3000_0007, 0x4000_0000],
        &[
            0x3000_0007,
            0x5000_0000,
            0x5fff_ffff,
            0x5fff_ffff,
            0x5000_0100,
        ],
    ] {
        update(0.0, 1.0, inbox);
    }
    // 5: cut off inside each message; 4 comes first.
    update(0.0, 1.0, &[0x1000_0001]);
    update(0.0, 1.0, &[0x2000_0001]);
    let message = text::clock(7, 1.0, 1.0);
    for length in 1..7 {
        update(0.0, 1.0, &message[..length]);
    }
    update(0.0, 1.0, &[0x4000_0001, 0x1000_0001]);
    // 6: not finite or beyond 2^32; 5 comes first.
    for time in [
        two_32,
        -two_32,
        up(two_32),
        -up(two_32),
        f64::NAN,
        f64::INFINITY,
    ] {
        update(0.0, 1.0, &text::clock(7, time, 1.0));
        update(0.0, 1.0, &text::clock(7, 1.0, time));
    }
    update(
        0.0,
        1.0,
        &[text::clock(7, f64::NAN, 1.0), vec![0x1000_0001]].concat(),
    );
    // 7 (and 24 below it)
    for handle in ["16777215", "16777216", "4294967295"] {
        out.call(&format!("issue {handle}"));
    }
    mean_refusals(out);
}

/// Refusals 1 and 8 of the mean call.
fn mean_refusals(out: &mut Out) {
    let two_33 = 8_589_934_592.0_f64;
    let samples = |last: f64| -> Vec<u8> {
        [1.0, 2.0, last]
            .iter()
            .flat_map(|sample: &f64| sample.to_le_bytes())
            .collect()
    };
    let good = samples(3.0);
    out.call(&text::mean_line(1, 0.0, 8, &good));
    out.call(&text::mean_line(0, 0.0, 8, &good));
    out.call(&text::mean_line(33, 0.0, 8, &good));
    out.call(&text::mean_line(1, 1.5, 8, &good));
    out.call(&text::mean_line(1, f64::NAN, 8, &good));
    out.call(&text::mean_line(1, -0.0, 8, &good));
    out.call(&text::mean_line(1, 0.0, 8, &good[..23]));
    out.call(&text::mean_line(1, 0.0, 8, &[]));
    out.call(&text::mean_line(2, 0.0, 8, &good));
    out.call(&text::mean_line(1, 0.0, 7, &good));
    out.call(&text::mean_line(1, 0.0, 9, &good));
    out.call(&text::mean_line(1, 0.0, 0, &good));
    out.call(&text::mean_line(0, 0.0, 0, &[]));
    for last in [
        two_33,
        -two_33,
        f64::from_bits(two_33.to_bits() + 1),
        f64::NAN,
    ] {
        out.call(&text::mean_line(1, 0.0, 8, &samples(last)));
    }
}

fn refusals_session(out: &mut Out) {
    // 21 and 24 while the clock syncs; 21 before 22.
    out.call(&text::open_line(&P));
    out.call("report");
    out.call("issue 1");
    out.call(&text::update_line(
        1.0,
        1.0,
        TAPE,
        &text::clock(7, 1.0, 1.0),
    ));
    out.call(&text::update_line(1.0, 2.0, TAPE, &text::command(3, 1)));
    out.call(&text::update_line(1.0, 2.0, TAPE, &text::snapshot(3, 1)));
    let inbox = [text::clock(8, 2.0, 2.0), text::command(3, 1).to_vec()].concat();
    out.call(&text::update_line(1.0, 2.0, TAPE, &inbox));
    // 22: another id than the known one, and two ids within one inbox.
    out.call(&text::update_line(
        1.0,
        2.0,
        TAPE,
        &text::clock(8, 2.0, 2.0),
    ));
    out.call(&text::open_line(&P));
    let inbox = [text::clock(7, 2.0, 2.0), text::clock(8, 2.0, 2.0)].concat();
    out.call(&text::update_line(1.0, 2.0, TAPE, &inbox));
    let mut rng = unused();
    let mut run = exact(out, &mut rng, P, 4, 10, 100);
    run.play(1, &text::clock(9, 1.0, 1.0));
    // 24 before Ready, and 23 before 24 where the buffers are full.
    run.run.out.call("issue 1");
    run.update(0, run.target, &commands(64, 109));
    run.run.out.call("issue 1");
    run.run.out.call("issue 16777216");
    // 22 before 23.
    let inbox = [text::command(109, 1).to_vec(), text::clock(9, 1.0, 1.0)].concat();
    run.update(0, run.target, &inbox);
    run.update(0, run.target, &text::command(109, 1));
    // 23 before 27 and 28; 27 before 28; 28 last.
    run.run.update_at(0.0, 32_767.5, 0, &text::command(109, 1));
    run.run.update_at(1.0, 32_767.5, 0, &[]);
    run.run.update_at(1.0, 102.0, 0, &[]);
    run.run.update_at(1.0, 102.0, 3, &[]);
    run.run.report();
    // 26 before 28.
    let mut rng = unused();
    let mut run = exact(run.run.out, &mut rng, SLOW, 1, 2, -31_000);
    let inbox = text::snapshot(-31_010, 5);
    run.play(1, &inbox);
    run.update(1, run.old + 1 - 10 + 32_768, &[]);
    let target = run.target + 1;
    run.update_tape(1, target, 0, &[]);
    // 26 comes before 27 where a frame is played before the skip.
    run.run.update_at(1.0, 32_767.5, TAPE, &[]);
    // Without a frame (the negative delta makes the drift wrap) the skip meets 27.
    run.run.update_at(-2_000.0, 32_767.5, TAPE, &[]);
}

fn unsound(out: &mut Out) {
    let settings = Settings {
        fastforward_max: 0,
        ..P
    };
    out.call(&text::open_line(&settings));
    out.call("report");
    out.call("issue 1");
    out.call("issue 16777216");
    out.call(&text::update_line(
        1.0,
        1.0,
        TAPE,
        &text::clock(7, 1.0, 1.0),
    ));
    out.call(&text::update_line(1.0, 1.0, TAPE, &text::command(1, 1)));
    out.call(&text::update_line(1.0, f64::NAN, TAPE, &[]));
    out.call(&text::update_line(1.0, 1.0, TAPE, &[0x4000_0001]));
    out.call(&text::update_line(1.0, 1.0, TAPE, &[0x1000_0001]));
    out.call(&text::update_line(
        1.0,
        1.0,
        TAPE,
        &text::clock(7, f64::NAN, 1.0),
    ));
    out.call(&text::open_line(&P));
    out.call("report");
}

fn mean_zero_sign(out: &mut Out) {
    let samples: Vec<u8> = [-0.0_f64; 3]
        .iter()
        .flat_map(|sample| sample.to_le_bytes())
        .collect();
    out.call(&text::mean_line(1, 0.0, 8, &samples));
    // The same in a session: server time -0.0 at time 0.
    out.call(&text::open_line(&P));
    for _ in 0..3 {
        let inbox = text::clock(7, 0.0, -0.0);
        out.call(&text::update_line(0.0, 0.0, TAPE, &inbox));
    }
}

fn whole_part(out: &mut Out) {
    // Exact in the stamps' space: the sum with 32,768 keeps 37 bits after the point.
    let step = 0.5_f64.powi(30);
    let mut frames = vec![step, 0.5, 0.75];
    for power in (0..15).map(|k| 2.0_f64.powi(k)) {
        frames.extend([power - step, power, power + 0.5, 2.0 * power - 1.0]);
    }
    for frames in frames.into_iter().flat_map(|frames| [frames, -frames]) {
        out.call(&text::stamp_line(frames, 1.0));
    }
}

fn deviation_move(out: &mut Out) {
    let mut rng = unused();
    let mut run = exact(out, &mut rng, P, 4, 10, 3);
    let inbox = [text::command(10_003, 1), text::command(-3_997, 2)].concat();
    run.update(0, run.old - 20_000, &inbox);
}

fn deviation_drain(out: &mut Out) {
    let mut rng = unused();
    let mut run = exact(out, &mut rng, P, 4, 10, 3);
    let inbox = [
        text::command(16_003, 1),
        text::command(-14_997, 2),
        text::snapshot(-19_997, 5),
    ]
    .concat();
    run.play(1, &inbox);
}

fn bad_call_spaces(out: &mut Out) {
    out.print("");
    out.call("order 1 2");
    out.print("# The next line has two spaces.");
    out.call("order 1  2");
    out.call("order 1 2");
}

fn bad_call_name(out: &mut Out) {
    out.call("order 1 2");
    out.call("close");
    out.call("order 1 2");
}

fn bad_call_digits(out: &mut Out) {
    out.call(&text::stamp_line(1.0, 1.0));
    out.call(&text::stamp_line(1.0, 1.0).replace('f', "F"));
    out.call("order 1 2");
}

fn bad_call_word(out: &mut Out) {
    out.call(&text::open_line(&P));
    let line = text::update_line(1.0, 1.0, TAPE, &text::command(4, 9));
    out.call(&line[..line.len() - 1]);
    out.call("order 1 2");
}

fn bad_call_fields(out: &mut Out) {
    let line = text::open_line(&P);
    out.call(&line);
    out.call(&line[..line.len() - 2]);
    out.call("order 1 2");
}
