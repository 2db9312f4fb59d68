//! Tells the Rust's own assertions apart by which one fired.

use std::{
    any::Any,
    cell::RefCell,
    panic::{catch_unwind, AssertUnwindSafe},
};

thread_local! {
    /// Whether a client is playing, so that its panics are kept quiet and looked at.
    static PLAYING: RefCell<bool> = const { RefCell::new(false) };
    static LAST: RefCell<Place> = RefCell::default();
}

/// Where a panic arose.
#[derive(Clone, Debug, Default)]
struct Place {
    file: String,
    line: u32,
}

/// The three kinds of refusal 26.
#[derive(Clone, Copy, Debug, PartialEq, Eq)]
pub enum Stop26 {
    /// "Healthy has N - O = -32,768": the frame ends Overshot.
    HealthyToOvershot,
    /// "Obsolete loads S with S - O >= 2": the frame ends Overshot.
    ObsoleteToOvershot,
    /// "a frame that began Healthy ends Obsolete".
    HealthyToObsolete,
}

/// Why a call did not come to its end.
pub enum Stop {
    /// 25 a 66th frame.
    FrameLimit,
    /// 26, one of the assertions at the end of a frame.
    Status(Stop26),
    /// 27, the assertion before a tween weight is shaped.
    TweenWeight,
    /// A buffer operation deviated from the rule, and the rule is not to be followed.
    Deviated,
    /// Any other panic.
    Unexpected(String),
}

/// Keeps the panics of a playing client off the terminal and notes where they arise.
pub fn install_hook() {
    let default = std::panic::take_hook();
    std::panic::set_hook(Box::new(move |info| {
        if !PLAYING.with(|playing| *playing.borrow()) {
            return default(info);
        }
        if let Some(location) = info.location() {
            LAST.with(|last| {
                *last.borrow_mut() = Place {
                    file: location.file().to_owned(),
                    line: location.line(),
                }
            });
        }
    }));
}

fn message_of(payload: &(dyn Any + Send)) -> &str {
    if let Some(text) = payload.downcast_ref::<String>() {
        text
    } else if let Some(text) = payload.downcast_ref::<&str>() {
        text
    } else {
        "(no message)"
    }
}

/// Names the assertion by its file and its message.
fn classify(payload: &(dyn Any + Send)) -> Stop {
    if payload.is::<observe::FrameLimit>() {
        return Stop::FrameLimit;
    }
    if payload.is::<observe::Deviated>() {
        return Stop::Deviated;
    }
    let place = LAST.with(|last| last.borrow().clone());
    let message = message_of(payload);
    let in_file = |name: &str| place.file.ends_with(name);
    let change = |from: &str, to: &str| {
        message
            == format!(
                "Unexpected status change from Fastforwarding({from}) to: Fastforwarding({to})"
            )
    };
    if in_file("crystalorb/src/client.rs") {
        if change("Healthy", "Overshot") {
            return Stop::Status(Stop26::HealthyToOvershot);
        }
        if change("Obsolete", "Overshot") {
            return Stop::Status(Stop26::ObsoleteToOvershot);
        }
        if change("Healthy", "Obsolete") {
            return Stop::Status(Stop26::HealthyToObsolete);
        }
    }
    if in_file("crystalorb/src/lib.rs") && message.contains("(0.0..=1.0).contains(&t)") {
        return Stop::TweenWeight;
    }
    Stop::Unexpected(format!("{}:{}: {message}", place.file, place.line))
}

/// Plays on a client; returns what stopped it, if anything did.
pub fn play(function: impl FnOnce()) -> Result<(), Stop> {
    PLAYING.with(|playing| *playing.borrow_mut() = true);
    let result = catch_unwind(AssertUnwindSafe(function));
    PLAYING.with(|playing| *playing.borrow_mut() = false);
    result.map_err(|payload| classify(&*payload))
}
