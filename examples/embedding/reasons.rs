//! Prints why each effect of the recording on standard input is in its state (docs/FORMAT.md, "Reasons"), from Rust: the listing with
//! reasons, an empty line, and all effects after the last scan. README.md says how to link.
//! The exit status is 0; 1 if the recording is refused, and standard error then says why; 2 if it could not be read, the text could
//! not be written, or the library is of another version.

#[allow(dead_code)] // a program need not call all of it
mod pohandira;
mod program;

use pohandira::{Event, Reason, Refused, Replay, State};
use std::process::ExitCode;

fn listing(replay: &Replay, reasons: &[Reason]) -> String {
    let mut text = "seq scan effect from to first reason\n".to_string();
    for (event, reason) in replay.events.iter().zip(reasons) {
        text += &format!("{event} {reason}\n");
    }
    text + &format!("{}\n", replay.totals)
}

/// An effect stands as its last event says, and one without an event as at first: tripped, without a first-out.
fn effects(events: &[Event], now: &[Reason]) -> String {
    let mut text = "effect state first reason\n".to_string();
    for (effect, reason) in (1..).zip(now) {
        let last = events.iter().rfind(|event| event.effect == effect);
        let (state, first_out) = last.map_or((State::Tripped, 0), |event| (event.after, event.first_out));
        text += &format!("{effect} {state} {first_out} {reason}\n");
    }
    text
}

fn text(recording: &[u8]) -> Result<String, Refused> {
    let now = pohandira::now(recording)?;
    let (replay, reasons) = (pohandira::replay(recording)?, pohandira::reasons(recording)?);
    Ok(listing(&replay, &reasons) + "\n" + &effects(&replay.events, &now))
}

fn main() -> ExitCode {
    program::print_input("reasons", text)
}
