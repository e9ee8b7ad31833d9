//! Prints the listing of the recording on standard input (document 01, "One session, whole"), from Rust. README.md says how to link.
//! The exit status is 0; 1 if the recording is refused, and standard error then says why; 2 if it could not be read, the listing could
//! not be written, or the library is of another version.

#[allow(dead_code)] // a program need not call all of it
mod pohandira;
mod program;

use std::process::ExitCode;

fn listing(recording: &[u8]) -> Result<String, pohandira::Refused> {
    let replay = pohandira::replay(recording)?;
    let mut text = "seq scan effect from to first\n".to_string();
    for event in &replay.events {
        text += &format!("{event}\n");
    }
    Ok(text + &format!("{}\n", replay.totals))
}

fn main() -> ExitCode {
    program::print_input("session", listing)
}
