//! Prints the season totals of the recordings in files (docs/FORMAT.md, "Season totals"), from Rust. README.md says how to link.
//!
//!     season_rust FILE...
//!
//! A recording that is refused adds nothing. The exit status is 0; 1 if one is refused, and standard error then says which and why; 2 if
//! one could not be read, the totals could not be written, or the library is of another version.

#[allow(dead_code)] // a program need not call all of it
mod pohandira;

use std::ffi::OsStr;
use std::io::{self, Write};
use std::process::ExitCode;

/// How many files were added, refused and not to be read.
#[derive(Default)]
struct Files {
    added: u32,
    refused: u32,
    unread: u32,
}

fn say(what: &OsStr, why: impl std::fmt::Display) {
    eprintln!("season: {}: {why}", what.to_string_lossy());
}

fn add_file(name: &OsStr, report: &mut pohandira::Report, files: &mut Files) {
    match std::fs::read(name).map(|recording| report.add(&recording)) {
        Ok(Ok(())) => files.added += 1,
        Ok(Err(refusal)) => {
            say(name, format!("refused: {}", refusal.text()));
            files.refused += 1;
        }
        Err(error) => {
            say(name, error);
            files.unread += 1;
        }
    }
}

fn line(effect: usize, report: &pohandira::Report) -> String {
    let scans = report.scans(effect).map(|scans| scans.to_string()).join(" ");
    format!("{effect} {scans} {}\n", report.trips(effect))
}

/// Up to the last effect that some recording has: after each of its scans the effect stood in a state.
fn table(report: &pohandira::Report, files: &Files) -> String {
    let last = (1..=pohandira::Report::EFFECTS).rfind(|&effect| report.scans(effect) != [0; 6]);
    let mut text = "effect tripped wait-reset ready wait-start normal delayed trips\n".to_string();
    for effect in 1..=last.unwrap_or(0) {
        text += &line(effect, report);
    }
    text + &format!("recordings {} refused {} exercised {}\n", files.added, files.refused, report.exercised())
}

fn season() -> u8 {
    if pohandira::version() != pohandira::VERSION {
        say("the library".as_ref(), "not the version that this program was compiled for");
        return 2;
    }
    let (mut report, mut files) = (pohandira::Report::empty(), Files::default());
    for name in std::env::args_os().skip(1) {
        add_file(&name, &mut report, &mut files);
    }
    let mut output = io::stdout();
    let written = output.write_all(table(&report, &files).as_bytes()).and_then(|()| output.flush());
    if let Err(error) = written {
        say("standard output".as_ref(), error);
        return 2;
    }
    match files {
        Files { unread: 1.., .. } => 2,
        Files { refused: 1.., .. } => 1,
        _ => 0,
    }
}

fn main() -> ExitCode {
    ExitCode::from(season())
}
