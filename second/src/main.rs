//! `second answer|make|pairs|bad|show KIND ...`, `second replay|why|now|reasons`, `second show FILE`
//! and `second check|explain|summary|season NAME...`: see `USAGE`.

use second::answers::{refusal_line, Question};
use second::cases::{answer_next, Kind, Stream};
use second::make::{filled_stream, stream_of};
use second::make_bad::bad_stream;
use second::make_filled::FILLED_BUFFERS;
use second::make_pairs::pairs_stream;
use second::replay::{replay, replay_with_reasons, Columns, Listing, ENOUGH_BYTES};
use second::season::Season;
use second::show::show_next;
use second::show_file::show_recording;
use second::why::{now_text, reason_lines};
use std::ffi::{OsStr, OsString};
use std::fs::File;
use std::io::{self, BufWriter, Read, Write};
use std::os::unix::ffi::OsStrExt;
use std::process::ExitCode;
use std::str::FromStr;

const USAGE: &str = "usage:
  second replay < recording > listing
  second why < recording > listing with reasons
  second now < recording > all effects after the last scan, with reasons
  second reasons < recording > the bytes of the records' reasons, and of those after the last scan
  second answer KIND < cases > answers
  second make KIND SEED COUNT > cases
  second pairs KIND > a case of every pair of forces
  second bad KIND > cases in twos that differ in one Bad bit; writing has none
  second fill BUFFER SEED COUNT [why] > replay cases, or why cases
  second show KIND < cases
  second show FILE > a recording in words; - is standard input, ./scan a file of that name
  second check|explain|summary [NAME...] > a line for each file; - or no NAME is standard input
  second season [NAME...] > the totals of all files; NAME as above
KIND is scan, held, recording, writing, replay, season, reason or why
exit status: 0; 1 if a recording that is replayed, shown or asked for is refused; 2 on bad usage,
a bad stream, or failing input or output";

/// Exit statuses; of several files the highest counts.
const DONE: u8 = 0;
const REFUSED: u8 = 1;
const FAILED: u8 = 2;

fn status_of(refused: bool) -> u8 {
    if refused {
        REFUSED
    } else {
        DONE
    }
}

/// At most `most` bytes; a read that fails is no end of data.
fn read_up_to(most: usize, from: impl Read) -> io::Result<Vec<u8>> {
    let mut bytes = Vec::new();
    from.take(most as u64).read_to_end(&mut bytes)?;
    Ok(bytes)
}

/// At most `most` bytes of standard input.
fn input_up_to(most: usize) -> Result<Vec<u8>, String> {
    read_up_to(most, io::stdin().lock()).map_err(|error| format!("reading standard input: {error}"))
}

fn input() -> Result<Vec<u8>, String> {
    input_up_to(usize::MAX)
}

/// What is needed of the recording in a file; `-` is standard input.
fn recording_in(file: &OsStr) -> Result<Vec<u8>, String> {
    if file == "-" {
        return input_up_to(ENOUGH_BYTES);
    }
    File::open(file)
        .and_then(|opened| read_up_to(ENOUGH_BYTES, opened))
        .map_err(|error| format!("{}: {error}", file.to_string_lossy()))
}

fn written(result: io::Result<()>) -> Result<(), String> {
    result.map_err(|error| format!("writing standard output: {error}"))
}

fn answer(kind: Kind, out: &mut impl Write) -> Result<(), String> {
    let bytes = input()?;
    let mut stream = Stream::new(&bytes);
    while !stream.at_end() {
        let text = answer_next(kind, &mut stream)?;
        written(out.write_all(text.as_bytes()))?;
    }
    Ok(())
}

fn show(kind: Kind, out: &mut impl Write) -> Result<(), String> {
    let bytes = input()?;
    let mut stream = Stream::new(&bytes);
    let mut number = 0;
    while !stream.at_end() {
        number += 1;
        let text = show_next(kind, &mut stream)?;
        written(write!(out, "case {number}\n{text}"))?;
    }
    Ok(())
}

/// The number that a word says.
fn number<N: FromStr>(name: &str, word: &str) -> Result<N, String> {
    word.parse().map_err(|_| format!("bad {name} {word}"))
}

fn make(kind: Kind, seed: &str, count: &str, out: &mut impl Write) -> Result<(), String> {
    let (seed, count) = (number("seed", seed)?, number("count", count)?);
    written(out.write_all(&stream_of(kind, seed, count)))
}

fn make_pairs(kind: Kind, out: &mut impl Write) -> Result<(), String> {
    written(out.write_all(&pairs_stream(kind)))
}

fn make_bad(kind: &str, out: &mut impl Write) -> Result<(), String> {
    let stream = bad_stream(kind_of(kind)?).ok_or_else(|| format!("no Bad cases of {kind}"))?;
    written(out.write_all(&stream))
}

/// Replay or why cases for a printing buffer of so many bytes.
fn fill(
    columns: Columns,
    buffer: &str,
    seed: &str,
    count: &str,
    out: &mut impl Write,
) -> Result<(), String> {
    let bytes = number("buffer", buffer)?;
    if !FILLED_BUFFERS.contains(&bytes) {
        return Err(format!("no buffer of {bytes} bytes can be filled"));
    }
    let (seed, count) = (number("seed", seed)?, number("count", count)?);
    written(out.write_all(&filled_stream(columns, bytes, seed, count)))
}

fn kind_of(name: &str) -> Result<Kind, String> {
    Kind::named(name).ok_or_else(|| format!("no such kind: {name}\n{USAGE}"))
}

/// Tells a text of the replay of standard input.
fn tell_input(
    replayed: fn(&[u8]) -> Listing,
    told: fn(&Listing) -> String,
    out: &mut impl Write,
) -> Result<u8, String> {
    let listing = replayed(&input_up_to(ENOUGH_BYTES)?);
    written(out.write_all(told(&listing).as_bytes()))?;
    Ok(status_of(listing.refusal.is_some()))
}

fn listing_text(listing: &Listing) -> String {
    listing.text.clone()
}

/// Shows a recording.
fn show_recording_in(file: &OsStr, out: &mut impl Write) -> Result<u8, String> {
    let shown = show_recording(&recording_in(file)?);
    written(out.write_all(shown.text.as_bytes()))?;
    Ok(status_of(shown.refused))
}

/// Cases of a kind on standard input, or the recording in a file.
fn show_kind_or_file(word: &OsStr, out: &mut impl Write) -> Result<u8, String> {
    match word.to_str().and_then(Kind::named) {
        Some(kind) => show(kind, out).map(|()| DONE),
        None => show_recording_in(word, out),
    }
}

/// The line of one file; one that cannot be read has a message and no line.
fn ask_file(question: Question, name: &OsStr, out: &mut impl Write) -> Result<u8, String> {
    match recording_in(name) {
        Ok(file) => {
            let line = question.line(name.as_bytes(), &file);
            written(out.write_all(&line.bytes))?;
            Ok(status_of(line.refused))
        }
        Err(message) => {
            eprintln!("second: {message}");
            Ok(FAILED)
        }
    }
}

/// The names that are given, or that of standard input if there is none.
fn names_or_input(names: &[OsString]) -> Vec<OsString> {
    if names.is_empty() {
        vec![OsString::from("-")]
    } else {
        names.to_vec()
    }
}

/// The lines of the named files.
fn ask(question: Question, names: &[OsString], out: &mut impl Write) -> Result<u8, String> {
    written(out.write_all(question.heading().as_bytes()))?;
    let mut worst = DONE;
    for name in names_or_input(names) {
        worst = worst.max(ask_file(question, &name, out)?);
    }
    Ok(worst)
}

/// Adds the recording in a file to the season; one that is refused or cannot be read has a
/// message.
fn add_file(season: &mut Season, name: &OsStr) -> Result<u8, String> {
    let file = match recording_in(name) {
        Ok(file) => file,
        Err(message) => {
            eprintln!("second: {message}");
            return Ok(FAILED);
        }
    };
    let Err(refusal) = season.add(&file) else {
        return Ok(DONE);
    };
    io::stderr()
        .write_all(&refusal_line(name.as_bytes(), &refusal))
        .map_err(|error| format!("writing standard error: {error}"))?;
    Ok(REFUSED)
}

/// One report over the named files, and its table.
fn season(names: &[OsString], out: &mut impl Write) -> Result<u8, String> {
    let mut season = Season::empty();
    let mut worst = DONE;
    for name in names_or_input(names) {
        worst = worst.max(add_file(&mut season, &name)?);
    }
    written(out.write_all(season.table().as_bytes()))?;
    Ok(worst)
}

fn question_of(word: &str) -> Result<Question, String> {
    Question::named(word).ok_or_else(|| USAGE.to_string())
}

/// Does what the words say; the exit status.
fn work(given: &[OsString], out: &mut impl Write) -> Result<u8, String> {
    let words: Vec<_> = given.iter().map(|word| word.to_string_lossy()).collect();
    let words: Vec<&str> = words.iter().map(|word| word.as_ref()).collect();
    let mut status = DONE;
    match words[..] {
        ["replay"] => status = tell_input(replay, listing_text, out)?,
        ["why"] => status = tell_input(replay_with_reasons, listing_text, out)?,
        ["now"] => status = tell_input(replay, now_text, out)?,
        ["reasons"] => status = tell_input(replay, reason_lines, out)?,
        ["answer", kind] => answer(kind_of(kind)?, out)?,
        ["show", _] => status = show_kind_or_file(&given[1], out)?,
        ["make", kind, seed, count] => make(kind_of(kind)?, seed, count, out)?,
        ["pairs", kind] => make_pairs(kind_of(kind)?, out)?,
        ["bad", kind] => make_bad(kind, out)?,
        ["fill", buffer, seed, count] => fill(Columns::Plain, buffer, seed, count, out)?,
        ["fill", buffer, seed, count, "why"] => {
            fill(Columns::WithReason, buffer, seed, count, out)?
        }
        ["season", ..] => status = season(&given[1..], out)?,
        [question, ..] => status = ask(question_of(question)?, &given[1..], out)?,
        [] => return Err(USAGE.to_string()),
    }
    written(out.flush())?;
    Ok(status)
}

fn main() -> ExitCode {
    let words: Vec<OsString> = std::env::args_os().skip(1).collect();
    let mut out = BufWriter::new(io::stdout().lock());
    match work(&words, &mut out) {
        Ok(status) => ExitCode::from(status),
        Err(message) => {
            eprintln!("second: {message}");
            ExitCode::from(FAILED)
        }
    }
}
