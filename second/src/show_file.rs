//! A recording for a person to read: `second show FILE`.

use crate::block::Row;
use crate::cases::hex;
use crate::recording::{read, read_front, row_of, Front, Refusal, MAX_BYTES, ROW_BYTES};
use crate::replay::replay;
use crate::settings::{existing, Settings, PERMIT_NOT_REQUIRED, SEVERAL_FORCED, TRIP_IF_BAD};
use crate::words::words;

/// What is shown of a recording.
pub struct Shown {
    pub text: String,
    /// By the reader or, in a replay, by 9.
    pub refused: bool,
}

/// The numbers of the bits of a word, the first being 1.
fn numbers(word: u16) -> String {
    let set: Vec<String> = (0..u16::BITS)
        .filter(|bit| word >> bit & 1 == 1)
        .map(|bit| (bit + 1).to_string())
        .collect();
    set.join(" ")
}

/// `1 row`, `2 rows`.
fn counted(count: u64, name: &str) -> String {
    let ending = if count == 1 { "" } else { "s" };
    format!("{count} {name}{ending}")
}

/// `cause 1`, `causes 1 2`.
fn named(name: &str, word: u16) -> String {
    let ending = if word.count_ones() == 1 { "" } else { "s" };
    format!("{name}{ending} {}", numbers(word))
}

fn options(settings: &Settings) -> String {
    let set: Vec<&str> = [
        (TRIP_IF_BAD, "trip if Bad"),
        (PERMIT_NOT_REQUIRED, "force permit not required"),
        (SEVERAL_FORCED, "several effects may be forced"),
    ]
    .iter()
    .filter(|(option, _)| settings.has_option(*option))
    .map(|(_, words)| *words)
    .collect();
    if set.is_empty() {
        "none".to_string()
    } else {
        set.join(", ")
    }
}

fn show_settings(settings: &Settings) -> String {
    let mut text = format!(
        "{}, {}, scan period {} ms\noptions: {}\n",
        counted(settings.causes.into(), "cause"),
        counted(settings.effects.into(), "effect"),
        settings.period,
        options(settings)
    );
    let count = usize::from(settings.effects);
    for (index, effect) in settings.slots.iter().take(count).enumerate() {
        let delay = match effect.delay {
            0 => "no delay".to_string(),
            delay => format!("delay {delay} ms"),
        };
        text += &format!(
            "effect {}: {}, {delay}\n",
            index + 1,
            named("cause", effect.association)
        );
    }
    text
}

/// The causes that a word of values says are normal and tripped.
fn show_values(values: u16, causes: u8) -> String {
    let tripped = !values & existing(causes);
    let parts: Vec<String> = [("normal", values), ("tripped", tripped)]
        .iter()
        .filter(|(_, word)| *word != 0)
        .map(|(name, word)| format!("{name} {}", numbers(*word)))
        .collect();
    parts.join(", ")
}

/// One line of a row: the word's name, its digits, and what they say.
fn show_word(name: &str, word: u16, meaning: &str) -> String {
    format!("  {name:<13} {word:04x}  {meaning}\n")
}

/// The row at a place. Words of 0 are left out, but for the values, in which a 0 is a tripped cause.
fn show_row(row: &Row, settings: &Settings, index: usize, place: usize) -> String {
    let words = &row.words;
    let mut text = format!(
        "row {} at {place}: hold {}\n",
        index + 1,
        counted(row.hold.into(), "scan")
    );
    text += &show_word(
        "cause values",
        words.values,
        &show_values(words.values, settings.causes),
    );
    for (name, word, of) in [
        ("cause Bad", words.bad, "cause"),
        ("cause mask", words.mask, "cause"),
        ("require reset", words.require_reset, "effect"),
        ("reset permit", words.reset_permit, "effect"),
        ("start permit", words.start_permit, "effect"),
        ("reset", words.reset, "effect"),
    ] {
        if word != 0 {
            text += &show_word(name, word, &named(of, word));
        }
    }
    text += &match words.force_permit {
        0 => String::new(),
        1 => show_word("force permit", 1, "forces count"),
        other => show_word("force permit", other, "neither 0 nor 1"),
    };
    for (name, word) in [
        ("force trip", words.force_trip),
        ("force normal", words.force_normal),
    ] {
        if word != 0 {
            text += &show_word(name, word, &named("effect", word));
        }
    }
    text
}

/// The rows that are valid; of a file that is refused these may be fewer than it counts.
fn show_rows(front: &Front, settings: &Settings) -> String {
    if front.rows.is_empty() {
        return String::new();
    }
    let scans = front.rows.iter().map(|row| u64::from(row.hold)).sum();
    let mut text = format!(
        "{}, {}; words that are not listed are 0\n",
        counted(front.rows.len() as u64, "row"),
        counted(scans, "scan")
    );
    for (index, row) in front.rows.iter().enumerate() {
        text += &show_row(row, settings, index, front.first_row + ROW_BYTES * index);
    }
    text
}

/// A refusal in words. Before it stands the row that is refused, or else the bytes at the place, if there are any.
fn show_refusal(refusal: &Refusal, front: &Front, bytes: &[u8]) -> String {
    let at = refusal.place as usize;
    let there = &bytes[at..bytes.len().min(at + ROW_BYTES)];
    let in_a_row = front.first_row > 0 && (4..=6).contains(&refusal.number);
    let what = match &front.settings {
        Some(settings) if in_a_row => show_row(&row_of(there), settings, front.rows.len(), at),
        _ if there.is_empty() => String::new(),
        _ => format!("bytes at {at}: {}\n", hex(there)),
    };
    format!(
        "{what}refused {} at {at}: {}\n",
        refusal.number,
        words(bytes, refusal)
    )
}

fn show_length(bytes: &[u8]) -> String {
    if bytes.len() > MAX_BYTES {
        format!("more than {}\n", counted(MAX_BYTES as u64, "byte"))
    } else {
        counted(bytes.len() as u64, "byte") + "\n"
    }
}

/// A recording, of which `ENOUGH_BYTES` bytes are enough: what is valid in it, and why it is refused if it is.
pub fn show_recording(bytes: &[u8]) -> Shown {
    let front = read_front(bytes);
    let mut text = show_length(bytes);
    if let Some(settings) = &front.settings {
        text += &show_settings(settings);
        text += &show_rows(&front, settings);
    }
    let mut refused = true;
    if let Err(refusal) = read(bytes) {
        text += &show_refusal(&refusal, &front, bytes);
    } else if let Some(late) = replay(bytes).refusal {
        text += &format!(
            "its replay is refused {} at {}: {}\n",
            late.number,
            late.place,
            words(bytes, &late)
        );
    } else {
        refused = false;
    }
    Shown { text, refused }
}
