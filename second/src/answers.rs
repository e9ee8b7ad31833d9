//! What `second check`, `explain` and `summary` print of a file: one line each.

use crate::recording::{read, Refusal};
use crate::replay::{replay, Listing};
use crate::words::words;

#[derive(Clone, Copy, Debug, PartialEq, Eq)]
pub enum Question {
    /// Whether the reader accepts the file.
    Check,
    /// Whether the file can be replayed, and if not, why.
    Explain,
    /// What its replay results in, as a line of CSV.
    Summary,
}

/// The line of a file.
#[derive(Clone, Debug, PartialEq, Eq)]
pub struct Line {
    /// With the file's name, which need not be text.
    pub bytes: Vec<u8>,
    pub refused: bool,
}

impl Question {
    pub fn named(word: &str) -> Option<Question> {
        match word {
            "check" => Some(Question::Check),
            "explain" => Some(Question::Explain),
            "summary" => Some(Question::Summary),
            _ => None,
        }
    }

    /// What stands before the line of the first file.
    pub fn heading(self) -> &'static str {
        match self {
            Question::Check | Question::Explain => "",
            Question::Summary => "file,number,place,rows,scans,live,exercised,records\n",
        }
    }

    pub fn line(self, name: &[u8], file: &[u8]) -> Line {
        match self {
            Question::Check => check(name, file),
            Question::Explain => explain(name, file),
            Question::Summary => summary(name, file),
        }
    }
}

fn line_of(name: &[u8], text: &str, refused: bool) -> Line {
    Line {
        bytes: [name, text.as_bytes(), b"\n"].concat(),
        refused,
    }
}

fn accepted(rows: usize) -> String {
    format!(": accepted, {rows} rows")
}

fn refused(refusal: &Refusal) -> String {
    format!(": refused {} at {}", refusal.number, refusal.place)
}

/// The line of a refused file.
pub fn refusal_line(name: &[u8], refusal: &Refusal) -> Vec<u8> {
    line_of(name, &refused(refusal), true).bytes
}

fn check(name: &[u8], file: &[u8]) -> Line {
    match read(file) {
        Ok(recording) => line_of(name, &accepted(recording.rows.len()), false),
        Err(refusal) => line_of(name, &refused(&refusal), true),
    }
}

fn explain(name: &[u8], file: &[u8]) -> Line {
    let Listing {
        totals, refusal, ..
    } = replay(file);
    match refusal {
        None => line_of(name, &accepted(totals.rows as usize), false),
        Some(refusal) => {
            let text = format!("{}: {}", refused(&refusal), words(file, &refusal));
            line_of(name, &text, true)
        }
    }
}

/// A name as a field of CSV: in quotes, with its own quotes doubled, if it has a comma, a
/// quote or the end of a line.
fn field(name: &[u8]) -> Vec<u8> {
    if !name.iter().any(|byte| b",\"\r\n".contains(byte)) {
        return name.to_vec();
    }
    let mut quoted = vec![b'"'];
    for byte in name {
        if *byte == b'"' {
            quoted.push(b'"');
        }
        quoted.push(*byte);
    }
    quoted.push(b'"');
    quoted
}

/// The totals of a refused replay are zeros.
fn summary(name: &[u8], file: &[u8]) -> Line {
    let Listing {
        totals, refusal, ..
    } = replay(file);
    let (number, place) = refusal.map_or((0, 0), |refusal| (refusal.number, refusal.place));
    let text = format!(
        ",{number},{place},{},{},{},{},{}",
        totals.rows, totals.scans, totals.live, totals.exercised, totals.records
    );
    line_of(&field(name), &text, refusal.is_some())
}
