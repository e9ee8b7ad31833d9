//! Recordings whose listings end at chosen places of the buffer that they are printed through.
//!
//! The proved programs collect a listing in a buffer. No piece of a listing (its header, the
//! lines of one row, its last line) takes more than 2,368 bytes, and the buffer is written
//! before a piece for which fewer are left; that is so with reasons and without. Whether that happens before the last row, before
//! the last line, or not at all depends on the length of every line, so the rows here are
//! chosen with the fill of such a buffer in view. The listings themselves know no buffer.

use crate::block::{Row, State, Words, MAX_HOLD};
use crate::make::Random;
use crate::make_files::{add, file_of, Files};
use crate::recording::MAX_ROWS;
use crate::replay::{change_lines, run_row, Columns};
use crate::settings::{Effect, Settings, SLOTS, TRIP_IF_BAD};
use std::ops::RangeInclusive;

/// What a line counts as, with a reason or without, and the most lines that a row can have.
const MOST_LINE: usize = 74;
const MOST_LINES: usize = 2 * SLOTS;
/// What a piece of a listing counts as.
pub const MOST_PIECE: usize = MOST_LINES * MOST_LINE;
/// The buffer of the programs that answer replay cases and why cases.
pub const CASES_BUFFER: usize = 4_096;
/// Buffers that rows can be found for: three of the largest are filled by some 1,000 rows.
pub const FILLED_BUFFERS: RangeInclusive<usize> = CASES_BUFFER..=65_536;

/// The highest fill at which a piece still goes into the buffer before it is written.
pub fn edge(buffer: usize) -> usize {
    buffer - MOST_PIECE
}

// ---- Rows ----

const ALL: u16 = u16::MAX;
/// Bad causes and active ones beside them that effect 1 alone sees. Its line is a byte longer from one to
/// the next: in the first-out, and from the sixth on in the reason's causes.
const LEAVING: [(u16, u16); 9] = [
    (8, 0),
    (8, 64),
    (8, 512),
    (8, 1_024),
    (8, 32_768),
    (8 | 64, 32_768),
    (8 | 512, 32_768),
    (8 | 1_024, 32_768),
    (8 | 32_768, 0),
];
/// So many of them differ in the first-out's length.
const FIRST_OUT_LENGTHS: usize = 5;
/// Causes 1, 2 and 3.
const GROUPS: u16 = 7;
/// Cause 15: every effect sees it, and its first-outs have five digits.
const SHARED: u16 = 16_384;

/// Sixteen effects with a delay of two scans. Effect 1 sees all causes; the others see cause
/// 1, 2 or 3, so that 1, 6, 11 or all effects leave Normal together, and cause 15.
fn settings() -> Settings {
    let mut settings = Settings {
        causes: 16,
        options: TRIP_IF_BAD,
        period: 100,
        effects: 16,
        ..Settings::default()
    };
    for index in 0..SLOTS {
        settings.slots[index] = Effect {
            association: match index {
                0 => ALL,
                1..=5 => SHARED | 1,
                6..=10 => SHARED | 2,
                _ => SHARED | 4,
            },
            delay: 150,
        };
    }
    settings
}

fn row(hold: u32, tripped: u16) -> Row {
    Row {
        hold,
        words: Words {
            values: !tripped,
            reset_permit: ALL,
            start_permit: ALL,
            ..Words::default()
        },
    }
}

/// These causes Bad: whatever the delay, effects that see one leave Normal, and have them as first-out.
fn bad_row(causes: u16) -> Row {
    let mut row = row(1, 0);
    row.words.bad = causes;
    row
}

/// One line: effect 1 leaves Normal by these Bad causes, with these active ones beside them.
fn one_leaves((bad, active): (u16, u16)) -> Row {
    let mut row = row(1, active);
    row.words.bad = bad;
    row
}

/// One line: effect 1 is forced back to Normal.
fn one_returns() -> Row {
    let mut row = row(1, 0);
    row.words.force_permit = 1;
    row.words.force_normal = 1;
    row
}

/// Two rows after which all effects are in Normal again. Many effects change once in one of
/// them and twice in the other, or by Bad causes once in each.
fn leave_and_return(random: &mut Random) -> [Row; 2] {
    let groups = random.between(1, u32::from(GROUPS)) as u16;
    let causes = random.pick(&[groups, groups | SHARED]);
    match random.between(0, 7) {
        0..=1 => [one_leaves(random.pick(&LEAVING)), one_returns()],
        2..=3 => [row(3, causes), row(1, 0)],
        4 => [bad_row(causes), row(1, 0)],
        _ => [row(1, causes), row(3, 0)],
    }
}

// ---- A recording in the making ----

/// The rows so far, and what has been printed of them.
#[derive(Clone)]
struct Filling {
    columns: Columns,
    buffer: usize,
    settings: Settings,
    rows: Vec<Row>,
    state: State,
    /// Bytes of the listing.
    length: usize,
    /// Those of them that are in the buffer.
    fill: usize,
    /// How often the buffer was written.
    writes: usize,
}

impl Filling {
    /// The header, and rows after which all effects are in Normal: so many long ones, of which
    /// only the first has lines, or a short one.
    fn started(columns: Columns, buffer: usize, long_rows: u32) -> Filling {
        let header = columns.header().len();
        let mut filling = Filling {
            columns,
            buffer,
            settings: settings(),
            rows: Vec::new(),
            state: State::default(),
            length: header,
            fill: header,
            writes: 0,
        };
        let hold = if long_rows > 0 { MAX_HOLD } else { 1 };
        for _ in 0..long_rows.max(1) {
            filling.add(row(hold, 0));
        }
        filling
    }

    /// The length of a row's lines, if it were the next, and the state after it.
    fn tried(&self, row: &Row) -> (usize, State) {
        let run = run_row(&self.settings, &self.state, row);
        let lines = change_lines(self.columns, self.state.next_sequence, &run.changes);
        (lines.len(), run.state)
    }

    fn add(&mut self, row: Row) {
        let (length, state) = self.tried(&row);
        if self.fill > edge(self.buffer) {
            self.fill = 0;
            self.writes += 1;
        }
        self.fill += length;
        self.length += length;
        self.state = state;
        self.rows.push(row);
    }

    /// Random rows until the buffer has been written so often.
    fn add_rows_to_write(&mut self, random: &mut Random, writes: usize) {
        while self.writes < writes {
            for row in leave_and_return(random) {
                self.add(row);
            }
        }
    }

    /// Random rows as long as the fill stays below `most` and nothing is written.
    fn add_rows_below(&mut self, random: &mut Random, most: usize) {
        loop {
            let mut more = self.clone();
            for row in leave_and_return(random) {
                more.add(row);
            }
            if more.writes > self.writes || more.fill > most {
                break;
            }
            *self = more;
        }
    }

    /// How many lengths the line of effect 1 that leaves Normal can have.
    fn lengths(&self) -> usize {
        match self.columns {
            Columns::Plain => FIRST_OUT_LENGTHS,
            Columns::WithReason => LEAVING.len(),
        }
    }

    /// Rows of one line each until the listing has exactly `length` bytes; whether it could
    /// be done. Fewer bytes than a line are made up for by longer lines before.
    fn add_lines_to(&mut self, length: usize) -> bool {
        let mut tried = self.clone();
        let first = self.rows.len();
        loop {
            let row = if (tried.rows.len() - first) % 2 == 0 {
                one_leaves(LEAVING[0])
            } else {
                one_returns()
            };
            if tried.length + tried.tried(&row).0 > length {
                break;
            }
            tried.add(row);
        }
        let mut missing = length.saturating_sub(tried.length);
        for row in tried.rows[first..].iter_mut().step_by(2) {
            let more = missing.min(self.lengths() - 1);
            *row = one_leaves(LEAVING[more]);
            missing -= more;
        }
        for row in &tried.rows[first..] {
            self.add(*row);
        }
        self.length == length
    }
}

// ---- Endings ----

/// How a listing is to end.
#[derive(Clone, Copy, Debug)]
pub struct Ending {
    /// Rows of 1,000,000 scans at the start, of which only the first has lines: the scan
    /// numbers of all lines after them are longer.
    pub long_rows: u32,
    /// How often the buffer has been written before.
    pub writes: usize,
    /// The bytes in the buffer before the last row of many lines or, if there is none, before
    /// the last line.
    pub fill: usize,
    /// The hold of a last row of many lines: with 1 every effect changes once, with 3 twice.
    pub many: Option<u32>,
}

/// From 999 long rows on a row of 1,000,000 scans more is refused by 9.
pub const LONG_ROWS_TO_9: u32 = 999;

/// Room that rows of one line need to reach any length.
const LINES_ROOM: u32 = 1_000;

/// One try; other random rows may reach the ending if these do not.
fn tried_file(
    random: &mut Random,
    columns: Columns,
    buffer: usize,
    ending: &Ending,
) -> Option<Vec<u8>> {
    let mut filling = Filling::started(columns, buffer, ending.long_rows);
    filling.add_rows_to_write(random, ending.writes);
    let for_lines = random.between(0, LINES_ROOM) as usize;
    filling.add_rows_below(random, ending.fill.saturating_sub(for_lines));
    let missing = ending.fill.checked_sub(filling.fill)?;
    let exact = filling.add_lines_to(filling.length + missing);
    if !exact || filling.writes != ending.writes {
        return None;
    }
    if let Some(hold) = ending.many {
        filling.add(row(hold, GROUPS | SHARED));
    }
    let mut rows = filling.rows;
    if ending.long_rows == LONG_ROWS_TO_9 {
        rows.push(row(MAX_HOLD, 0));
    }
    let few_enough = rows.len() <= usize::from(MAX_ROWS);
    few_enough.then(|| file_of(&filling.settings, &rows))
}

/// After so many tries an ending counts as one that no rows reach.
const TRIES: u32 = 1_000;

/// A recording whose listing ends as is said, if one is found.
fn found_file(
    random: &mut Random,
    columns: Columns,
    buffer: usize,
    ending: &Ending,
) -> Option<Vec<u8>> {
    (0..TRIES).find_map(|_| tried_file(random, columns, buffer, ending))
}

/// A recording whose listing ends as is said; there has to be one.
pub fn filled_file(
    random: &mut Random,
    columns: Columns,
    buffer: usize,
    ending: &Ending,
) -> Vec<u8> {
    found_file(random, columns, buffer, ending).unwrap_or_else(|| {
        panic!("no recording was found that fills {buffer} bytes by {ending:?}");
    })
}

/// A recording whose listing has so many bytes before its last line, in rows of one line.
fn file_of_length(columns: Columns, buffer: usize, length: usize) -> Vec<u8> {
    let mut filling = Filling::started(columns, buffer, 0);
    assert!(filling.add_lines_to(length), "no listing of {length} bytes");
    file_of(&filling.settings, &filling.rows)
}

/// Fills before the last line, beside the edge: below it the last line fits, above it the
/// buffer is written first.
const BESIDE: [i32; 11] = [-64, -33, -16, -7, -2, -1, 0, 1, 2, 7, 16];
/// Fills before a last row of many lines, beside the edge. The row is printed on top of the fill, so that
/// the fill before the last line is anywhere up to the most that a row takes.
const BELOW: [i32; 20] = [
    -850, -800, -750, -700, -650, -600, -550, -500, -450, -400, -350, -300, -250, -200, -150, -100,
    -16, -1, 0, 1,
];
/// Fills from here down are so far apart for each number of writes.
const FAR_BELOW: i32 = -200;
const APART: i32 = 83;
/// In the first buffer the lines of the start stand, and rows after it reach fills from here up.
const FIRST_BUFFER: i32 = -500;

/// Listings that end about the end of the first, the second and the third buffer, and those of
/// all lengths from below the edge of one buffer to above its end.
pub fn filled_files(columns: Columns, files: &mut Files) {
    let buffer = CASES_BUFFER;
    let mut random = Random::new(1);
    let mut add_ending = |random: &mut Random, ending: Ending| {
        let refused: &[u8] = if ending.long_rows == LONG_ROWS_TO_9 {
            &[9]
        } else {
            &[]
        };
        let file = filled_file(random, columns, buffer, &ending);
        add(files, "filled buffer", refused, file);
    };
    let fill = |beside: i32| edge(buffer).saturating_add_signed(beside as isize);
    for writes in 0..3 {
        for beside in BESIDE {
            let ending = Ending {
                long_rows: 0,
                writes,
                fill: fill(beside),
                many: None,
            };
            add_ending(&mut random, ending);
        }
        for (index, below) in BELOW.into_iter().enumerate() {
            if writes == 0 && below < FIRST_BUFFER {
                continue;
            }
            let apart = if below <= FAR_BELOW { APART } else { 0 };
            let below = below + apart * writes as i32;
            let ending = Ending {
                long_rows: [0, 1, 11][index % 3],
                writes,
                fill: fill(below),
                many: Some([3, 1][(index + writes) % 2]),
            };
            add_ending(&mut random, ending);
        }
    }
    for (beside, many) in [(0, None), (1, None), (0, Some(3))] {
        let ending = Ending {
            long_rows: LONG_ROWS_TO_9,
            writes: 1,
            fill: fill(beside),
            many,
        };
        add_ending(&mut random, ending);
    }
    for length in (edge(buffer) - 64..buffer + 64).step_by(48) {
        let file = file_of_length(columns, buffer, length);
        add(files, "length about a buffer", &[], file);
    }
}

/// How far below the edge random fills lie, before a last row of many lines and before the last line.
const MOST_BELOW: u32 = 1_200;
const MOST_LAST_LINE: u32 = 64;

/// Any ending of that kind.
pub fn random_ending(random: &mut Random, buffer: usize) -> Ending {
    let many = random.pick(&[None, Some(1), Some(3)]);
    let below = if many.is_some() {
        random.between(0, MOST_BELOW)
    } else {
        random.between(0, MOST_LAST_LINE)
    };
    Ending {
        long_rows: random.pick(&[0, 0, 0, 0, 1, 1, 11, 101]),
        writes: random.between(0, 2) as usize,
        fill: edge(buffer) + random.between(0, 20) as usize - below as usize,
        many,
    }
}

/// A recording of any ending of that kind that rows are found for.
pub fn random_filled_file(random: &mut Random, columns: Columns, buffer: usize) -> Vec<u8> {
    loop {
        let ending = random_ending(random, buffer);
        if let Some(file) = found_file(random, columns, buffer, &ending) {
            return file;
        }
    }
}
