//! Season totals (docs/FORMAT.md, "Season totals"): how long each effect stood in each state,
//! summed up over recordings.
//!
//! A short recording is counted scan by scan, as the totals are defined. A long one is counted by
//! stretches: from one change of an effect to the next it stands in one state. `tests/season.rs`
//! holds the two ways against each other.

use crate::block::{exercised, step, without_reset, Phase, Row, State, Words, MAX_SCANS, PHASES};
use crate::recording::{read, Recording, Refusal};
use crate::replay::{run_row, Change};
use crate::settings::{Settings, SLOTS};

/// The numbers of an effect: the scans in each state, by state code, and then the trips.
pub const EFFECT_NUMBERS: usize = PHASES.len() + 1;
/// The trips among the numbers of an effect.
pub const TRIPS: usize = PHASES.len();
/// The place of the exercised scans, which come last.
pub const EXERCISED: usize = SLOTS * EFFECT_NUMBERS;
pub const REPORT_NUMBERS: usize = EXERCISED + 1;
const NUMBER_BYTES: usize = 8;
pub const REPORT_BYTES: usize = REPORT_NUMBERS * NUMBER_BYTES;

/// Up to this many scans a recording is counted scan by scan.
pub const SHORT_SCANS: u64 = 20_000;

#[derive(Clone, Copy, Debug, PartialEq, Eq)]
pub struct Report {
    pub numbers: [u64; REPORT_NUMBERS],
}

/// The place of an effect's scans in a state; effects count from 0.
pub fn scans_in(effect: usize, phase: Phase) -> usize {
    EFFECT_NUMBERS * effect + usize::from(phase.code())
}

/// The place of an effect's changes into Tripped; effects count from 0.
pub fn trips_of(effect: usize) -> usize {
    EFFECT_NUMBERS * effect + TRIPS
}

impl Report {
    pub fn empty() -> Report {
        Report {
            numbers: [0; REPORT_NUMBERS],
        }
    }

    /// The report that 904 bytes hold.
    pub fn of_bytes(bytes: &[u8; REPORT_BYTES]) -> Report {
        let mut report = Report::empty();
        let parts = bytes.chunks(NUMBER_BYTES);
        for (number, part) in report.numbers.iter_mut().zip(parts) {
            *number = part
                .iter()
                .fold(0, |high, byte| high << u8::BITS | u64::from(*byte));
        }
        report
    }

    pub fn to_bytes(self) -> Vec<u8> {
        self.numbers
            .iter()
            .flat_map(|number| number.to_be_bytes())
            .collect()
    }

    /// The sums, or nothing if one of them would pass 64 bits.
    pub fn plus(&self, more: &Report) -> Option<Report> {
        let mut sums = *self;
        for (sum, number) in sums.numbers.iter_mut().zip(more.numbers) {
            *sum = sum.checked_add(number)?;
        }
        Some(sums)
    }
}

// ---- Scan by scan ----

/// Counts one scan for each effect that exists.
fn count_scan(settings: &Settings, before: &State, after: &State, report: &mut Report) {
    for effect in 0..usize::from(settings.effects) {
        let (old, new) = (before.slots[effect].phase, after.slots[effect].phase);
        report.numbers[scans_in(effect, new)] += 1;
        if new == Phase::Tripped && old != Phase::Tripped {
            report.numbers[trips_of(effect)] += 1;
        }
    }
}

/// Steps through a row and gives the state after it.
fn step_row(settings: &Settings, state: &State, row: &Row, report: &mut Report) -> State {
    let mut state = *state;
    let later = without_reset(&row.words);
    for scan in 0..row.hold {
        let words: &Words = if scan == 0 { &row.words } else { &later };
        let after = step(settings, &state, words).state;
        count_scan(settings, &state, &after, report);
        let single = Row {
            hold: 1,
            words: *words,
        };
        report.numbers[EXERCISED] += u64::from(exercised(settings, &single));
        state = after;
    }
    state
}

/// What a recording adds, by its single steps.
pub fn by_single_steps(recording: &Recording) -> Report {
    let mut report = Report::empty();
    let mut state = State::default();
    for row in &recording.rows {
        state = step_row(&recording.settings, &state, row, &mut report);
    }
    report
}

// ---- By stretches ----

/// The state in which an effect stands, and the scans of the recording that are counted for it.
#[derive(Clone, Copy, Default)]
struct Stretch {
    phase: Phase,
    counted: u32,
}

impl Stretch {
    /// Counts the scans up to `last` in the state of the stretch.
    fn count_to(&mut self, effect: usize, last: u32, report: &mut Report) {
        report.numbers[scans_in(effect, self.phase)] += u64::from(last - self.counted);
        self.counted = last;
    }

    /// Ends the stretch before the scan of a change, and begins the next one with that scan.
    fn change(&mut self, change: &Change, report: &mut Report) {
        let effect = usize::from(change.effect) - 1;
        self.count_to(effect, change.scan - 1, report);
        self.phase = change.after;
        if change.after == Phase::Tripped {
            report.numbers[trips_of(effect)] += 1;
        }
    }
}

fn count_changes(changes: &[Change], stretches: &mut [Stretch], report: &mut Report) {
    for change in changes {
        stretches[usize::from(change.effect) - 1].change(change, report);
    }
}

/// What a recording adds, by stretches. It must be one that no 9 ends.
pub fn by_stretches(recording: &Recording) -> Report {
    let mut report = Report::empty();
    let mut state = State::default();
    let mut stretches = vec![Stretch::default(); usize::from(recording.settings.effects)];
    for row in &recording.rows {
        let run = run_row(&recording.settings, &state, row);
        count_changes(&run.changes, &mut stretches, &mut report);
        report.numbers[EXERCISED] += u64::from(run.exercised);
        state = run.state;
    }
    for (effect, stretch) in stretches.iter_mut().enumerate() {
        stretch.count_to(effect, state.scans_done, &mut report);
    }
    report
}

// ---- Adding a recording ----

/// The scans of all rows.
fn length(recording: &Recording) -> u64 {
    recording.rows.iter().map(|row| u64::from(row.hold)).sum()
}

/// What an accepted recording adds to a report; 9 is for its whole length and has place 0.
pub fn totals_of(recording: &Recording) -> Result<Report, Refusal> {
    let scans = length(recording);
    if scans > u64::from(MAX_SCANS) {
        return Err(whole_file(9));
    }
    Ok(if scans <= SHORT_SCANS {
        by_single_steps(recording)
    } else {
        by_stretches(recording)
    })
}

/// A refusal that belongs to no place of the file.
fn whole_file(number: u8) -> Refusal {
    Refusal { number, place: 0 }
}

/// Adds a recording to a report and gives its effect count. The reader's refusals come first,
/// then 9, then 11; a refusal leaves the report as it was.
pub fn add(report: &mut Report, file: &[u8]) -> Result<u8, Refusal> {
    let recording = read(file)?;
    let totals = totals_of(&recording)?;
    *report = report.plus(&totals).ok_or(whole_file(11))?;
    Ok(recording.settings.effects)
}

// ---- The table of many files ----

/// One report over many files.
#[derive(Clone, Debug, PartialEq, Eq)]
pub struct Season {
    pub report: Report,
    /// The recordings that were added.
    pub recordings: u64,
    pub refused: u64,
    /// The largest effect count of those that were added.
    pub effects: u8,
}

impl Season {
    pub fn empty() -> Season {
        Season {
            report: Report::empty(),
            recordings: 0,
            refused: 0,
            effects: 0,
        }
    }

    pub fn add(&mut self, file: &[u8]) -> Result<(), Refusal> {
        match add(&mut self.report, file) {
            Ok(effects) => {
                self.recordings += 1;
                self.effects = self.effects.max(effects);
                Ok(())
            }
            Err(refusal) => {
                self.refused += 1;
                Err(refusal)
            }
        }
    }

    /// The line of an effect, which counts from 0 here and from 1 in the line.
    fn line(&self, effect: usize) -> String {
        let first = EFFECT_NUMBERS * effect;
        let mut line = (effect + 1).to_string();
        for number in &self.report.numbers[first..first + EFFECT_NUMBERS] {
            line += &format!(" {number}");
        }
        line + "\n"
    }

    pub fn table(&self) -> String {
        let mut text = HEADER.to_string();
        for effect in 0..usize::from(self.effects) {
            text += &self.line(effect);
        }
        text + &format!(
            "recordings {} refused {} exercised {}\n",
            self.recordings, self.refused, self.report.numbers[EXERCISED]
        )
    }
}

pub const HEADER: &str = "effect tripped wait-reset ready wait-start normal delayed trips\n";
