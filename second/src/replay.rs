//! The replay of a whole recording and its listing (document 01, "One session, whole"), without
//! and with reasons (document 02, L4).
//!
//! A recording can hold 2,048 rows of 1,000,000 scans, too many to step one by one. Effects
//! do not read each other, so each effect is followed alone through a row's hold, and the
//! changes of all effects are then put in order. `tests/replay.rs` holds this to single
//! stepping.

use crate::block::{
    deciding_rule, exercised, slot_after, without_reset, Inputs, Phase, Row, Slot, State, MAX_SCANS,
};
use crate::reasons::{reason_of, Reason};
use crate::recording::{read, Refusal, MAX_BYTES, ROW_BYTES};
use crate::settings::Settings;

/// A program needs no more of a file than this: whatever follows the largest recording is
/// spare (refusal 7 at its first byte), if nothing before is wrong.
pub const ENOUGH_BYTES: usize = MAX_BYTES + 1;

/// One change of one effect's state.
#[derive(Clone, Copy, Debug, PartialEq, Eq)]
pub struct Change {
    /// The scan's number in the whole replay; the first is 1.
    pub scan: u32,
    /// The effect's number, from 1.
    pub effect: u8,
    pub before: Phase,
    pub after: Phase,
    pub first_out: u16,
    /// That of the change's own scan.
    pub reason: Reason,
}

/// One effect after a row's last scan.
#[derive(Clone, Copy, Debug, PartialEq, Eq)]
pub struct Now {
    /// The effect's number, from 1.
    pub effect: u8,
    pub slot: Slot,
    /// That of the last scan.
    pub reason: Reason,
}

/// What one row gives.
#[derive(Clone, Debug, PartialEq, Eq)]
pub struct RowRun {
    pub state: State,
    /// By scan, then by effect.
    pub changes: Vec<Change>,
    pub live: u32,
    pub exercised: u32,
    /// All effects in their order.
    pub now: Vec<Now>,
}

/// The changes of one effect in a row, with the scans counted from 1, its slot after, and the
/// reason of the last scan.
struct Followed {
    changes: Vec<(u32, Phase, Slot, Reason)>,
    slot: Slot,
    reason: Reason,
}

/// How many of the next scans do no more than lower the timer: rule 9 decides them, and the
/// timer stays at 1 or more.
fn timer_scans(slot: &Slot, inputs: &Inputs) -> u32 {
    if deciding_rule(slot.phase, inputs) == 9 && slot.timer > 0 {
        (slot.timer - 1) / inputs.period
    } else {
        0
    }
}

/// Follows one effect through `hold` scans: `first` are its inputs in the first scan,
/// `later` those of all others. The two differ in the reset alone, which rule 9 does not
/// read.
fn follow(start: &Slot, first: &Inputs, later: &Inputs, hold: u32) -> Followed {
    let mut slot = *start;
    let mut reason = reason_of(start, first);
    let mut changes = Vec::new();
    let mut done = 0;
    while done < hold {
        let passed = timer_scans(&slot, later).min(hold - done);
        if passed > 0 {
            slot.timer -= passed * later.period;
            reason = Reason::DelayRunning(slot.timer);
            done += passed;
            continue;
        }
        let inputs = if done == 0 { first } else { later };
        let after = slot_after(&slot, inputs);
        reason = reason_of(&slot, inputs);
        if done > 0 && after == slot {
            // The same slot and the same inputs: every scan that is left gives it again, and the
            // same reason.
            break;
        }
        done += 1;
        if after.phase != slot.phase {
            changes.push((done, slot.phase, after, reason));
        }
        slot = after;
    }
    Followed {
        changes,
        slot,
        reason,
    }
}

/// How many different scans the changes, which stand by scan, belong to.
fn live_scans(changes: &[Change]) -> u32 {
    let mut live = 0;
    let mut last = None;
    for change in changes {
        if last != Some(change.scan) {
            live += 1;
        }
        last = Some(change.scan);
    }
    live
}

/// One row by the rules, with nothing checked: the hold must fit the scan numbers.
pub fn run_row(settings: &Settings, state: &State, row: &Row) -> RowRun {
    let mut after = *state;
    let mut changes = Vec::new();
    let mut now = Vec::new();
    let later_words = without_reset(&row.words);
    for index in 0..usize::from(settings.effects) {
        let first = Inputs::of(settings, &row.words, index);
        let later = Inputs::of(settings, &later_words, index);
        let followed = follow(&state.slots[index], &first, &later, row.hold);
        let effect = index as u8 + 1;
        after.slots[index] = followed.slot;
        now.push(Now {
            effect,
            slot: followed.slot,
            reason: followed.reason,
        });
        for (scan, before, slot, why) in followed.changes {
            changes.push(Change {
                scan: state.scans_done + scan,
                effect,
                before,
                after: slot.phase,
                first_out: slot.first_out,
                reason: why,
            });
        }
    }
    changes.sort_by_key(|change| (change.scan, change.effect));
    after.scans_done += row.hold;
    for _ in &changes {
        after.next_sequence = after.next_sequence.wrapping_add(1);
    }
    RowRun {
        state: after,
        live: live_scans(&changes),
        exercised: exercised(settings, row),
        changes,
        now,
    }
}

/// What a whole replay results in.
#[derive(Clone, Copy, Debug, Default, PartialEq, Eq)]
pub struct Totals {
    pub records: u32,
    pub rows: u32,
    pub scans: u32,
    pub live: u32,
    pub exercised: u32,
}

/// What a replay prints, what it results in, and the refusal, if there is one.
#[derive(Clone, Debug, PartialEq, Eq)]
pub struct Listing {
    pub text: String,
    /// Zeros in a refused replay.
    pub totals: Totals,
    /// The reasons of the records, in their order; none in a refused replay.
    pub reasons: Vec<Reason>,
    /// All effects after the last scan; none in a refused replay.
    pub now: Vec<Now>,
    pub refusal: Option<Refusal>,
}

pub const HEADER: &str = "seq scan effect from to first\n";
pub const HEADER_WITH_REASONS: &str = "seq scan effect from to first reason\n";

/// Which columns a listing has.
#[derive(Clone, Copy, Debug, PartialEq, Eq)]
pub enum Columns {
    /// Document 01's.
    Plain,
    /// The reason besides, as the last one (document 02, L4).
    WithReason,
}

impl Columns {
    pub fn header(self) -> &'static str {
        match self {
            Columns::Plain => HEADER,
            Columns::WithReason => HEADER_WITH_REASONS,
        }
    }

    /// What stands behind document 01's columns of a line.
    fn last(self, change: &Change) -> String {
        match self {
            Columns::Plain => String::new(),
            Columns::WithReason => format!(" {}", change.reason.words()),
        }
    }
}

/// The line of a refusal.
pub fn refused_line(refusal: &Refusal) -> String {
    format!("refused {} at {}\n", refusal.number, refusal.place)
}

/// The listing that ends with a refusal; `text` are the lines before.
fn refused(mut text: String, refusal: Refusal) -> Listing {
    text += &refused_line(&refusal);
    Listing {
        text,
        totals: Totals::default(),
        reasons: Vec::new(),
        now: Vec::new(),
        refusal: Some(refusal),
    }
}

fn change_line(columns: Columns, sequence: u16, change: &Change) -> String {
    format!(
        "{} {} {} {} {} {}{}\n",
        sequence,
        change.scan,
        change.effect,
        change.before.name(),
        change.after.name(),
        change.first_out,
        columns.last(change)
    )
}

/// The lines of a row's changes; `sequence` is the number of the first.
pub fn change_lines(columns: Columns, sequence: u16, changes: &[Change]) -> String {
    let mut sequence = sequence;
    let mut text = String::new();
    for change in changes {
        text += &change_line(columns, sequence, change);
        sequence = sequence.wrapping_add(1);
    }
    text
}

/// Replays a file from a fresh state. Refusal 9 comes up in a row, after the lines of the
/// rows before it; every other refusal is the reader's and stands alone.
pub fn listed(columns: Columns, file: &[u8]) -> Listing {
    let recording = match read(file) {
        Ok(recording) => recording,
        Err(refusal) => return refused(String::new(), refusal),
    };
    let mut text = columns.header().to_string();
    let mut state = State::default();
    let (mut records, mut live, mut exercised) = (0, 0, 0);
    let (mut reasons, mut now) = (Vec::new(), Vec::new());
    let mut place = recording.first_row;
    for row in &recording.rows {
        if state.scans_done + row.hold > MAX_SCANS {
            return refused(text, Refusal { number: 9, place });
        }
        let run = run_row(&recording.settings, &state, row);
        text += &change_lines(columns, state.next_sequence, &run.changes);
        reasons.extend(run.changes.iter().map(|change| change.reason));
        records += run.changes.len() as u32;
        live += run.live;
        exercised += run.exercised;
        now = run.now;
        state = run.state;
        place += ROW_BYTES as u32;
    }
    text += &format!(
        "rows {} scans {} live {live} exercised {exercised}\n",
        recording.rows.len(),
        state.scans_done
    );
    Listing {
        text,
        totals: Totals {
            records,
            rows: recording.rows.len() as u32,
            scans: state.scans_done,
            live,
            exercised,
        },
        reasons,
        now,
        refusal: None,
    }
}

/// The listing of document 01.
pub fn replay(file: &[u8]) -> Listing {
    listed(Columns::Plain, file)
}

/// The listing with reasons.
pub fn replay_with_reasons(file: &[u8]) -> Listing {
    listed(Columns::WithReason, file)
}
