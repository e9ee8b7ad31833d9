//! A safe wrapper of the proved replay; include/pohandira.h says what the functions do.
//!
//! All that they ask of a caller is kept here: a slice's pointer is never null, not even an empty one's, and what is borrowed
//! mutably overlaps nothing. So no input is out of bounds, and `check`, `count`, `replay`, `reasons`, `now` and `Report::add` are safe for
//! any bytes.

use std::fmt;

extern "C" {
    fn pohandira_version() -> u32;
    fn pohandira_check(recording: *const u8, length: usize, answer: *mut u8, answer_room: usize) -> u8;
    fn pohandira_count(recording: *const u8, length: usize, totals: *mut u8, totals_room: usize) -> u8;
    fn pohandira_replay(
        recording: *const u8,
        length: usize,
        records: *mut u8,
        records_room: usize,
        totals: *mut u8,
        totals_room: usize,
    ) -> u8;
    fn pohandira_season(recording: *const u8, length: usize, report: *mut u8, report_room: usize) -> u8;
    fn pohandira_reasons(recording: *const u8, length: usize, reasons: *mut u8, reasons_room: usize) -> u8;
    fn pohandira_now(recording: *const u8, length: usize, reasons: *mut u8, reasons_room: usize) -> u8;
}

/// The version that this file is for, as one number. A program stops where `version` answers another: what crosses may have grown.
pub const VERSION: u32 = 4000;

const CHECK_BYTES: usize = 24;
const TOTALS_BYTES: usize = 56;
const RECORD_BYTES: usize = 12;
const REASON_BYTES: usize = 8;
const REPORT_BYTES: usize = 904;
const MOST_EFFECTS: usize = 16;
/// Where a recording that is accepted has the low byte of its effect count, whose high byte is 0.
const EFFECT_COUNT_AT: usize = 7;

/// Why a recording is refused (document 01, "Refusal numbers").
#[derive(Clone, Copy, Debug, PartialEq, Eq)]
pub enum Refusal {
    TooShort = 1,
    BlockWrong = 2,
    EffectsWrong = 3,
    RowWrong = 4,
    BothForces = 5,
    SeveralForced = 6,
    SpareBytes = 7,
    TooManyScans = 9,
    ReportFull = 11,
}

impl Refusal {
    pub fn text(self) -> &'static str {
        match self {
            Refusal::TooShort => "bytes end before a count or an entry does",
            Refusal::BlockWrong => "block section wrong",
            Refusal::EffectsWrong => "effects section wrong",
            Refusal::RowWrong => "row count, hold or a row word wrong",
            Refusal::BothForces => "one effect in both force words",
            Refusal::SeveralForced => "several forced without option bit 2",
            Refusal::SpareBytes => "bytes left over",
            Refusal::TooManyScans => "more than 1,000,000,000 scans",
            Refusal::ReportFull => "a number of a report would pass 64 bits",
        }
    }
}

#[derive(Clone, Copy, Debug, PartialEq, Eq)]
pub struct Refused {
    pub refusal: Refusal,
    /// In bytes from the start.
    pub place: u64,
}

impl fmt::Display for Refused {
    fn fmt(&self, f: &mut fmt::Formatter) -> fmt::Result {
        write!(f, "refused {} at {}", self.refusal as u8, self.place)
    }
}

impl std::error::Error for Refused {}

#[derive(Clone, Copy, Debug, PartialEq, Eq)]
pub enum State {
    Tripped,
    WaitReset,
    Ready,
    WaitStart,
    Normal,
    Delayed,
}

impl fmt::Display for State {
    fn fmt(&self, f: &mut fmt::Formatter) -> fmt::Result {
        f.write_str(match self {
            State::Tripped => "tripped",
            State::WaitReset => "wait-reset",
            State::Ready => "ready",
            State::WaitStart => "wait-start",
            State::Normal => "normal",
            State::Delayed => "delayed",
        })
    }
}

/// One change of one effect's state.
#[derive(Clone, Copy, Debug, PartialEq, Eq)]
pub struct Event {
    pub sequence: u16,
    pub scan: u32,
    pub effect: u8,
    pub before: State,
    pub after: State,
    pub first_out: u16,
}

/// A line of a listing, without its end.
impl fmt::Display for Event {
    fn fmt(&self, f: &mut fmt::Formatter) -> fmt::Result {
        let Event { sequence, scan, effect, before, after, first_out } = self;
        write!(f, "{sequence} {scan} {effect} {before} {after} {first_out}")
    }
}

#[derive(Clone, Copy, Debug, PartialEq, Eq)]
pub struct Totals {
    /// How many events there are.
    pub records: u64,
    pub rows: u64,
    pub scans: u64,
    pub live: u64,
    pub exercised: u64,
}

/// The last line of a listing, without its end.
impl fmt::Display for Totals {
    fn fmt(&self, f: &mut fmt::Formatter) -> fmt::Result {
        let Totals { rows, scans, live, exercised, .. } = self;
        write!(f, "rows {rows} scans {scans} live {live} exercised {exercised}")
    }
}

#[derive(Clone, Debug, PartialEq, Eq)]
pub struct Replay {
    /// By scan, then by effect.
    pub events: Vec<Event>,
    pub totals: Totals,
}

/// What a waiting effect is missing.
#[derive(Clone, Copy, Debug, PartialEq, Eq)]
pub enum Missing {
    ResetPermit,
    Reset,
    StartPermit,
}

impl fmt::Display for Missing {
    fn fmt(&self, f: &mut fmt::Formatter) -> fmt::Result {
        f.write_str(match self {
            Missing::ResetPermit => "reset permit",
            Missing::Reset => "reset",
            Missing::StartPermit => "start permit",
        })
    }
}

/// Why an effect is in its state after a scan (docs/FORMAT.md, "Reasons"). Of causes, bit 0 is cause 1.
#[derive(Clone, Copy, Debug, PartialEq, Eq)]
pub enum Reason {
    ForcedTripped,
    ForcedNormal,
    Bad { causes: u16 },
    Active { causes: u16 },
    DelayRunning { milliseconds: u32 },
    DelayEnded,
    Waiting(Missing),
    Cleared,
    AtRest,
}

/// The words that a listing has.
impl fmt::Display for Reason {
    fn fmt(&self, f: &mut fmt::Formatter) -> fmt::Result {
        match self {
            Reason::ForcedTripped => f.write_str("forced tripped"),
            Reason::ForcedNormal => f.write_str("forced normal"),
            Reason::Bad { causes } => write!(f, "Bad {causes}"),
            Reason::Active { causes } => write!(f, "active {causes}"),
            Reason::DelayRunning { milliseconds } => write!(f, "delay running {milliseconds}"),
            Reason::DelayEnded => f.write_str("delay ended"),
            Reason::Waiting(missing) => write!(f, "waiting {missing}"),
            Reason::Cleared => f.write_str("cleared"),
            Reason::AtRest => f.write_str("at rest"),
        }
    }
}

/// A big-endian number.
fn number(bytes: &[u8]) -> u64 {
    bytes.iter().fold(0, |number, &byte| number << 8 | u64::from(byte))
}

fn field(numbers: &[u8], index: usize) -> u64 {
    number(&numbers[8 * index..8 * index + 8])
}

/// The library gives no other numbers to callers that lend it enough room.
fn refusal(number: u8) -> Refusal {
    match number {
        1 => Refusal::TooShort,
        2 => Refusal::BlockWrong,
        3 => Refusal::EffectsWrong,
        4 => Refusal::RowWrong,
        5 => Refusal::BothForces,
        6 => Refusal::SeveralForced,
        7 => Refusal::SpareBytes,
        9 => Refusal::TooManyScans,
        11 => Refusal::ReportFull,
        _ => panic!("the library refused by {number}"),
    }
}

fn refused(number: u8, place: u64) -> Refused {
    Refused { refusal: refusal(number), place }
}

fn state(code: u8) -> State {
    use State::*;
    [Tripped, WaitReset, Ready, WaitStart, Normal, Delayed][usize::from(code)]
}

fn event(record: &[u8]) -> Event {
    Event {
        sequence: number(&record[0..2]) as u16,
        scan: number(&record[2..6]) as u32,
        effect: record[6],
        before: state(record[7]),
        after: state(record[8]),
        first_out: number(&record[10..12]) as u16,
    }
}

/// The library gives no other bytes.
fn missing(code: u8) -> Missing {
    match code {
        1 => Missing::ResetPermit,
        2 => Missing::Reset,
        3 => Missing::StartPermit,
        _ => panic!("the library gave the missing thing {code}"),
    }
}

fn reason(bytes: &[u8]) -> Reason {
    let (causes, milliseconds) = (number(&bytes[2..4]) as u16, number(&bytes[4..8]) as u32);
    match bytes[0] {
        0 => Reason::ForcedTripped,
        1 => Reason::ForcedNormal,
        2 => Reason::Bad { causes },
        3 => Reason::Active { causes },
        4 => Reason::DelayRunning { milliseconds },
        5 => Reason::DelayEnded,
        6 => Reason::Waiting(missing(bytes[1])),
        7 => Reason::Cleared,
        8 => Reason::AtRest,
        kind => panic!("the library gave a reason of kind {kind}"),
    }
}

/// The totals of a count or a replay, or its refusal.
fn totals(number: u8, numbers: &[u8]) -> Result<Totals, Refused> {
    if number != 0 {
        return Err(refused(number, field(numbers, 6)));
    }
    Ok(Totals {
        records: field(numbers, 0),
        rows: field(numbers, 1),
        scans: field(numbers, 2),
        live: field(numbers, 3),
        exercised: field(numbers, 4),
    })
}

/// The library's own version, as one number.
pub fn version() -> u32 {
    // SAFETY: it is given nothing.
    unsafe { pohandira_version() }
}

/// Reads a recording and replays nothing: how many rows it has.
pub fn check(recording: &[u8]) -> Result<u64, Refused> {
    let mut answer = [0; CHECK_BYTES];
    // SAFETY: the head of this file says why.
    let number = unsafe { pohandira_check(recording.as_ptr(), recording.len(), answer.as_mut_ptr(), answer.len()) };
    match number {
        0 => Ok(field(&answer, 2)),
        _ => Err(refused(number, field(&answer, 1))),
    }
}

/// Replays a recording from a fresh state and only counts.
pub fn count(recording: &[u8]) -> Result<Totals, Refused> {
    let mut numbers = [0; TOTALS_BYTES];
    // SAFETY: the head of this file says why.
    let number = unsafe { pohandira_count(recording.as_ptr(), recording.len(), numbers.as_mut_ptr(), numbers.len()) };
    totals(number, &numbers)
}

/// Replays a recording from a fresh state, with room for just its records, which a count tells.
pub fn replay(recording: &[u8]) -> Result<Replay, Refused> {
    let mut records = vec![0; count(recording)?.records as usize * RECORD_BYTES];
    let mut numbers = [0; TOTALS_BYTES];
    // SAFETY: the head of this file says why.
    let number = unsafe {
        pohandira_replay(
            recording.as_ptr(),
            recording.len(),
            records.as_mut_ptr(),
            records.len(),
            numbers.as_mut_ptr(),
            numbers.len(),
        )
    };
    let totals = totals(number, &numbers)?;
    let events = records.chunks(RECORD_BYTES).map(event).collect();
    Ok(Replay { events, totals })
}

/// Why the effect of each event of a replay is in its new state, in the order of the events.
pub fn reasons(recording: &[u8]) -> Result<Vec<Reason>, Refused> {
    let mut bytes = vec![0; count(recording)?.records as usize * REASON_BYTES];
    // SAFETY: the head of this file says why.
    let number = unsafe { pohandira_reasons(recording.as_ptr(), recording.len(), bytes.as_mut_ptr(), bytes.len()) };
    assert_eq!(number, 0, "the library counts the events, and refuses their reasons");
    Ok(bytes.chunks(REASON_BYTES).map(reason).collect())
}

/// Why each effect, from 1, is in its state after the last scan.
pub fn now(recording: &[u8]) -> Result<Vec<Reason>, Refused> {
    let mut bytes = [0; MOST_EFFECTS * REASON_BYTES];
    // SAFETY: the head of this file says why.
    let number = unsafe { pohandira_now(recording.as_ptr(), recording.len(), bytes.as_mut_ptr(), bytes.len()) };
    if number != 0 {
        // A count is refused alike, and tells the place.
        return Err(count(recording).expect_err("the library refuses reasons, and not a count"));
    }
    let effects = usize::from(recording[EFFECT_COUNT_AT]);
    Ok(bytes.chunks(REASON_BYTES).take(effects).map(reason).collect())
}

/// Season totals: how long each effect stood in each state, over recordings.
#[derive(Clone, Debug, PartialEq, Eq)]
pub struct Report([u8; REPORT_BYTES]);

impl Report {
    /// Every recording has at most so many effects.
    pub const EFFECTS: usize = MOST_EFFECTS;

    pub fn empty() -> Report {
        Report([0; REPORT_BYTES])
    }

    /// Adds a recording, replayed from a fresh state. One that is refused adds nothing; `check` tells the place.
    pub fn add(&mut self, recording: &[u8]) -> Result<(), Refusal> {
        let Report(bytes) = self;
        // SAFETY: the head of this file says why.
        let number = unsafe { pohandira_season(recording.as_ptr(), recording.len(), bytes.as_mut_ptr(), bytes.len()) };
        match number {
            0 => Ok(()),
            _ => Err(refusal(number)),
        }
    }

    /// The scans after which an effect, from 1, stood in each state: by `State as usize`.
    pub fn scans(&self, effect: usize) -> [u64; 6] {
        std::array::from_fn(|state| field(&self.0, 7 * (effect - 1) + state))
    }

    /// The changes of an effect, from 1, into Tripped.
    pub fn trips(&self, effect: usize) -> u64 {
        field(&self.0, 7 * (effect - 1) + 6)
    }

    pub fn exercised(&self) -> u64 {
        field(&self.0, 7 * Report::EFFECTS)
    }
}
