//! The case streams, and the answers to them. All numbers are big-endian.

use crate::block::{held, scan, Answer, Phase, Row, Slot, State, Words};
use crate::reasons::reason_after;
use crate::recording::{read, row_of, write_opening, write_row, Recording, Refusal, ROW_BYTES};
use crate::replay::{replay, replay_with_reasons, Listing};
use crate::season::{add, Report, REPORT_BYTES};
use crate::settings::{Effect, Settings, SLOTS};
use crate::why::now_text;

/// The largest room of a scan or held case.
pub const MAX_RUN_ROOM: u16 = 400;
/// The largest room of a writing case.
pub const MAX_PIECE_ROOM: u16 = 160;
/// The largest file in a stream of recordings.
pub const MAX_FILE: usize = 49_262;

/// What is compared.
#[derive(Clone, Copy, Debug, PartialEq, Eq)]
pub enum Kind {
    Scan,
    Held,
    Recording,
    Writing,
    Replay,
    Season,
    Reason,
    Why,
}

impl Kind {
    pub fn named(name: &str) -> Option<Kind> {
        match name {
            "scan" => Some(Kind::Scan),
            "held" => Some(Kind::Held),
            "recording" => Some(Kind::Recording),
            "writing" => Some(Kind::Writing),
            "replay" => Some(Kind::Replay),
            "season" => Some(Kind::Season),
            "reason" => Some(Kind::Reason),
            "why" => Some(Kind::Why),
            _ => None,
        }
    }
}

/// A scan or held case; the hold of a scan case is 1 and is not in its bytes.
#[derive(Clone, Copy, Debug, Default, PartialEq, Eq)]
pub struct RunCase {
    pub settings: Settings,
    pub state: State,
    pub row: Row,
    pub room: u16,
}

/// A reason case: a scan, and the number of the effect that is asked for.
#[derive(Clone, Copy, Debug, Default, PartialEq, Eq)]
pub struct ReasonCase {
    pub settings: Settings,
    pub state: State,
    pub words: Words,
    pub effect: u8,
}

impl ReasonCase {
    /// The scan of a run case; its hold and its room are left out.
    pub fn of(run: &RunCase, effect: u8) -> ReasonCase {
        ReasonCase {
            settings: run.settings,
            state: run.state,
            words: run.row.words,
            effect,
        }
    }
}

/// A writing case.
#[derive(Clone, Copy, Debug, Default, PartialEq, Eq)]
pub struct WritingCase {
    pub settings: Settings,
    pub row_count: u16,
    pub row: Row,
    pub room: u16,
}

/// A season case: a recording and the report that it is added to.
#[derive(Clone, Debug, PartialEq, Eq)]
pub struct SeasonCase {
    pub report: Report,
    pub file: Vec<u8>,
}

// ---- Bytes of the parts ----

pub fn put_settings(settings: &Settings, out: &mut Vec<u8>) {
    out.push(settings.causes);
    out.push(settings.options);
    out.extend_from_slice(&settings.period.to_be_bytes());
    out.push(settings.effects);
    for effect in &settings.slots {
        out.extend_from_slice(&effect.association.to_be_bytes());
        out.extend_from_slice(&effect.delay.to_be_bytes());
    }
}

pub fn put_state(state: &State, out: &mut Vec<u8>) {
    out.extend_from_slice(&state.scans_done.to_be_bytes());
    out.extend_from_slice(&state.next_sequence.to_be_bytes());
    for slot in &state.slots {
        out.push(slot.phase.code());
        out.extend_from_slice(&slot.timer.to_be_bytes());
        out.extend_from_slice(&slot.first_out.to_be_bytes());
    }
}

pub fn put_words(words: &Words, out: &mut Vec<u8>) {
    for word in words.to_array() {
        out.extend_from_slice(&word.to_be_bytes());
    }
}

pub fn put_run_case(kind: Kind, case: &RunCase, out: &mut Vec<u8>) {
    put_settings(&case.settings, out);
    put_state(&case.state, out);
    if kind == Kind::Held {
        out.extend_from_slice(&case.row.hold.to_be_bytes());
    }
    put_words(&case.row.words, out);
    out.extend_from_slice(&case.room.to_be_bytes());
}

pub fn put_reason_case(case: &ReasonCase, out: &mut Vec<u8>) {
    put_settings(&case.settings, out);
    put_state(&case.state, out);
    put_words(&case.words, out);
    out.push(case.effect);
}

pub fn put_file(file: &[u8], out: &mut Vec<u8>) {
    out.extend_from_slice(&(file.len() as u32).to_be_bytes());
    out.extend_from_slice(file);
}

pub fn put_writing_case(case: &WritingCase, out: &mut Vec<u8>) {
    put_settings(&case.settings, out);
    out.extend_from_slice(&case.row_count.to_be_bytes());
    out.extend_from_slice(&case.row.hold.to_be_bytes());
    put_words(&case.row.words, out);
    out.extend_from_slice(&case.room.to_be_bytes());
}

pub fn put_season_case(case: &SeasonCase, out: &mut Vec<u8>) {
    let bytes = [&case.report.to_bytes()[..], &case.file].concat();
    put_file(&bytes, out);
}

// ---- Taking a stream apart ----

/// A stream of cases and the place reached in it.
pub struct Stream<'a> {
    bytes: &'a [u8],
    place: usize,
}

impl<'a> Stream<'a> {
    pub fn new(bytes: &'a [u8]) -> Stream<'a> {
        Stream { bytes, place: 0 }
    }

    pub fn at_end(&self) -> bool {
        self.place == self.bytes.len()
    }

    fn take(&mut self, count: usize) -> Result<&'a [u8], String> {
        if self.bytes.len() - self.place < count {
            return Err(format!(
                "the stream ends inside a case, after {} bytes",
                self.bytes.len()
            ));
        }
        let taken = &self.bytes[self.place..self.place + count];
        self.place += count;
        Ok(taken)
    }

    fn number8(&mut self) -> Result<u8, String> {
        Ok(self.take(1)?[0])
    }

    fn number16(&mut self) -> Result<u16, String> {
        Ok(crate::recording::number16(self.take(2)?))
    }

    fn number32(&mut self) -> Result<u32, String> {
        Ok(crate::recording::number32(self.take(4)?))
    }

    fn settings(&mut self) -> Result<Settings, String> {
        let mut settings = Settings {
            causes: self.number8()?,
            options: self.number8()?,
            period: self.number16()?,
            effects: self.number8()?,
            slots: [Effect::default(); SLOTS],
        };
        for effect in &mut settings.slots {
            effect.association = self.number16()?;
            effect.delay = self.number32()?;
        }
        Ok(settings)
    }

    fn phase(&mut self) -> Result<Phase, String> {
        let code = self.number8()?;
        Phase::from_code(code)
            .ok_or_else(|| format!("state code {code} before byte {}", self.place))
    }

    fn state(&mut self) -> Result<State, String> {
        let mut state = State {
            scans_done: self.number32()?,
            next_sequence: self.number16()?,
            slots: [Slot::default(); SLOTS],
        };
        for slot in &mut state.slots {
            slot.phase = self.phase()?;
            slot.timer = self.number32()?;
            slot.first_out = self.number16()?;
        }
        Ok(state)
    }

    fn words(&mut self) -> Result<Words, String> {
        let mut words = [0; 10];
        for word in &mut words {
            *word = self.number16()?;
        }
        Ok(Words::from_array(words))
    }

    fn room(&mut self, most: u16) -> Result<u16, String> {
        let room = self.number16()?;
        if room > most {
            return Err(format!("room {room} before byte {}", self.place));
        }
        Ok(room)
    }

    pub fn run_case(&mut self, kind: Kind) -> Result<RunCase, String> {
        let settings = self.settings()?;
        let state = self.state()?;
        let hold = if kind == Kind::Held {
            self.number32()?
        } else {
            1
        };
        let words = self.words()?;
        let room = self.room(MAX_RUN_ROOM)?;
        Ok(RunCase {
            settings,
            state,
            row: Row { hold, words },
            room,
        })
    }

    pub fn reason_case(&mut self) -> Result<ReasonCase, String> {
        Ok(ReasonCase {
            settings: self.settings()?,
            state: self.state()?,
            words: self.words()?,
            effect: self.number8()?,
        })
    }

    /// A length, which is at most `most`, and so many bytes.
    fn with_length(&mut self, most: usize) -> Result<&'a [u8], String> {
        let length = self.number32()? as usize;
        if length > most {
            return Err(format!(
                "a length of {length} bytes before byte {}",
                self.place
            ));
        }
        self.take(length)
    }

    pub fn file(&mut self) -> Result<&'a [u8], String> {
        self.with_length(MAX_FILE)
    }

    pub fn season_case(&mut self) -> Result<SeasonCase, String> {
        let bytes = self.with_length(REPORT_BYTES + MAX_FILE)?;
        let Some((report, file)) = bytes.split_first_chunk() else {
            return Err(format!("no whole report before byte {}", self.place));
        };
        Ok(SeasonCase {
            report: Report::of_bytes(report),
            file: file.to_vec(),
        })
    }

    pub fn writing_case(&mut self) -> Result<WritingCase, String> {
        let settings = self.settings()?;
        let row_count = self.number16()?;
        let row = row_of(self.take(ROW_BYTES)?);
        let room = self.room(MAX_PIECE_ROOM)?;
        Ok(WritingCase {
            settings,
            row_count,
            row,
            room,
        })
    }
}

// ---- Answers ----

pub fn hex(bytes: &[u8]) -> String {
    let mut text = String::with_capacity(2 * bytes.len());
    for byte in bytes {
        for digit in [byte >> 4, byte & 15] {
            text.push(char::from(b"0123456789abcdef"[usize::from(digit)]));
        }
    }
    text
}

/// The lent buffer of a case before the call.
pub fn lent(room: u16) -> Vec<u8> {
    (0..usize::from(room))
        .map(|index| ((index * 7 + 3) % 256) as u8)
        .collect()
}

/// Calls the block as the case says; gives the answer and the buffer after the call.
pub fn call_run(kind: Kind, case: &RunCase) -> (Answer, Vec<u8>) {
    let mut buffer = lent(case.room);
    let answer = if kind == Kind::Held {
        held(&case.settings, &case.state, &case.row, &mut buffer)
    } else {
        scan(&case.settings, &case.state, &case.row.words, &mut buffer)
    };
    (answer, buffer)
}

pub fn answer_run(kind: Kind, case: &RunCase) -> String {
    let (answer, buffer) = call_run(kind, case);
    let mut out = vec![answer.number];
    out.extend_from_slice(&answer.place.to_be_bytes());
    put_state(&answer.state, &mut out);
    out.extend_from_slice(&answer.effect_word.to_be_bytes());
    out.extend_from_slice(&answer.latent_word.to_be_bytes());
    out.extend_from_slice(&answer.records.to_be_bytes());
    if kind == Kind::Held {
        out.extend_from_slice(&answer.live.to_be_bytes());
        out.extend_from_slice(&answer.exercised.to_be_bytes());
    }
    format!("{} {}\n", hex(&out), hex(&buffer))
}

/// The refusal number and place, and the bytes of the reason unless there is a refusal.
pub fn answer_reason(case: &ReasonCase) -> String {
    let result = reason_after(&case.settings, &case.state, &case.words, case.effect);
    let place: u32 = 0;
    let mut out = vec![result.err().unwrap_or(ACCEPTED.number)];
    out.extend_from_slice(&place.to_be_bytes());
    let bytes = result.map_or(String::new(), |reason| hex(&reason.to_bytes()));
    format!("{} {bytes}\n", hex(&out))
}

/// The first line of a recording's answer.
fn heading(refusal: Refusal, settings: &Settings, rows: u16, first_row: u32, width: u32) -> String {
    let mut out = vec![refusal.number];
    out.extend_from_slice(&refusal.place.to_be_bytes());
    put_settings(settings, &mut out);
    out.extend_from_slice(&rows.to_be_bytes());
    out.extend_from_slice(&first_row.to_be_bytes());
    out.extend_from_slice(&width.to_be_bytes());
    hex(&out) + "\n"
}

/// A row's line: its place, hold and ten words.
fn row_line(place: u32, row: &Row) -> String {
    let mut out = place.to_be_bytes().to_vec();
    out.extend_from_slice(&row.hold.to_be_bytes());
    put_words(&row.words, &mut out);
    hex(&out) + "\n"
}

/// The whole recording by the writer, piece by piece.
pub fn written_back(recording: &Recording) -> Vec<u8> {
    let mut buffer = lent(MAX_PIECE_ROOM);
    let rows = recording.rows.len() as u16;
    let length = write_opening(&recording.settings, rows, &mut buffer)
        .expect("what the reader accepted is written");
    let mut bytes = buffer[..usize::from(length)].to_vec();
    for row in &recording.rows {
        let length = write_row(&recording.settings, row, &mut buffer)
            .expect("what the reader accepted is written");
        bytes.extend_from_slice(&buffer[..usize::from(length)]);
    }
    bytes
}

const ACCEPTED: Refusal = Refusal {
    number: 0,
    place: 0,
};

/// The reader's and the writer's part of a recording's answer.
fn read_lines(file: &[u8]) -> String {
    let recording = match read(file) {
        Ok(recording) => recording,
        Err(refusal) => return heading(refusal, &Settings::default(), 0, 0, 0),
    };
    let width = ROW_BYTES as u32;
    let mut text = heading(
        ACCEPTED,
        &recording.settings,
        recording.rows.len() as u16,
        recording.first_row,
        width,
    );
    let mut place = recording.first_row;
    for row in &recording.rows {
        text += &row_line(place, row);
        place += width;
    }
    text + &hex(&written_back(&recording)) + "\n"
}

/// The last line of a recording's answer: the refusal number and place of its replay from a
/// fresh state, and what it results in.
fn totals_line(listing: &Listing) -> String {
    let refusal = listing.refusal.unwrap_or(ACCEPTED);
    let totals = &listing.totals;
    let mut out = Vec::new();
    for number in [
        u32::from(refusal.number),
        refusal.place,
        totals.records,
        totals.rows,
        totals.scans,
        totals.live,
        totals.exercised,
    ] {
        out.extend_from_slice(&number.to_be_bytes());
    }
    hex(&out) + "\n"
}

pub fn answer_file(file: &[u8]) -> String {
    read_lines(file) + &totals_line(&replay(file))
}

/// One piece's part of a writing answer.
fn piece(result: Result<u16, u8>, buffer: &[u8]) -> String {
    let (number, length) = match result {
        Ok(length) => (0, length),
        Err(number) => (number, 0),
    };
    let place: u32 = 0;
    let mut out = vec![number];
    out.extend_from_slice(&place.to_be_bytes());
    out.extend_from_slice(&length.to_be_bytes());
    format!("{} {}", hex(&out), hex(buffer))
}

pub fn answer_writing(case: &WritingCase) -> String {
    let mut buffer = lent(case.room);
    let opening = write_opening(&case.settings, case.row_count, &mut buffer);
    let first = piece(opening, &buffer);
    let mut buffer = lent(case.room);
    let row = write_row(&case.settings, &case.row, &mut buffer);
    format!("{first} {}\n", piece(row, &buffer))
}

/// A recording's listing and an empty line.
pub fn answer_replay(file: &[u8]) -> String {
    replay(file).text + "\n"
}

/// A recording's listing with reasons, an empty line, the text of its end, and an empty line.
pub fn answer_why(file: &[u8]) -> String {
    let listing = replay_with_reasons(file);
    let now = now_text(&listing);
    format!("{}\n{now}\n", listing.text)
}

/// The refusal number, the place in 8 bytes, the effect count of a recording that was added or 0,
/// and the report after the call.
pub fn answer_season(case: &SeasonCase) -> String {
    let mut report = case.report;
    let (refusal, effects) = match add(&mut report, &case.file) {
        Ok(effects) => (ACCEPTED, effects),
        Err(refusal) => (refusal, 0),
    };
    let mut out = vec![refusal.number];
    out.extend_from_slice(&u64::from(refusal.place).to_be_bytes());
    out.push(effects);
    out.extend_from_slice(&report.to_bytes());
    hex(&out) + "\n"
}

/// Answers the next case of a stream.
pub fn answer_next(kind: Kind, stream: &mut Stream) -> Result<String, String> {
    Ok(match kind {
        Kind::Scan | Kind::Held => answer_run(kind, &stream.run_case(kind)?),
        Kind::Recording => answer_file(stream.file()?),
        Kind::Writing => answer_writing(&stream.writing_case()?),
        Kind::Replay => answer_replay(stream.file()?),
        Kind::Season => answer_season(&stream.season_case()?),
        Kind::Reason => answer_reason(&stream.reason_case()?),
        Kind::Why => answer_why(stream.file()?),
    })
}
