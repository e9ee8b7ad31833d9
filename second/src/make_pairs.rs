//! Every pair of forces: cases whose force words hold two bits together, in one word or split
//! over both, without and with option bit 2. Refusal 6 tells whether both bits were counted.

use crate::block::{Row, Words};
use crate::cases::{
    put_file, put_reason_case, put_run_case, put_season_case, put_writing_case, Kind, ReasonCase,
    RunCase, SeasonCase, WritingCase, MAX_RUN_ROOM,
};
use crate::make_files::{file_of, plain_writing};
use crate::make_runs::plain;
use crate::season::Report;
use crate::settings::{MAX_CAUSES, MAX_EFFECTS, SEVERAL_FORCED, SLOTS};

/// How long the forces are held, in a held run and in a file.
const HOLD: u32 = 7;

/// The options and the force words of one case.
#[derive(Clone, Copy, Debug, PartialEq, Eq, PartialOrd, Ord)]
pub struct Pair {
    pub options: u8,
    pub force_trip: u16,
    pub force_normal: u16,
}

/// Both bits in one word, and one bit in each; the bit of one effect twice is split alone.
fn forces() -> Vec<(u16, u16)> {
    let mut forces = Vec::new();
    for low in 0..SLOTS {
        forces.push((1 << low, 1 << low));
        for high in low + 1..SLOTS {
            let (low, high) = (1 << low, 1 << high);
            forces.extend([(low | high, 0), (0, low | high), (low, high), (high, low)]);
        }
    }
    forces
}

pub fn pairs() -> Vec<Pair> {
    let mut pairs = Vec::new();
    for options in [0, SEVERAL_FORCED] {
        pairs.extend(forces().into_iter().map(|(force_trip, force_normal)| Pair {
            options,
            force_trip,
            force_normal,
        }));
    }
    pairs
}

impl Pair {
    fn forced(&self, words: Words) -> Words {
        Words {
            force_permit: 1,
            force_trip: self.force_trip,
            force_normal: self.force_normal,
            ..words
        }
    }

    pub fn run_case(&self, kind: Kind) -> RunCase {
        let mut case = plain(MAX_CAUSES, MAX_EFFECTS);
        case.settings.options = self.options;
        case.row.words = self.forced(case.row.words);
        if kind == Kind::Held {
            case.row.hold = HOLD;
        }
        case.room = MAX_RUN_ROOM;
        case
    }

    /// The scan, asked for one of the two forced effects: the lower or the higher one, by turns.
    pub fn reason_case(&self) -> ReasonCase {
        let forced = self.force_trip | self.force_normal;
        let (low, high) = (forced.trailing_zeros(), forced.ilog2());
        let index = if (low + high) % 2 == 0 { low } else { high };
        ReasonCase::of(&self.run_case(Kind::Scan), index as u8 + 1)
    }

    pub fn writing_case(&self) -> WritingCase {
        let mut case = plain_writing(MAX_CAUSES, MAX_EFFECTS);
        case.settings.options = self.options;
        case.row.words = self.forced(case.row.words);
        case
    }

    /// A file whose second row has the forces.
    pub fn file(&self) -> Vec<u8> {
        let quiet = plain_writing(MAX_CAUSES, MAX_EFFECTS).row;
        let forced = Row {
            hold: HOLD,
            words: self.forced(quiet.words),
        };
        file_of(&self.writing_case().settings, &[quiet, forced])
    }

    fn season_case(&self) -> SeasonCase {
        SeasonCase {
            report: Report::empty(),
            file: self.file(),
        }
    }
}

/// The bytes of a case of each pair.
pub fn pairs_stream(kind: Kind) -> Vec<u8> {
    let mut out = Vec::new();
    for pair in pairs() {
        match kind {
            Kind::Scan | Kind::Held => put_run_case(kind, &pair.run_case(kind), &mut out),
            Kind::Reason => put_reason_case(&pair.reason_case(), &mut out),
            Kind::Recording | Kind::Replay | Kind::Why => put_file(&pair.file(), &mut out),
            Kind::Season => put_season_case(&pair.season_case(), &mut out),
            Kind::Writing => put_writing_case(&pair.writing_case(), &mut out),
        }
    }
    out
}
