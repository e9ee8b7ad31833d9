//! Making case streams: named cases first, then random ones. The same seed and count
//! always give the same stream.

use crate::cases::{
    put_file, put_reason_case, put_run_case, put_season_case, put_writing_case, Kind,
};
use crate::make_files::{file_cases, writing_cases};
use crate::make_filled::random_filled_file;
use crate::make_reasons::reason_cases;
use crate::make_replays::replay_cases;
use crate::make_runs::run_cases;
use crate::make_season::season_cases;
use crate::make_whys::why_cases;
use crate::replay::Columns;

/// A case with its name and, if it was made on purpose, the refusals planted in it.
#[derive(Clone, Debug)]
pub struct Named<C> {
    pub name: String,
    /// `Some` of an empty list: the case must be accepted. `None`: a random case.
    pub planted: Option<Vec<u8>>,
    pub case: C,
}

/// splitmix64.
pub struct Random {
    state: u64,
}

impl Random {
    pub fn new(seed: u64) -> Random {
        Random { state: seed }
    }

    pub fn number(&mut self) -> u64 {
        self.state = self.state.wrapping_add(0x9e37_79b9_7f4a_7c15);
        let mut mixed = self.state;
        mixed = (mixed ^ mixed >> 30).wrapping_mul(0xbf58_476d_1ce4_e5b9);
        mixed = (mixed ^ mixed >> 27).wrapping_mul(0x94d0_49bb_1331_11eb);
        mixed ^ mixed >> 31
    }

    /// A number in `low..=high`.
    pub fn between(&mut self, low: u32, high: u32) -> u32 {
        let width = u64::from(high) - u64::from(low) + 1;
        (u64::from(low) + self.number() % width) as u32
    }

    /// True once in `times`.
    pub fn once_in(&mut self, times: u32) -> bool {
        self.between(1, times) == 1
    }

    pub fn pick<T: Copy>(&mut self, choices: &[T]) -> T {
        choices[self.between(0, choices.len() as u32 - 1) as usize]
    }

    pub fn word(&mut self) -> u16 {
        self.number() as u16
    }

    /// A word with about one bit in four.
    pub fn sparse(&mut self) -> u16 {
        self.word() & self.word()
    }
}

/// The bytes of `count` cases.
pub fn stream_of(kind: Kind, seed: u64, count: usize) -> Vec<u8> {
    let mut out = Vec::new();
    match kind {
        Kind::Scan | Kind::Held => {
            for named in run_cases(kind, seed, count) {
                put_run_case(kind, &named.case, &mut out);
            }
        }
        Kind::Recording => {
            for named in file_cases(seed, count) {
                put_file(&named.case, &mut out);
            }
        }
        Kind::Replay => {
            for named in replay_cases(seed, count) {
                put_file(&named.case, &mut out);
            }
        }
        Kind::Why => {
            for named in why_cases(seed, count) {
                put_file(&named.case, &mut out);
            }
        }
        Kind::Season => {
            for named in season_cases(seed, count) {
                put_season_case(&named.case, &mut out);
            }
        }
        Kind::Reason => {
            for named in reason_cases(seed, count) {
                put_reason_case(&named.case, &mut out);
            }
        }
        Kind::Writing => {
            for named in writing_cases(seed, count) {
                put_writing_case(&named.case, &mut out);
            }
        }
    }
    out
}

/// `count` replay or why cases whose listings end about the end of the first, the second or the
/// third buffer of so many bytes.
pub fn filled_stream(columns: Columns, buffer: usize, seed: u64, count: usize) -> Vec<u8> {
    let mut random = Random::new(seed);
    let mut out = Vec::new();
    for _ in 0..count {
        put_file(&random_filled_file(&mut random, columns, buffer), &mut out);
    }
    out
}
