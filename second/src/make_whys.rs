//! Recordings to be listed with reasons: those of the replay cases, and such as end with every
//! reason for every state.

use crate::block::{Phase, Row, Words};
use crate::make_bad::{cause_and_effect, quiet, BadFile, Force, Trial, ALL};
use crate::make_files::{add, file_of, Files};
use crate::make_filled::filled_files;
use crate::make_replays::{
    delay_settings, large_files, long_files, small_files, turns, with_random_files, LARGE_FROM,
};
use crate::make_runs::word_if;
use crate::replay::Columns;
use crate::settings::TRIP_IF_BAD;

/// How long the last row is held.
const HOLDS: [u32; 2] = [1, 3];

/// A recording of Bad causes, which leads effects to all states, without and with a delay. Only its
/// leading rows are taken, with another last row; the turn chooses its causes and effects.
fn leading(turn: usize, hold: u32) -> BadFile {
    let trial = Trial {
        masked: false,
        options: TRIP_IF_BAD,
        force: Force::None,
        permit: 0,
        associated: true,
        active: false,
    };
    let (cause, first) = cause_and_effect(turn);
    BadFile {
        trial,
        hold,
        cause,
        first,
    }
}

/// The leading rows and a last row.
fn ended(leading: &BadFile, words: Words) -> Vec<u8> {
    let last = Row {
        hold: leading.hold,
        words,
    };
    let rows = [&leading.leading_rows()[..], &[last]].concat();
    file_of(&leading.settings(), &rows)
}

/// A last row with every set of inputs of rules 4 to 9. Two causes are active together.
fn ends_by_rules(files: &mut Files) {
    for inputs in 0..32 {
        for hold in HOLDS {
            let leading = leading(files.len(), hold);
            let causes = leading.causes();
            let words = Words {
                values: ALL & !word_if(inputs & 1 != 0, causes.bad | causes.other),
                require_reset: word_if(inputs & 2 != 0, ALL),
                reset_permit: word_if(inputs & 4 != 0, ALL),
                start_permit: word_if(inputs & 8 != 0, ALL),
                reset: word_if(inputs & 16 != 0, ALL),
                ..Words::default()
            };
            add(files, "end by rules 4 to 9", &[], ended(&leading, words));
        }
    }
}

/// A last row with each force, Bad causes, and active ones, alone and at once. In a long one a cause that is
/// Bad or tripped besides is masked.
fn ends_by_forces_and_bad(files: &mut Files) {
    for inputs in 0..12 {
        for hold in HOLDS {
            let leading = leading(files.len(), hold);
            let causes = leading.causes();
            let mask = word_if(hold > 1, causes.kept);
            let force = inputs / 4;
            let words = Words {
                values: ALL & !mask & !word_if(inputs & 1 != 0, causes.other),
                bad: word_if(inputs & 2 != 0, causes.bad | causes.kept),
                mask,
                force_permit: 1,
                force_trip: word_if(force == 1, ALL),
                force_normal: word_if(force == 2, ALL),
                ..quiet()
            };
            add(files, "end by rules 1 to 3", &[], ended(&leading, words));
        }
    }
}

/// Forces of some effects, and other effects beside them that are not forced.
fn ends_by_some_forces(files: &mut Files) {
    for permit in [0, 1] {
        let leading = leading(files.len(), 2);
        let words = Words {
            require_reset: ALL,
            force_permit: permit,
            force_trip: leading.standing_in(&[Phase::Normal, Phase::Ready]),
            force_normal: leading.standing_in(&[Phase::Tripped, Phase::Delayed]),
            ..quiet()
        };
        add(files, "end by some forces", &[], ended(&leading, words));
    }
}

/// Sixteen delays that run, end or have ended in the last scan.
fn ends_in_delays(files: &mut Files) {
    for period in [7, 100] {
        for hold in [1, 2, 3, 4, 5, 11, 12] {
            let settings = delay_settings(period);
            let mut rows = turns(&settings, 2, 1);
            rows[1].hold = hold;
            add(files, "end in delays", &[], file_of(&settings, &rows));
        }
    }
}

fn named_whys(with_large: bool) -> Files {
    let mut files = Vec::new();
    ends_by_rules(&mut files);
    ends_by_forces_and_bad(&mut files);
    ends_by_some_forces(&mut files);
    ends_in_delays(&mut files);
    small_files(&mut files);
    long_files(&mut files);
    filled_files(Columns::WithReason, &mut files);
    if with_large {
        large_files(&mut files);
    }
    files
}

/// `count` recordings to be listed with reasons.
pub fn why_cases(seed: u64, count: usize) -> Files {
    let named = named_whys(count >= LARGE_FROM);
    with_random_files(named, Columns::WithReason, seed, count)
}
