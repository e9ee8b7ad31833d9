//! Recordings to be replayed. Random rows are chosen with the state before them in view, so
//! that trips, delays that run out, first-outs and resets are frequent.

use crate::block::{step, Phase, Row, State, Words, MAX_HOLD, MAX_SCANS};
use crate::make::{Named, Random};
use crate::make_files::{
    add, bytes_of_hex, damage_file, file_of, named_files, plain_settings, put32, row_place, Files,
    SESSION,
};
use crate::make_filled::{filled_files, random_filled_file, CASES_BUFFER};
use crate::make_runs::{random_bad, random_forces, random_hold, random_settings, random_words};
use crate::recording::{MAX_BYTES, MAX_ROWS};
use crate::replay::{run_row, Columns};
use crate::settings::{existing, Effect, Settings, MAX_DELAY, TRIP_IF_BAD};

/// From this count on the stream has the file with the longest listing.
pub const LARGE_FROM: usize = 1_000;

// ---- Rows to start from ----

/// Nothing active, with both permits for every effect.
pub fn quiet(settings: &Settings) -> Words {
    Words {
        values: existing(settings.causes),
        reset_permit: existing(settings.effects),
        start_permit: existing(settings.effects),
        ..Words::default()
    }
}

/// Every cause tripped.
fn tripped(settings: &Settings) -> Words {
    Words {
        values: 0,
        ..quiet(settings)
    }
}

/// Rows of one hold, by turns quiet and tripped.
pub fn turns(settings: &Settings, rows: u16, hold: u32) -> Vec<Row> {
    (0..rows)
        .map(|index| Row {
            hold,
            words: if index % 2 == 0 {
                quiet(settings)
            } else {
                tripped(settings)
            },
        })
        .collect()
}

// ---- Named files ----

fn session_files(files: &mut Files) {
    let session = bytes_of_hex(SESSION);
    add(files, "session", &[], session.clone());
    for length in [0, 1, 2, 6, 21, 22, 45, 46, 69] {
        add(files, "session cut", &[1], session[..length].to_vec());
    }
    for spare in [1, 24] {
        let mut file = session.clone();
        file.resize(session.len() + spare, 0);
        add(files, "session with spare bytes", &[7], file);
    }
}

/// The reader's named refusals, one file of each name.
fn refused_files(files: &mut Files) {
    let mut names = Vec::new();
    for named in named_files(&mut Random::new(0), false) {
        let refused = named
            .planted
            .as_ref()
            .is_some_and(|planted| !planted.is_empty());
        if refused && !names.contains(&named.name) {
            names.push(named.name.clone());
            files.push(named);
        }
    }
}

/// Delays about multiples of the period, one for each effect.
fn delays_about(period: u32) -> [u32; 16] {
    [
        0,
        1,
        period.saturating_sub(1).max(1),
        period,
        period + 1,
        2 * period - 1,
        2 * period,
        2 * period + 1,
        3 * period - 1,
        3 * period,
        3 * period + 1,
        10 * period - 1,
        10 * period,
        10 * period + 1,
        MAX_DELAY - 1,
        MAX_DELAY,
    ]
}

/// Sixteen effects with those delays.
pub fn delay_settings(period: u16) -> Settings {
    let mut settings = plain_settings(16, 16);
    settings.period = period;
    for (index, delay) in delays_about(u32::from(period)).into_iter().enumerate() {
        settings.slots[index].delay = delay;
    }
    settings
}

/// Sixteen delays that start together and end inside the tripped row, at its end, or in the
/// quiet row after it.
fn delay_files(files: &mut Files) {
    for period in [1, 7, 100, 1_000] {
        for hold in [1, 2, 3, 4, 10, 11, 12, MAX_HOLD] {
            let settings = delay_settings(period);
            let mut rows = turns(&settings, 5, 1);
            rows[1].hold = hold;
            rows[2].hold = 3;
            rows[4].hold = 5_000;
            add(files, "delays", &[], file_of(&settings, &rows));
        }
    }
}

/// An effect's way back: tripped, wait-reset, ready, wait-start, normal; the reset is held.
fn reset_files(files: &mut Files) {
    for hold in [1, 2, 1_000] {
        for reset in 0..4 {
            let settings = plain_settings(2, 2);
            let row = |words: Words| Row { hold, words };
            let quiet = Words {
                require_reset: 3,
                ..quiet(&settings)
            };
            let no_permit = Words {
                reset_permit: 0,
                reset,
                ..quiet
            };
            let rows = [
                row(no_permit),
                row(Words { reset, ..quiet }),
                row(Words {
                    reset,
                    start_permit: 2,
                    ..quiet
                }),
                row(quiet),
                row(Words { reset, ..quiet }),
                row(Words { values: 1, ..quiet }),
                row(Words {
                    require_reset: 0,
                    start_permit: 1,
                    ..quiet
                }),
            ];
            add(files, "resets", &[], file_of(&settings, &rows));
        }
    }
}

/// Rows in which every cause is masked, beside rows in which one is not.
fn exercised_files(files: &mut Files) {
    for mask in [0, 1, 2, 3] {
        let settings = plain_settings(2, 1);
        let words = |values| Words {
            mask,
            ..Words {
                values,
                ..quiet(&settings)
            }
        };
        let rows = [3, 2, 1, 0].map(|values| Row {
            hold: 7,
            words: words(values),
        });
        add(files, "exercised", &[], file_of(&settings, &rows));
    }
}

/// Every Bad word and mask of three causes, of which no effect sees the third, each after a quiet row;
/// the first cause is tripped besides in every other Bad row.
fn bad_files(files: &mut Files) {
    for options in [0, TRIP_IF_BAD] {
        let mut settings = plain_settings(3, 2);
        settings.options = options;
        let quiet = quiet(&settings);
        let mut rows = Vec::new();
        for inputs in 0..128 {
            let words = Words {
                values: quiet.values & !(inputs & 1),
                bad: inputs >> 1 & 7,
                mask: inputs >> 4,
                ..quiet
            };
            rows.extend([quiet, words].map(|words| Row { hold: 2, words }));
        }
        add(files, "Bad", &[], file_of(&settings, &rows));
    }
}

/// Rows of 1,000,000 scans, of which one in eight trips its effects, and then `last`.
fn long_rows(settings: &Settings, rows: u16, last: &[u32]) -> Vec<Row> {
    let mut all: Vec<Row> = (0..rows)
        .map(|index| Row {
            hold: MAX_HOLD,
            words: if index % 8 == 5 {
                tripped(settings)
            } else {
                quiet(settings)
            },
        })
        .collect();
    for hold in last {
        all.push(Row {
            hold: *hold,
            words: tripped(settings),
        });
    }
    all
}

/// The end of the scan numbers: reached and passed.
pub fn long_files(files: &mut Files) {
    let settings = plain_settings(2, 2);
    for (rows, last, planted) in [
        (1_000, &[][..], &[][..]),
        (1_000, &[1], &[9]),
        (999, &[999_999, 1], &[]),
        (999, &[999_999, 2], &[9]),
        (999, &[1, MAX_HOLD, 1], &[9]),
        (MAX_ROWS, &[], &[9]),
    ] {
        let file = file_of(&settings, &long_rows(&settings, rows, last));
        add(files, "end of the scan numbers", planted, file);
    }
    // What the reader refuses after the row of a 9 leaves no line but its own.
    let mut file = file_of(&settings, &long_rows(&settings, 1_001, &[5]));
    let last = row_place(2, 1_001);
    put32(&mut file, last, 0);
    add(files, "4 after the row of a 9", &[4], file.clone());
    put32(&mut file, last, 5);
    file.push(0);
    add(files, "7 after the row of a 9", &[7], file);
}

/// For the stream of recordings, whose answers have what a replay results in: totals of several
/// digits, and files that the reader accepts and a replay refuses by 9. What is planted is the
/// reader's.
pub fn totals_files(files: &mut Files) {
    let settings = plain_settings(2, 2);
    for rows in [11, 101] {
        let file = file_of(&settings, &long_rows(&settings, rows, &[]));
        add(files, "many scans", &[], file);
    }
    for last in [&[999_999, 1][..], &[999_999, 2, 7]] {
        let file = file_of(&settings, &long_rows(&settings, 999, last));
        add(files, "end of the scan numbers", &[], file);
    }
    let mut file = file_of(&settings, &long_rows(&settings, 999, &[MAX_HOLD, 1]));
    file.push(0);
    add(files, "7 after the row of a 9", &[7], file);
    let mut settings = plain_settings(16, 16);
    for slot in &mut settings.slots {
        slot.delay = 150;
    }
    for rows in [3, 40, 250] {
        let file = file_of(&settings, &turns(&settings, rows, 3));
        add(files, "many records", &[], file);
    }
}

/// The most records that we know a recording to give: an effect leaves Normal by Delayed in every
/// other row and comes back in the next, 3 changes in two rows, 49,152 in all. So we
/// know of no replay whose sequence numbers wrap.
fn longest_listing(files: &mut Files) {
    let mut settings = plain_settings(16, 16);
    for slot in &mut settings.slots {
        slot.delay = 150;
    }
    let file = file_of(&settings, &turns(&settings, MAX_ROWS, 3));
    assert!(file.len() == MAX_BYTES);
    add(files, "longest listing", &[], file);
}

/// The largest file with a spare byte, after rows that would print lines.
fn longer_file(files: &mut Files) {
    let settings = plain_settings(16, 16);
    let mut file = file_of(&settings, &turns(&settings, MAX_ROWS, 3));
    file.push(0);
    add(files, "longer than the largest", &[7], file);
}

/// The named files of few rows.
pub fn small_files(files: &mut Files) {
    session_files(files);
    reset_files(files);
    delay_files(files);
    exercised_files(files);
    bad_files(files);
    refused_files(files);
}

/// The named files of the largest size, and one above it.
pub fn large_files(files: &mut Files) {
    longest_listing(files);
    longer_file(files);
}

fn named_replays(with_large: bool) -> Files {
    let mut files = Vec::new();
    small_files(&mut files);
    long_files(&mut files);
    filled_files(Columns::Plain, &mut files);
    if with_large {
        large_files(&mut files);
    }
    files
}

// ---- Random files ----

/// One or two associated causes tripped, now and then masked.
fn random_trip(random: &mut Random, settings: &Settings) -> Words {
    let mut words = quiet(settings);
    for _ in 0..random.between(1, 2) {
        let effect = random.between(0, u32::from(settings.effects) - 1) as usize;
        let association = settings.slots[effect].association;
        words.values &= !(association & (random.word() | association & association.wrapping_neg()));
    }
    if random.once_in(6) {
        words.mask = random.word() & existing(settings.causes);
    }
    words
}

/// Quiet, with a reset to be waited for, permits that come and go, and often a force.
fn random_reset(random: &mut Random, settings: &Settings) -> Words {
    let effects = existing(settings.effects);
    let mut words = Words {
        require_reset: effects & (random.word() | random.word()),
        reset_permit: effects & random.word(),
        start_permit: effects & random.word(),
        reset: effects & random.word(),
        ..quiet(settings)
    };
    if random.once_in(3) {
        random_forces(random, settings, &mut words);
    }
    words
}

/// Bad causes in a quiet row, beside tripped causes, or with permits that come and go.
fn random_bad_row(random: &mut Random, settings: &Settings) -> Words {
    let mut words = match random.between(0, 2) {
        0 => quiet(settings),
        1 => random_trip(random, settings),
        _ => random_reset(random, settings),
    };
    random_bad(random, settings, &mut words);
    words
}

/// The words of a row: of each kind often enough that effects keep going round.
fn random_row_words(random: &mut Random, settings: &Settings) -> Words {
    match random.between(0, 12) {
        0..=2 => quiet(settings),
        3..=5 => random_trip(random, settings),
        6..=8 => random_reset(random, settings),
        9 => {
            let mut words = random_trip(random, settings);
            random_forces(random, settings, &mut words);
            words.force_permit |= random.between(0, 1) as u16;
            words
        }
        10..=11 => random_bad_row(random, settings),
        _ => random_words(random, settings),
    }
}

/// The scans of this row up to the one in which some running delay ends, if one runs.
fn scans_to_an_end(
    random: &mut Random,
    settings: &Settings,
    state: &State,
    words: &Words,
) -> Option<u32> {
    let after = step(settings, state, words).state;
    let ends: Vec<u32> = after
        .slots
        .iter()
        .filter(|slot| slot.phase == Phase::Delayed)
        .map(|slot| 1 + slot.timer.div_ceil(u32::from(settings.period)))
        .collect();
    if ends.is_empty() {
        None
    } else {
        Some(random.pick(&ends))
    }
}

/// A hold that ends about the end of a delay, or any hold.
fn random_row_hold(random: &mut Random, settings: &Settings, state: &State, words: &Words) -> u32 {
    match scans_to_an_end(random, settings, state, words) {
        Some(scans) if random.once_in(2) => (scans + random.between(0, 3))
            .saturating_sub(1)
            .clamp(1, MAX_HOLD),
        _ if random.once_in(12) => random.between(MAX_HOLD - 3, MAX_HOLD),
        _ => random_hold(random),
    }
}

fn random_rows(random: &mut Random, settings: &Settings, count: u32, long: bool) -> Vec<Row> {
    let mut state = State::default();
    let mut rows = Vec::new();
    for _ in 0..count {
        let words = random_row_words(random, settings);
        let hold = if long {
            MAX_HOLD - random.between(0, 20)
        } else {
            random_row_hold(random, settings, &state, &words)
        };
        let row = Row { hold, words };
        rows.push(row);
        // Past the end of the scan numbers no state is left to look at.
        if state.scans_done + hold <= MAX_SCANS {
            state = run_row(settings, &state, &row).state;
        }
    }
    rows
}

/// Settings in which at least one effect has a short delay, if there are two.
fn random_replay_settings(random: &mut Random) -> Settings {
    let mut settings = random_settings(random);
    if settings.effects > 1 {
        let period = u32::from(settings.period);
        settings.slots[1] = Effect {
            delay: period * random.between(1, 6) + random.between(0, 2) - 1,
            ..settings.slots[1]
        };
    }
    settings
}

/// How many rows, and whether each is held for about 1,000,000 scans.
fn random_size(random: &mut Random) -> (u32, bool) {
    match random.between(0, 299) {
        0..=1 => (random.between(990, 1_100), true),
        2..=4 => (random.between(1_000, u32::from(MAX_ROWS)), false),
        5..=30 => (random.between(16, 120), false),
        _ => (random.between(1, 12), false),
    }
}

/// A random recording, now and then one whose listing ends about the end of a buffer.
fn random_replay(random: &mut Random, columns: Columns) -> Vec<u8> {
    if random.once_in(12) {
        return random_filled_file(random, columns, CASES_BUFFER);
    }
    random_recording(random)
}

/// A recording of any size, most often of a few rows.
pub fn random_recording(random: &mut Random) -> Vec<u8> {
    let mut settings = random_replay_settings(random);
    let (rows, long) = random_size(random);
    if rows > 200 {
        // Thousands of rows of few effects say as much, in a shorter listing.
        for index in 3..16 {
            settings.slots[index] = Effect::default();
        }
        settings.effects = settings.effects.min(3);
    }
    let rows = random_rows(random, &settings, rows, long);
    file_of(&settings, &rows)
}

/// `count` recordings: the named ones first, then random ones, one in eight damaged.
pub fn with_random_files(named: Files, columns: Columns, seed: u64, count: usize) -> Files {
    let mut random = Random::new(seed);
    let mut files = named;
    files.truncate(count);
    while files.len() < count {
        let mut file = random_replay(&mut random, columns);
        if random.once_in(8) {
            damage_file(&mut random, &mut file);
        }
        files.push(Named {
            name: "random".to_string(),
            planted: None,
            case: file,
        });
    }
    files
}

/// `count` recordings to be listed without reasons.
pub fn replay_cases(seed: u64, count: usize) -> Files {
    let named = named_replays(count >= LARGE_FROM);
    with_random_files(named, Columns::Plain, seed, count)
}
