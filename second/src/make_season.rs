//! Season cases: a recording and the report that it is added to. The reports are empty, random,
//! full, about the limit of 64 bits, or what the case before has left.

use crate::block::{Row, Words};
use crate::cases::SeasonCase;
use crate::make::{Named, Random};
use crate::make_files::{bytes_of_hex, damage_file, file_of, plain_settings, Files, SESSION};
use crate::make_replays::{
    large_files, long_files, quiet, random_recording, small_files, LARGE_FROM,
};
use crate::recording::read;
use crate::season::{add, totals_of, Report, EXERCISED, REPORT_NUMBERS};
use crate::settings::{existing, Settings, MAX_EFFECTS};

pub type Cases = Vec<Named<SeasonCase>>;

/// The refusal of a report that is too full.
const PAST_64_BITS: u8 = 11;

// ---- Reports to start from ----

fn full() -> Report {
    Report {
        numbers: [u64::MAX; REPORT_NUMBERS],
    }
}

fn random_report(random: &mut Random) -> Report {
    let mut report = Report::empty();
    for number in &mut report.numbers {
        *number = random.number();
    }
    report
}

/// Random numbers that are far from the limit.
fn random_half(random: &mut Random) -> Report {
    let mut report = random_report(random);
    for number in &mut report.numbers {
        *number /= 2;
    }
    report
}

/// What a file adds to a report; nothing if it is refused.
fn totals(file: &[u8]) -> Report {
    read(file)
        .and_then(|recording| totals_of(&recording))
        .unwrap_or(Report::empty())
}

/// The report in which every number just takes what is added.
fn at_the_limit(added: &Report) -> Report {
    let mut report = full();
    for (number, more) in report.numbers.iter_mut().zip(added.numbers) {
        *number -= more;
    }
    report
}

// ---- Named cases ----

fn push(cases: &mut Cases, name: &str, planted: &[u8], report: Report, file: &[u8]) {
    cases.push(Named {
        name: name.to_string(),
        planted: Some(planted.to_vec()),
        case: SeasonCase {
            report,
            file: file.to_vec(),
        },
    });
}

/// The session, added to nothing, to itself, to random numbers and to a full report.
fn session_cases(cases: &mut Cases, random: &mut Random) {
    let session = bytes_of_hex(SESSION);
    push(cases, "session", &[], Report::empty(), &session);
    push(cases, "session twice", &[], totals(&session), &session);
    let report = random_half(random);
    push(cases, "session and random numbers", &[], report, &session);
    push(cases, "full", &[PAST_64_BITS], full(), &session);
    let cut = &session[..session.len() - 1];
    push(cases, "session cut", &[1], Report::empty(), cut);
}

/// An accepted file has an empty report. A refused one has a full report: what the reader refuses,
/// and 9, come before 11.
fn file_cases(cases: &mut Cases, files: &Files) {
    for named in files {
        let refused = named.planted.clone().unwrap_or_default();
        if refused.is_empty() {
            push(cases, &named.name, &[], Report::empty(), &named.case);
        } else {
            let both = [&refused[..], &[PAST_64_BITS]].concat();
            push(cases, &named.name, &both, full(), &named.case);
        }
    }
}

/// Each effect goes through all six states. Its delay is its own, so the effects add different
/// numbers.
fn all_states(effects: u8) -> Vec<u8> {
    let mut settings = plain_settings(1, effects);
    let period = u32::from(settings.period);
    for (slot, scans) in settings.slots.iter_mut().zip(2..).take(effects.into()) {
        slot.delay = scans * period;
    }
    file_of(&settings, &all_states_rows(&settings))
}

/// Wait-reset, Ready, Wait-start, Normal, Delayed, Tripped.
fn all_states_rows(settings: &Settings) -> Vec<Row> {
    let effects = existing(settings.effects);
    let waiting = Words {
        require_reset: effects,
        reset_permit: 0,
        start_permit: 0,
        ..quiet(settings)
    };
    let permitted = Words {
        reset_permit: effects,
        reset: effects,
        ..waiting
    };
    let started = Words {
        start_permit: effects,
        ..waiting
    };
    let tripped = Words {
        values: 0,
        ..waiting
    };
    [
        (2, waiting),
        (3, permitted),
        (4, permitted),
        (6, started),
        (30, tripped),
    ]
    .map(|(hold, words)| Row { hold, words })
    .to_vec()
}

/// Recordings of 1 to 16 effects. What stands past their effects may be full.
fn effect_count_cases(cases: &mut Cases, random: &mut Random) {
    for effects in 1..=MAX_EFFECTS {
        let file = all_states(effects);
        let limit = at_the_limit(&totals(&file));
        push(cases, "effects", &[], Report::empty(), &file);
        push(cases, "effects", &[], random_half(random), &file);
        push(cases, "effects at the limit", &[], limit, &file);
    }
}

/// A quiet recording adds no exercised scan and no trip, so these may be full.
fn quiet_cases(cases: &mut Cases) {
    let settings = plain_settings(2, 3);
    let words = quiet(&settings);
    let file = file_of(&settings, &[Row { hold: 9, words }]);
    let limit = at_the_limit(&totals(&file));
    push(cases, "nothing exercised", &[], limit, &file);
    let mut above = limit;
    above.numbers[0] = 0;
    above.numbers[4] += 1;
    push(cases, "one number above", &[PAST_64_BITS], above, &file);
}

/// All numbers just below the limit and at it, and then each number alone above it; the others are
/// then far from it.
fn limit_cases(cases: &mut Cases, random: &mut Random) {
    let file = all_states(MAX_EFFECTS);
    let limit = at_the_limit(&totals(&file));
    let below = Report {
        numbers: limit.numbers.map(|number| number - 1),
    };
    push(cases, "below the limit", &[], below, &file);
    push(cases, "at the limit", &[], limit, &file);
    for place in 0..REPORT_NUMBERS {
        let mut above = random_half(random);
        above.numbers[place] = limit.numbers[place] + 1;
        push(cases, "above the limit", &[PAST_64_BITS], above, &file);
    }
}

fn named_cases(random: &mut Random, with_large: bool) -> Cases {
    let mut cases = Vec::new();
    let (mut small, mut long) = (Vec::new(), Vec::new());
    small_files(&mut small);
    long_files(&mut long);
    session_cases(&mut cases, random);
    effect_count_cases(&mut cases, random);
    quiet_cases(&mut cases);
    limit_cases(&mut cases, random);
    file_cases(&mut cases, &small);
    file_cases(&mut cases, &long);
    if with_large {
        let mut large = Vec::new();
        large_files(&mut large);
        file_cases(&mut cases, &large);
    }
    cases
}

// ---- Random cases ----

/// A place whose number the recording adds to, or any place if it adds to none.
fn random_place(random: &mut Random, added: &Report) -> usize {
    let places: Vec<usize> = (0..REPORT_NUMBERS)
        .filter(|place| added.numbers[*place] != 0)
        .collect();
    if places.is_empty() {
        random.between(0, EXERCISED as u32) as usize
    } else {
        random.pick(&places)
    }
}

/// One number just below, at or above the limit.
fn near_the_limit(random: &mut Random, file: &[u8]) -> Report {
    let added = totals(file);
    let place = random_place(random, &added);
    let mut report = random_half(random);
    let limit = at_the_limit(&added).numbers[place];
    report.numbers[place] = limit.saturating_add_signed(random.pick(&[-1, 0, 1]));
    report
}

/// A report for a file; `last` is what the case before has left.
fn random_start(random: &mut Random, file: &[u8], last: &Report) -> Report {
    match random.between(0, 9) {
        0 => Report::empty(),
        1 => random_report(random),
        2 => at_the_limit(&totals(file)),
        3..=5 => near_the_limit(random, file),
        _ => *last,
    }
}

fn random_case(random: &mut Random, last: &Report) -> SeasonCase {
    let mut file = random_recording(random);
    if random.once_in(8) {
        damage_file(random, &mut file);
    }
    SeasonCase {
        report: random_start(random, &file, last),
        file,
    }
}

/// `count` season cases: the named ones first, then random ones, of which about one in eight has
/// a damaged file. Runs of random cases fill one report.
pub fn season_cases(seed: u64, count: usize) -> Cases {
    let mut random = Random::new(seed);
    let mut cases = named_cases(&mut random, count >= LARGE_FROM);
    cases.truncate(count);
    let mut last = Report::empty();
    while cases.len() < count {
        let case = random_case(&mut random, &last);
        last = case.report;
        // A refusal leaves the report for the next file.
        let _ = add(&mut last, &case.file);
        cases.push(Named {
            name: "random".to_string(),
            planted: None,
            case,
        });
    }
    cases
}
