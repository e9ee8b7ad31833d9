//! Reason cases: a scan, and the effect whose reason is asked for.

use crate::block::{Phase, MAX_SCANS, PHASES};
use crate::cases::{Kind, ReasonCase, RunCase};
use crate::make::{Named, Random};
use crate::make_bad::Force;
use crate::make_runs::{self, all_in, all_states, plain, plant, random_case, word_if};
use crate::settings::{
    existing, MAX_CAUSES, MAX_DELAY, MAX_EFFECTS, PERMIT_NOT_REQUIRED, SEVERAL_FORCED, SLOTS,
    TRIP_IF_BAD,
};

pub type Cases = Vec<Named<ReasonCase>>;

/// A case with the refusal that is due, or none.
fn add(cases: &mut Cases, name: &str, due: Option<u8>, run: &RunCase, effect: u8) {
    cases.push(Named {
        name: name.to_string(),
        planted: Some(due.into_iter().collect()),
        case: ReasonCase::of(run, effect),
    });
}

// ---- The rules ----

/// The number of an effect of `all_states` in this state: without a delay, unless it is Delayed, or with one.
fn standing(phase: Phase, with_delay: bool) -> u8 {
    let first = phase.code() + 1;
    if with_delay {
        first + PHASES.len() as u8
    } else {
        first
    }
}

/// Rules 4 to 9: every state with every set of inputs, by turns without and with a delay.
fn rules(cases: &mut Cases) {
    for inputs in 0..32 {
        let mut run = all_states();
        let all = existing(run.settings.effects);
        let words = &mut run.row.words;
        words.values = word_if(inputs & 1 == 0, existing(run.settings.causes));
        words.require_reset = word_if(inputs & 2 != 0, all);
        words.reset_permit = word_if(inputs & 4 != 0, all);
        words.start_permit = word_if(inputs & 8 != 0, all);
        words.reset = word_if(inputs & 16 != 0, all);
        for phase in PHASES {
            let with_delay = (inputs / 2 + u16::from(phase.code())) % 2 == 1;
            let effect = standing(phase, with_delay);
            add(cases, "rules 4 to 9", None, &run, effect);
        }
    }
}

/// Eight causes, of which every effect sees the first six; the fourth is masked. The fourth and the
/// seventh are tripped and Bad in every case.
const CAUSES: u8 = 8;
const ASSOCIATED: u16 = 0b0011_1111;
const MASKED: u16 = 0b0000_1000;
const NOT_SEEN: u16 = MASKED | 0b0100_0000;
/// What else is tripped, and what else is Bad.
const TRIPPED: u16 = 0b0000_0110;
const BAD: u16 = 0b0011_0001;

/// Whether anything that an effect sees is Bad, and whether that counts.
#[derive(Clone, Copy, PartialEq, Eq)]
enum BadTrip {
    No,
    WithoutOption,
    Yes,
}

/// All states over eight causes.
fn eight_causes(bad: BadTrip, active: bool) -> RunCase {
    let mut run = all_states();
    run.settings.causes = CAUSES;
    run.settings.options = SEVERAL_FORCED;
    if bad != BadTrip::WithoutOption {
        run.settings.options |= TRIP_IF_BAD;
    }
    for slot in run.settings.slots.iter_mut().take(2 * PHASES.len()) {
        slot.association = ASSOCIATED;
    }
    let words = &mut run.row.words;
    words.mask = MASKED;
    words.bad = NOT_SEEN | word_if(bad != BadTrip::No, BAD);
    words.values = existing(CAUSES) & !NOT_SEEN & !word_if(active, TRIPPED);
    run
}

/// All effects forced so. Where the force counts it does so by the permit or by option bit 1.
fn force(run: &mut RunCase, force: Force, counts: bool, by_option: bool) {
    let all = existing(run.settings.effects);
    if counts && by_option {
        run.settings.options |= PERMIT_NOT_REQUIRED;
    }
    let words = &mut run.row.words;
    words.force_permit = word_if(counts && !by_option, 1);
    words.force_trip = word_if(force == Force::Trip, all);
    words.force_normal = word_if(force == Force::Normal, all);
}

/// Rules 1 to 3 in every state: each force, Bad causes that count or not, and active ones, alone and at once.
fn forces_and_bad(cases: &mut Cases) {
    for phase in PHASES {
        for kind in [Force::None, Force::Trip, Force::Normal] {
            for bad in [BadTrip::No, BadTrip::WithoutOption, BadTrip::Yes] {
                for active in [false, true] {
                    let turn = cases.len();
                    let mut run = eight_causes(bad, active);
                    force(&mut run, kind, true, turn % 2 == 1);
                    let effect = standing(phase, turn / 2 % 2 == 1);
                    add(cases, "rules 1 to 3", None, &run, effect);
                }
            }
        }
    }
}

/// Forces that do not count, beside a Bad trip in every other state.
fn forces_without_permit(cases: &mut Cases) {
    for phase in PHASES {
        for (kind, bad) in [(Force::Trip, BadTrip::No), (Force::Normal, BadTrip::Yes)] {
            let mut run = eight_causes(bad, phase.code() % 2 == 0);
            force(&mut run, kind, false, false);
            add(
                cases,
                "force without permit",
                None,
                &run,
                standing(phase, true),
            );
        }
    }
}

// ---- Causes, delays and timers ----

/// Words of several causes over 16 causes: each effect of 16 is asked for, without and with Bad causes.
fn several_causes(cases: &mut Cases, random: &mut Random) {
    for options in [0, TRIP_IF_BAD] {
        for index in 0..SLOTS {
            let phase = PHASES[index % (PHASES.len() - 1)];
            let mut run = all_in(phase, MAX_CAUSES, MAX_EFFECTS);
            run.settings.options = options;
            for (slot, state) in run.settings.slots.iter_mut().zip(&run.state.slots) {
                slot.association = random.word() | random.word() | state.first_out | 1;
            }
            run.row.words.values = random.word();
            run.row.words.mask = random.sparse();
            run.row.words.bad = random.word();
            add(cases, "several causes", None, &run, index as u8 + 1);
        }
    }
}

/// Timers below, at and above the period and its double, quiet and active by turns.
fn timers(cases: &mut Cases) {
    for period in [1, 100, 1_000] {
        let mut run = all_in(Phase::Delayed, 2, 3);
        run.settings.period = period;
        let period = u32::from(period);
        for timer in [
            1,
            period.saturating_sub(1).max(1),
            period,
            period + 1,
            2 * period,
            MAX_DELAY,
        ] {
            let effect = cases.len() % 3;
            run.settings.slots[effect].delay = MAX_DELAY;
            run.state.slots[effect].timer = timer;
            run.row.words.values = word_if(cases.len() % 2 == 1, 3);
            add(cases, "timers", None, &run, effect as u8 + 1);
        }
    }
}

/// Normal, active, with delays from none to the longest.
fn delays(cases: &mut Cases) {
    for delay in [0, 1, 100, MAX_DELAY] {
        let mut run = all_in(Phase::Normal, 2, 2);
        run.settings.slots[1].delay = delay;
        run.row.words.values = 0;
        add(cases, "delays", None, &run, 2);
    }
}

// ---- Refusals ----

/// The refusals of a scan in their order, except 10, which is its last.
pub const ORDER: [u8; 7] = {
    let [order @ .., _] = make_runs::ORDER;
    order
};
/// The refusal of an absent effect, which comes after them.
pub const ABSENT: u8 = 3;

/// Effects of a case with `count` effects that are absent.
fn absent(count: u8) -> [u8; 3] {
    [0, count + 1, u8::MAX]
}

/// A scan with one or two refusals planted.
fn faulty(first: u8, second: Option<u8>, variant: usize) -> RunCase {
    let mut run = all_in(Phase::Tripped, 3, 4);
    for number in [Some(first), second].into_iter().flatten() {
        plant(number, variant, &mut run);
    }
    run
}

/// Each refusal alone, each pair at once, and each beside an effect that is absent.
fn faults(cases: &mut Cases) {
    for (position, first) in ORDER.into_iter().enumerate() {
        let variant = position % 3;
        let alone = faulty(first, None, variant);
        add(cases, "fault", Some(first), &alone, 1);
        for effect in absent(alone.settings.effects) {
            add(
                cases,
                "fault and absent effect",
                Some(first),
                &alone,
                effect,
            );
        }
        for second in &ORDER[position + 1..] {
            let both = faulty(first, Some(*second), variant);
            add(cases, "faults", Some(first), &both, 1);
        }
    }
}

/// The first and the last effect, and effects that are absent, for several counts.
fn effect_numbers(cases: &mut Cases) {
    for count in [1, 3, MAX_EFFECTS] {
        let run = plain(3, count);
        for effect in [1, count] {
            add(cases, "effect", None, &run, effect);
        }
        for effect in absent(count) {
            add(cases, "absent effect", Some(ABSENT), &run, effect);
        }
    }
}

/// A scan of three effects for which so many scan numbers are left.
fn with_scans_left(left: u32) -> RunCase {
    let mut run = plain(3, 3);
    run.state.scans_done = MAX_SCANS - left;
    run
}

/// The end of the scan numbers: 9 comes before an absent effect, and is not reached by the last scan.
fn scan_numbers(cases: &mut Cases) {
    let last = with_scans_left(1);
    let past = with_scans_left(0);
    for effect in [1, 3] {
        add(cases, "last scan", None, &last, effect);
        add(cases, "scan past the last", Some(9), &past, effect);
    }
    for effect in absent(3) {
        add(
            cases,
            "absent at the last scan",
            Some(ABSENT),
            &last,
            effect,
        );
        add(cases, "absent past the last scan", Some(9), &past, effect);
    }
}

// ---- All together ----

fn named_cases() -> Cases {
    let mut cases = Vec::new();
    rules(&mut cases);
    forces_and_bad(&mut cases);
    forces_without_permit(&mut cases);
    several_causes(&mut cases, &mut Random::new(1));
    timers(&mut cases);
    delays(&mut cases);
    faults(&mut cases);
    effect_numbers(&mut cases);
    scan_numbers(&mut cases);
    cases
}

/// An effect of the case, or now and then an absent one.
fn random_effect(random: &mut Random, count: u8) -> u8 {
    match random.between(0, 19) {
        0 => 0,
        1 => count.saturating_add(1),
        2 => random.word() as u8,
        _ => random.between(1, u32::from(count.clamp(1, MAX_EFFECTS))) as u8,
    }
}

/// `count` reason cases: the named ones first, then random ones, of which one in four is damaged.
pub fn reason_cases(seed: u64, count: usize) -> Cases {
    let mut random = Random::new(seed);
    let mut cases = named_cases();
    cases.truncate(count);
    while cases.len() < count {
        let run = random_case(Kind::Scan, &mut random);
        let effect = random_effect(&mut random, run.settings.effects);
        cases.push(Named {
            name: "random".to_string(),
            planted: None,
            case: ReasonCase::of(&run, effect),
        });
    }
    cases
}
