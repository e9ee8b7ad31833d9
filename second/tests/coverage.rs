//! What the made streams reach. The expectations are planted by hand in the generators or
//! listed here from document 01.

use second::block::{deciding_rule, step, Inputs, Phase, State, Words, PHASES, RECORD_BYTES};
use second::cases::{
    answer_next, answer_writing, call_run, lent, written_back, Kind, RunCase, Stream,
};
use second::make::Named;
use second::make_bad::{bad_files, bad_runs, bad_stream, standings, Force, Standing, Trial};
use second::make_files::{file_cases, writing_cases};
use second::make_pairs::{pairs, Pair};
use second::make_runs::{run_cases, ORDER};
use second::recording::read;
use second::replay::{replay, run_row, Totals};
use second::settings::{PERMIT_NOT_REQUIRED, TRIP_IF_BAD};
use std::collections::{BTreeMap, BTreeSet};
use std::sync::OnceLock;
use Phase::*;

/// How many scan cases are stored; of the held cases all that are tried here are.
const STORED_SCANS: usize = 2500;

fn scans() -> &'static [Named<RunCase>] {
    static CASES: OnceLock<Vec<Named<RunCase>>> = OnceLock::new();
    CASES.get_or_init(|| run_cases(Kind::Scan, 1, 3000))
}

fn helds() -> &'static [Named<RunCase>] {
    static CASES: OnceLock<Vec<Named<RunCase>>> = OnceLock::new();
    CASES.get_or_init(|| run_cases(Kind::Held, 1, 2000))
}

/// The first of the planted refusals in the order of document 01, or 0.
fn first_of(planted: &[u8]) -> u8 {
    let first = ORDER.iter().find(|number| planted.contains(number));
    first.copied().unwrap_or(0)
}

/// The (before, after) pairs that the rules allow: from every state to Tripped (force
/// trip, Bad trip) and to Normal (force normal), then rules 4 to 9.
const POSSIBLE: [(Phase, Phase); 23] = [
    (Tripped, Tripped),
    (Tripped, WaitReset),
    (Tripped, Ready),
    (Tripped, WaitStart),
    (Tripped, Normal),
    (WaitReset, Tripped),
    (WaitReset, WaitReset),
    (WaitReset, Ready),
    (WaitReset, Normal),
    (Ready, Tripped),
    (Ready, WaitReset),
    (Ready, Ready),
    (Ready, WaitStart),
    (Ready, Normal),
    (WaitStart, Tripped),
    (WaitStart, WaitStart),
    (WaitStart, Normal),
    (Normal, Tripped),
    (Normal, Normal),
    (Normal, Delayed),
    (Delayed, Tripped),
    (Delayed, Normal),
    (Delayed, Delayed),
];

#[test]
fn scans_reach_every_rule_and_every_pair_of_states() {
    let mut rules = BTreeMap::new();
    let mut pairs = BTreeMap::new();
    let cases = scans();
    let mut accepted = 0;
    for Named { case, .. } in cases {
        let (answer, _) = call_run(Kind::Scan, case);
        if answer.number != 0 {
            continue;
        }
        accepted += 1;
        for index in 0..usize::from(case.settings.effects) {
            let before = case.state.slots[index].phase;
            let inputs = Inputs::of(&case.settings, &case.row.words, index);
            *rules.entry(deciding_rule(before, &inputs)).or_insert(0) += 1;
            let pair = (before, answer.state.slots[index].phase);
            *pairs.entry(pair).or_insert(0) += 1;
        }
    }
    assert!(accepted * 2 >= cases.len(), "{accepted} accepted");
    for rule in 1..=9 {
        let times = rules.get(&rule).copied().unwrap_or(0);
        assert!(times >= 50, "rule {rule} decides {times} times");
    }
    let seen: BTreeSet<_> = pairs.keys().copied().collect();
    assert_eq!(seen, BTreeSet::from(POSSIBLE));
    for (pair, times) in pairs {
        assert!(times >= 5, "{pair:?} occurs {times} times");
    }
}

/// How an effect stands to the Bad causes of a row.
#[derive(Clone, Copy, Debug, PartialEq, Eq, PartialOrd, Ord)]
struct BadCase {
    option: bool,
    masked: bool,
    associated: bool,
    forced: Option<Phase>,
    before: Phase,
}

/// Whether all causes of a word stand in another, if none or all do.
fn all_or_none(word: u16, other: u16) -> Option<bool> {
    match word & other {
        0 => Some(false),
        common if common == word => Some(true),
        _ => None,
    }
}

/// What the case tries of the effect, if its Bad causes are all masked or all not, and all
/// associated or all not: then nothing but that decides.
fn bad_case(case: &RunCase, effect: usize) -> Option<BadCase> {
    let words = &case.row.words;
    if words.bad == 0 {
        return None;
    }
    let inputs = Inputs::of(&case.settings, words, effect);
    Some(BadCase {
        option: case.settings.has_option(TRIP_IF_BAD),
        masked: all_or_none(words.bad, words.mask)?,
        associated: all_or_none(words.bad, case.settings.slots[effect].association)?,
        forced: match (inputs.force_trip, inputs.force_normal) {
            (true, _) => Some(Tripped),
            (_, true) => Some(Normal),
            _ => None,
        },
        before: case.state.slots[effect].phase,
    })
}

fn all_bad_cases() -> Vec<BadCase> {
    let mut all = Vec::new();
    for before in PHASES {
        for forced in [None, Some(Tripped), Some(Normal)] {
            for bits in 0..8 {
                all.push(BadCase {
                    option: bits & 1 != 0,
                    masked: bits & 2 != 0,
                    associated: bits & 4 != 0,
                    forced,
                    before,
                });
            }
        }
    }
    all
}

/// Every case occurs at least so often where nothing is refused.
fn bad_cases_occur(kind: Kind, cases: &[Named<RunCase>], least: usize) {
    let mut times = BTreeMap::new();
    for Named { case, .. } in cases {
        if call_run(kind, case).0.number != 0 {
            continue;
        }
        for effect in 0..usize::from(case.settings.effects) {
            if let Some(bad) = bad_case(case, effect) {
                *times.entry(bad).or_insert(0) += 1;
            }
        }
    }
    for bad in all_bad_cases() {
        let times = times.get(&bad).copied().unwrap_or(0);
        assert!(times >= least, "{kind:?} {bad:?} occurs {times} times");
    }
}

/// The streams of the size that is stored.
#[test]
fn every_case_of_bad_causes_occurs() {
    bad_cases_occur(Kind::Scan, &scans()[..STORED_SCANS], 4);
    bad_cases_occur(Kind::Held, helds(), 4);
}

fn planted_cases_are_answered(kind: Kind, cases: &[Named<RunCase>]) {
    for (index, named) in cases.iter().enumerate() {
        let Some(planted) = &named.planted else {
            continue;
        };
        let (answer, _) = call_run(kind, &named.case);
        let name = &named.name;
        assert_eq!(
            answer.number,
            first_of(planted),
            "case {} {name}",
            index + 1
        );
    }
}

#[test]
fn planted_scans_are_answered() {
    planted_cases_are_answered(Kind::Scan, scans());
}

#[test]
fn planted_held_runs_are_answered() {
    planted_cases_are_answered(Kind::Held, helds());
}

/// Document 01's refusals seen one by one, whatever comes before them. The records due are
/// those of the first scan by the rules, even where something else is wrong.
fn faults(case: &RunCase) -> BTreeSet<u8> {
    let words: &Words = &case.row.words;
    let scans_after = u64::from(case.state.scans_done) + u64::from(case.row.hold);
    let due = match case.row.hold {
        0 => 0,
        _ => step(&case.settings, &case.state, words).records.len(),
    };
    let hold_is_right = (1..=1_000_000).contains(&case.row.hold);
    let seen = [
        (2, !case.settings.block_is_right()),
        (3, !case.settings.effects_are_right()),
        (8, case.state.check(&case.settings).is_err()),
        (4, !hold_is_right || !words.words_are_right(&case.settings)),
        (5, words.force_words_meet()),
        (6, words.several_forced(&case.settings)),
        (9, scans_after > 1_000_000_000),
        (10, usize::from(case.room) < RECORD_BYTES * due),
    ];
    let seen = seen.into_iter().filter(|(_, wrong)| *wrong);
    seen.map(|(number, _)| number).collect()
}

/// Each pair of faults at once, both truly there; the earlier one is given.
fn fault_pairs_occur(kind: Kind, cases: &[Named<RunCase>]) {
    let mut pairs = BTreeSet::new();
    let mut numbers = BTreeSet::new();
    for Named { case, .. } in cases {
        let faults = faults(case);
        let (answer, buffer) = call_run(kind, case);
        numbers.insert(answer.number);
        if answer.number != 0 {
            assert_eq!(answer.state, case.state);
            assert_eq!(buffer, lent(case.room));
        }
        for (position, first) in ORDER.iter().enumerate() {
            for second in &ORDER[position + 1..] {
                if faults.contains(first) && faults.contains(second) {
                    assert_ne!(answer.number, *second);
                    if answer.number == *first {
                        pairs.insert((*first, *second));
                    }
                }
            }
        }
    }
    assert_eq!(numbers, BTreeSet::from([0, 2, 3, 4, 5, 6, 8, 9, 10]));
    assert_eq!(pairs.len(), 28, "{pairs:?}");
}

#[test]
fn every_pair_of_faults_occurs_in_scans() {
    fault_pairs_occur(Kind::Scan, scans());
}

#[test]
fn every_pair_of_faults_occurs_in_held_runs() {
    fault_pairs_occur(Kind::Held, helds());
}

#[test]
fn scans_reach_latents_wraps_and_rooms() {
    let (mut latent, mut wraps, mut all_change, mut exact, mut spare) = (0, 0, 0, 0, 0);
    for Named { case, .. } in scans() {
        let (answer, _) = call_run(Kind::Scan, case);
        if answer.number != 0 {
            continue;
        }
        latent += usize::from(answer.latent_word != 0);
        wraps += usize::from(answer.state.next_sequence < case.state.next_sequence);
        all_change += usize::from(answer.records == 16);
        let due = RECORD_BYTES as u16 * answer.records;
        exact += usize::from(due > 0 && case.room == due);
        spare += usize::from(due > 0 && case.room > due);
    }
    for (what, times) in [
        ("latent", latent),
        ("wraps", wraps),
        ("all change", all_change),
        ("exact room", exact),
        ("spare room", spare),
    ] {
        assert!(times >= 10, "{what}: {times}");
    }
}

#[test]
fn held_runs_reach_live_scans_and_the_ends_of_timers() {
    let mut live = BTreeMap::new();
    let (mut ended, mut running, mut went_on, mut half) = (0, 0, 0, 0);
    for Named { case, .. } in helds() {
        let (answer, _) = call_run(Kind::Held, case);
        if answer.number != 0 {
            continue;
        }
        *live.entry(answer.live.min(4)).or_insert(0) += 1;
        half += usize::from(answer.exercised != 0);
        for (before, after) in case.state.slots.iter().zip(&answer.state.slots) {
            match (before.phase, after.phase) {
                (Delayed, Tripped) => ended += 1,
                (Delayed, Delayed) => running += 1,
                (Delayed, Ready | WaitReset | WaitStart) => went_on += 1,
                _ => {}
            }
        }
    }
    for scans in 0..=4 {
        let times = live.get(&scans).copied().unwrap_or(0);
        assert!(times >= 20, "{scans} live scans: {times}");
    }
    for times in [ended, running, went_on, half] {
        assert!(times >= 50, "{ended} {running} {went_on} {half}");
    }
}

#[test]
fn held_runs_have_the_corner_of_the_scan_numbers() {
    let mut seen = BTreeSet::new();
    for Named { case, .. } in helds() {
        if case.state.scans_done == 999_999_999 {
            let (answer, _) = call_run(Kind::Held, case);
            seen.insert((case.row.hold, answer.number));
        }
    }
    assert!(seen.contains(&(1, 0)) && seen.contains(&(2, 9)), "{seen:?}");
    assert!(!seen.contains(&(2, 0)), "{seen:?}");
}

/// The planted refusal that the reader meets first is the first in the list.
#[test]
fn planted_recordings_are_answered() {
    let mut numbers = BTreeMap::new();
    for (index, named) in file_cases(1, 2000).iter().enumerate() {
        let result = read(&named.case);
        let number = result.as_ref().map_or_else(|refusal| refusal.number, |_| 0);
        *numbers.entry(number).or_insert(0) += 1;
        if let Some(planted) = &named.planted {
            let expected = planted.first().copied().unwrap_or(0);
            assert_eq!(number, expected, "file {} {}", index + 1, named.name);
        }
        match result {
            Ok(recording) => assert_eq!(written_back(&recording), named.case),
            Err(refusal) if refusal.number == 1 => {
                assert_eq!(refusal.place as usize, named.case.len());
            }
            Err(refusal) => assert!((refusal.place as usize) < named.case.len()),
        }
    }
    for number in 0..=7 {
        let times = numbers.get(&number).copied().unwrap_or(0);
        assert!(times >= 10, "number {number}: {times}");
    }
}

/// The stored stream has what a replay adds to the reader: 9, and totals of every size.
#[test]
fn recordings_are_replayed_to_9_and_to_many_records() {
    let mut refused = 0;
    let (mut records, mut scans) = (BTreeSet::new(), BTreeSet::new());
    for named in file_cases(1, 800) {
        let listing = replay(&named.case);
        match listing.refusal {
            Some(refusal) if refusal.number == 9 => {
                assert!(read(&named.case).is_ok());
                assert_eq!(listing.totals, Totals::default());
                refused += 1;
            }
            Some(refusal) => assert_eq!(read(&named.case), Err(refusal)),
            None => {
                records.insert(listing.totals.records.checked_ilog10());
                scans.insert(listing.totals.scans.ilog10());
            }
        }
    }
    assert!(refused >= 1);
    assert_eq!(
        records,
        BTreeSet::from([None, Some(0), Some(1), Some(2), Some(3)])
    );
    assert_eq!(scans, BTreeSet::from_iter(0..=9));
}

#[test]
fn largest_recordings_stand_in_long_streams_alone() {
    let sizes = |count| -> Vec<usize> {
        let files = file_cases(1, count);
        let sizes = files.iter().map(|named| named.case.len());
        sizes.filter(|size| *size > 40_000).collect()
    };
    assert_eq!(sizes(2000), [49_258, 49_259, 49_262]);
    assert_eq!(sizes(1999), []);
}

/// The numbers of the opening and of the row in the answer to a writing case.
fn writing_numbers(answer: &str) -> [u8; 2] {
    let parts: Vec<&str> = answer.trim_end_matches('\n').split(' ').collect();
    assert_eq!(parts.len(), 4);
    let number = |part: &str| u8::from_str_radix(&part[..2], 16).expect("a number");
    [number(parts[0]), number(parts[2])]
}

#[test]
fn planted_writings_are_answered() {
    let mut openings = BTreeSet::new();
    let mut rows = BTreeSet::new();
    for (index, named) in writing_cases(1, 1000).iter().enumerate() {
        let numbers = writing_numbers(&answer_writing(&named.case));
        openings.insert(numbers[0]);
        rows.insert(numbers[1]);
        if let Some(planted) = &named.planted {
            assert_eq!(
                numbers[..],
                planted[..],
                "case {} {}",
                index + 1,
                named.name
            );
        }
    }
    assert_eq!(openings, BTreeSet::from([0, 2, 3, 4, 10]));
    assert_eq!(rows, BTreeSet::from([0, 2, 3, 4, 5, 6, 10]));
}

#[test]
fn named_cases_leave_room_for_random_ones() {
    for (cases, count) in [(scans(), 3000), (helds(), 2000)] {
        let random = cases.iter().filter(|named| named.planted.is_none()).count();
        assert_eq!(cases.len(), count);
        assert!(random >= 300, "{random} random cases of {count}");
    }
}

/// Document 01: an effect in both force words is 5; two forced without option bit 2 are 6.
fn due(pair: &Pair) -> u8 {
    match (pair.force_trip == pair.force_normal, pair.options) {
        (true, _) => 5,
        (false, 0) => 6,
        (false, _) => 0,
    }
}

/// 120 pairs of effects, each in four ways, and 16 effects with themselves; both options.
#[test]
fn every_pair_of_forces_is_there_and_is_answered() {
    let different: BTreeSet<Pair> = pairs().into_iter().collect();
    assert_eq!((pairs().len(), different.len()), (992, 992));
    for pair in pairs() {
        let ones = pair.force_trip.count_ones() + pair.force_normal.count_ones();
        assert_eq!(ones, 2, "{pair:?}");
        for kind in [Kind::Scan, Kind::Held] {
            let (answer, _) = call_run(kind, &pair.run_case(kind));
            assert_eq!(answer.number, due(&pair), "{kind:?} {pair:?}");
        }
        let numbers = writing_numbers(&answer_writing(&pair.writing_case()));
        assert_eq!(numbers, [0, due(&pair)], "{pair:?}");
        let number = read(&pair.file()).map_or_else(|refusal| refusal.number, |_| 0);
        assert_eq!(number, due(&pair), "{pair:?}");
    }
}

// ---- Bad causes in twos ----

/// The twos of masked causes, which come first, and all twos; `tests/runs.py` has the same numbers.
const MASKED_RUNS: usize = 880;
const BAD_RUNS: usize = 1760;
const MASKED_FILES: usize = 160;
const BAD_FILES: usize = 320;

fn masked_first(trials: &[Trial], masked: usize, all: usize) {
    assert_eq!(trials.len(), all);
    let count = trials.iter().take_while(|trial| trial.masked).count();
    assert_eq!(count, masked);
    assert!(trials[masked..].iter().all(|trial| !trial.masked));
}

/// What decides whether an effect sees the Bad cause.
fn deciding(trial: &Trial) -> (bool, u8, bool) {
    (trial.masked, trial.options, trial.associated)
}

#[test]
fn twos_of_runs_differ_in_one_bad_bit() {
    let runs = bad_runs();
    let trials: Vec<Trial> = runs.iter().map(|run| run.trial).collect();
    masked_first(&trials, MASKED_RUNS, BAD_RUNS);
    for run in &runs {
        let [clear, set] = run.cases(Kind::Scan);
        let bit = 1 << run.cause;
        assert_eq!((clear.row.words.bad, set.row.words.bad), (0, bit));
        let mut cleared = set;
        cleared.row.words.bad = 0;
        assert_eq!(cleared, clear);
        let words = &set.row.words;
        assert_eq!(words.mask & bit != 0, run.trial.masked);
        for (index, effect) in set.settings.slots.iter().enumerate() {
            let sees = run.trial.associated && index == run.effect;
            assert_eq!(effect.association & bit != 0, sees);
        }
        let inputs = Inputs::of(&set.settings, words, run.effect);
        assert_eq!(inputs.seen.active != 0, run.trial.active);
        let slot = &set.state.slots[run.effect];
        assert_eq!(slot.phase, run.standing.phase);
        assert_eq!(slot.first_out != 0, slot.phase != Normal);
    }
}

#[test]
fn twos_of_runs_try_everything() {
    let runs = bad_runs();
    let tried: BTreeSet<(Trial, Standing)> =
        runs.iter().map(|run| (run.trial, run.standing)).collect();
    assert_eq!(tried.len(), BAD_RUNS);
    let states: BTreeSet<(Phase, bool)> = standings()
        .iter()
        .map(|standing| (standing.phase, standing.delay == 0))
        .collect();
    assert_eq!(states.len(), 2 * PHASES.len() - 1);
    assert!(!states.contains(&(Delayed, true)));
    let mut causes = BTreeMap::new();
    let mut effects = BTreeMap::new();
    let mut met = BTreeSet::new();
    for run in &runs {
        let key = deciding(&run.trial);
        causes
            .entry(key)
            .or_insert(BTreeSet::new())
            .insert(run.cause);
        effects
            .entry(key)
            .or_insert(BTreeSet::new())
            .insert(run.effect);
        met.insert((run.cause, run.effect));
    }
    assert_eq!(causes.len(), 16);
    assert!(causes
        .values()
        .chain(effects.values())
        .all(|seen| seen.len() == 16));
    assert_eq!(met.len(), 16 * 16);
}

/// The rows before the one with the Bad bit lead each effect that is tried to its state.
#[test]
fn twos_of_files_differ_in_one_bad_bit_after_every_state() {
    let files = bad_files();
    let trials: Vec<Trial> = files.iter().map(|file| file.trial).collect();
    masked_first(&trials, MASKED_FILES, BAD_FILES);
    let mut causes = BTreeMap::new();
    for file in &files {
        let bit = 1 << file.cause;
        let [clear, mut set] = file.files().map(|bytes| read(&bytes).expect("accepted"));
        let place = set.rows.len() - 2;
        assert_eq!(set.rows[place].words.bad, bit);
        assert_eq!(
            set.rows[place].words.mask,
            if file.trial.masked { bit } else { 0 }
        );
        set.rows[place].words.bad = 0;
        assert_eq!(clear, set);
        let mut state = State::default();
        for row in &clear.rows[..place] {
            state = run_row(&clear.settings, &state, row).state;
        }
        let tried = file.tried();
        assert_eq!(tried.len(), standings().len());
        for (index, standing) in tried {
            let slot = &state.slots[index];
            assert_eq!(slot.phase, standing.phase);
            assert_eq!(slot.first_out != 0, slot.phase != Normal);
            assert_eq!(clear.settings.slots[index].delay, standing.delay);
            let sees = clear.settings.slots[index].association & bit != 0;
            assert_eq!(sees, file.trial.associated);
        }
        causes
            .entry(deciding(&file.trial))
            .or_insert(BTreeSet::new())
            .insert(file.cause);
    }
    assert_eq!(causes.len(), 16);
    assert!(causes.values().all(|seen| seen.len() == 16));
}

/// For each two of a stream, whether its answers differ.
fn differing(kind: Kind) -> Vec<bool> {
    let bytes = bad_stream(kind).expect("a kind with Bad cases");
    let mut stream = Stream::new(&bytes);
    let mut differing = Vec::new();
    while !stream.at_end() {
        let [clear, set] = [0, 1].map(|_| answer_next(kind, &mut stream).expect("a whole case"));
        differing.push(clear != set);
    }
    differing
}

/// Whether the Bad cause is seen, and the force that counts.
fn seen_and_forced(trial: &Trial) -> (bool, Force) {
    let has = |option| trial.options & option != 0;
    let seen = has(TRIP_IF_BAD) && !trial.masked && trial.associated;
    let counts = trial.permit == 1 || has(PERMIT_NOT_REQUIRED);
    (seen, if counts { trial.force } else { Force::None })
}

/// Worked out from document 02, L3. Where nothing else is active, a Bad cause that is seen tells by
/// the state after, by the latent word or, under a force trip, by the exercised scans, which a scan
/// does not report. Where something is active the effect trips by that too: then the first-out tells
/// in Normal, and the trip itself in Delayed.
#[test]
fn answers_to_twos_of_runs_differ_where_the_bad_cause_is_seen() {
    for kind in [Kind::Scan, Kind::Held] {
        for (run, differs) in bad_runs().iter().zip(differing(kind)) {
            let (seen, forced) = seen_and_forced(&run.trial);
            let before = run.standing.phase;
            let alone = !run.trial.active && (forced != Force::Trip || kind == Kind::Held);
            let told = match forced {
                Force::None => alone || matches!(before, Normal | Delayed),
                Force::Trip => alone || before == Normal,
                Force::Normal => alone,
            };
            assert_eq!(differs, seen && told, "{kind:?} {run:?}");
        }
    }
}

/// A file has effects in all states, so without a force some effect always tells. A listing has the
/// first-outs of a force trip, which a season has not; both have the exercised scans.
#[test]
fn answers_to_twos_of_files_differ_where_the_bad_cause_is_seen() {
    for kind in [Kind::Replay, Kind::Season] {
        for (file, differs) in bad_files().iter().zip(differing(kind)) {
            let (seen, forced) = seen_and_forced(&file.trial);
            let told = match forced {
                Force::None => true,
                Force::Trip => kind == Kind::Replay || !file.trial.active,
                Force::Normal => !file.trial.active,
            };
            assert_eq!(differs, seen && told, "{kind:?} {file:?}");
        }
    }
}

#[test]
fn writing_has_no_bad_cases() {
    assert_eq!(bad_stream(Kind::Writing), None);
}
