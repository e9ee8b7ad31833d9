//! Reasons: document 02's words, the bytes, each rule's reason by hand, the query's refusals, which reason
//! fits, and what the made streams reach.

use second::block::{deciding_rule, step, Inputs, Phase, Row, Slot, State, Words, PHASES};
use second::cases::{answer_reason, answer_why, Kind, ReasonCase};
use second::make::Named;
use second::make_bad::{bad_files, bad_runs, Force};
use second::make_files::{bytes_of_hex, file_of, SESSION};
use second::make_pairs::pairs;
use second::make_reasons::{reason_cases, ABSENT, ORDER};
use second::make_replays::LARGE_FROM;
use second::make_whys::why_cases;
use second::reasons::{reason_after, Missing, Reason};
use second::replay::{replay, replay_with_reasons, run_row, Listing};
use second::settings::{Effect, Settings, PERMIT_NOT_REQUIRED, TRIP_IF_BAD};
use second::why::{now_text, reason_lines};
use std::collections::{BTreeMap, BTreeSet};
use std::sync::OnceLock;
use Phase::*;
use Reason::*;

/// Of each stream that is stored.
const STORED: usize = 500;

fn reasons() -> &'static [Named<ReasonCase>] {
    static CASES: OnceLock<Vec<Named<ReasonCase>>> = OnceLock::new();
    CASES.get_or_init(|| reason_cases(1, 4_000))
}

fn whys() -> &'static [Named<Vec<u8>>] {
    static CASES: OnceLock<Vec<Named<Vec<u8>>>> = OnceLock::new();
    CASES.get_or_init(|| why_cases(1, LARGE_FROM))
}

fn asked(case: &ReasonCase) -> Result<Reason, u8> {
    reason_after(&case.settings, &case.state, &case.words, case.effect)
}

// ---- Words and bytes ----

/// Document 02's words and the eight bytes of each reason, written down by hand.
#[test]
fn words_and_bytes() {
    for (reason, words, bytes) in [
        (ForcedTripped, "forced tripped", "00 00 0000 00000000"),
        (ForcedNormal, "forced normal", "01 00 0000 00000000"),
        (Bad(3), "Bad 3", "02 00 0003 00000000"),
        (Bad(0x8001), "Bad 32769", "02 00 8001 00000000"),
        (Active(3), "active 3", "03 00 0003 00000000"),
        (Active(0x0102), "active 258", "03 00 0102 00000000"),
        (
            DelayRunning(150),
            "delay running 150",
            "04 00 0000 00000096",
        ),
        (
            DelayRunning(3_600_000),
            "delay running 3600000",
            "04 00 0000 0036ee80",
        ),
        (DelayEnded, "delay ended", "05 00 0000 00000000"),
        (
            Waiting(Missing::ResetPermit),
            "waiting reset permit",
            "06 01 0000 00000000",
        ),
        (
            Waiting(Missing::Reset),
            "waiting reset",
            "06 02 0000 00000000",
        ),
        (
            Waiting(Missing::StartPermit),
            "waiting start permit",
            "06 03 0000 00000000",
        ),
        (Cleared, "cleared", "07 00 0000 00000000"),
        (AtRest, "at rest", "08 00 0000 00000000"),
    ] {
        assert_eq!(reason.words(), words);
        assert_eq!(reason.to_bytes().to_vec(), bytes_of_hex(bytes));
    }
}

// ---- One effect by hand ----

/// One effect that sees causes 1 and 2 of three, with option bit 0, period 100 and a delay.
fn settings(delay: u32) -> Settings {
    let mut settings = Settings {
        causes: 3,
        options: TRIP_IF_BAD,
        period: 100,
        effects: 1,
        ..Settings::default()
    };
    settings.slots[0] = Effect {
        association: 3,
        delay,
    };
    settings
}

fn state(phase: Phase, timer: u32) -> State {
    let mut state = State::default();
    state.slots[0] = Slot {
        phase,
        timer,
        first_out: 0,
    };
    state
}

/// Quiet, with nothing permitted or required.
fn quiet() -> Words {
    Words {
        values: 7,
        ..Words::default()
    }
}

fn reason(phase: Phase, timer: u32, words: Words) -> Reason {
    let delay = if phase == Delayed { 500 } else { 0 };
    reason_after(&settings(delay), &state(phase, timer), &words, 1).expect("accepted")
}

#[test]
fn rules_1_to_3_in_every_state() {
    for phase in PHASES {
        let timer = if phase == Delayed { 100 } else { 0 };
        let bad_and_active = Words {
            values: 5,
            bad: 5,
            ..quiet()
        };
        let forced = |force_trip, force_normal| Words {
            force_permit: 1,
            force_trip,
            force_normal,
            ..bad_and_active
        };
        assert_eq!(reason(phase, timer, forced(1, 0)), ForcedTripped);
        assert_eq!(reason(phase, timer, forced(0, 1)), ForcedNormal);
        assert_eq!(reason(phase, timer, bad_and_active), Bad(1));
        let not_permitted = Words {
            force_trip: 1,
            ..bad_and_active
        };
        assert_eq!(reason(phase, timer, not_permitted), Bad(1));
    }
}

#[test]
fn active_in_every_state_but_delayed() {
    let tripped = Words {
        values: 0,
        ..quiet()
    };
    for phase in [Tripped, WaitReset, Ready, WaitStart, Normal] {
        assert_eq!(reason(phase, 0, tripped), Active(3));
        let masked = Words { mask: 1, ..tripped };
        assert_eq!(reason(phase, 0, masked), Active(2));
    }
    assert_eq!(reason(Delayed, 250, tripped), DelayRunning(150));
    assert_eq!(reason(Delayed, 100, tripped), DelayEnded);
    let normal = state(Normal, 0);
    let delayed = reason_after(&settings(500), &normal, &tripped, 1);
    assert_eq!(delayed, Ok(Active(3)));
}

#[test]
fn quiet_effects_wait_clear_or_rest() {
    let words = |require_reset, reset_permit, start_permit, reset| Words {
        require_reset,
        reset_permit,
        start_permit,
        reset,
        ..quiet()
    };
    let reset_permit = Waiting(Missing::ResetPermit);
    let reset = Waiting(Missing::Reset);
    let start_permit = Waiting(Missing::StartPermit);
    for (phase, words, due) in [
        (Tripped, words(1, 0, 1, 1), reset_permit),
        (Tripped, words(1, 1, 1, 1), reset),
        (Tripped, words(0, 1, 0, 1), start_permit),
        (Tripped, words(0, 0, 1, 0), Cleared),
        (WaitReset, words(0, 0, 1, 1), reset_permit),
        (WaitReset, words(0, 1, 1, 1), reset),
        (Ready, words(1, 0, 1, 1), reset_permit),
        (Ready, words(1, 1, 1, 0), reset),
        (Ready, words(1, 1, 0, 1), start_permit),
        (Ready, words(1, 1, 1, 1), Cleared),
        (WaitStart, words(1, 1, 0, 1), start_permit),
        (WaitStart, words(1, 0, 1, 0), Cleared),
        (Normal, words(1, 0, 0, 0), AtRest),
    ] {
        assert_eq!(reason(phase, 0, words), due, "{phase:?} {words:?}");
    }
}

/// At the period the delay ends; above it the milliseconds are those after the scan.
#[test]
fn delays_run_and_end() {
    for (timer, due) in [
        (1, DelayEnded),
        (99, DelayEnded),
        (100, DelayEnded),
        (101, DelayRunning(1)),
        (500, DelayRunning(400)),
    ] {
        assert_eq!(reason(Delayed, timer, quiet()), due);
    }
}

#[test]
fn an_absent_effect_is_3_after_9() {
    let settings = settings(0);
    let asked = |scans_done, effect| {
        let state = State {
            scans_done,
            ..State::default()
        };
        reason_after(&settings, &state, &quiet(), effect)
    };
    let waiting = Ok(Waiting(Missing::StartPermit));
    for effect in [0, 2, 16, 17, 255] {
        assert_eq!(asked(0, effect), Err(3));
        assert_eq!(asked(999_999_999, effect), Err(3));
        assert_eq!(asked(1_000_000_000, effect), Err(9));
        assert_eq!(asked(1_000_000_001, effect), Err(8));
    }
    assert_eq!(asked(999_999_999, 1), waiting);
    assert_eq!(asked(1_000_000_000, 1), Err(9));
}

// ---- Which reason fits ----

/// What document 02 says of a reason, in its own words, of an effect in a scan.
struct Scan {
    rule: u8,
    inputs: Inputs,
    before: Slot,
    after: Slot,
}

impl Scan {
    fn fits(&self, reason: Reason) -> bool {
        let Scan {
            rule,
            inputs,
            before,
            after,
        } = self;
        let active_case = (4..=8).contains(rule) && inputs.seen.active != 0;
        let forced = *rule <= 2;
        // "Waiting", "cleared" and "at rest" are said of what is left.
        let left = !forced && *rule != 3 && *rule != 9 && !active_case;
        let to_normal = after.phase == Normal && !forced;
        match reason {
            ForcedTripped => *rule == 1,
            ForcedNormal => *rule == 2,
            Bad(causes) => *rule == 3 && causes == inputs.seen.bad,
            Active(causes) => active_case && causes == inputs.seen.active,
            DelayRunning(left) => *rule == 9 && after.phase == Delayed && left == after.timer,
            DelayEnded => *rule == 9 && after.phase == Tripped,
            Waiting(missing) => {
                let due = match missing {
                    Missing::ResetPermit => WaitReset,
                    Missing::Reset => Ready,
                    Missing::StartPermit => WaitStart,
                };
                left && after.phase == due
            }
            Cleared => to_normal && before.phase != Normal,
            AtRest => to_normal && before.phase == Normal,
        }
    }

    /// One reason of each kind, with what the scan has of causes and milliseconds.
    fn candidates(&self) -> [Reason; 11] {
        [
            ForcedTripped,
            ForcedNormal,
            Bad(self.inputs.seen.bad),
            Active(self.inputs.seen.active),
            DelayRunning(self.after.timer),
            DelayEnded,
            Waiting(Missing::ResetPermit),
            Waiting(Missing::Reset),
            Waiting(Missing::StartPermit),
            Cleared,
            AtRest,
        ]
    }
}

fn scan_of(case: &ReasonCase) -> Scan {
    let index = usize::from(case.effect) - 1;
    let inputs = Inputs::of(&case.settings, &case.words, index);
    let before = case.state.slots[index];
    let after = step(&case.settings, &case.state, &case.words).state.slots[index];
    Scan {
        rule: deciding_rule(before.phase, &inputs),
        inputs,
        before,
        after,
    }
}

#[test]
fn exactly_one_reason_fits_and_it_is_given() {
    for named in reasons() {
        let Ok(reason) = asked(&named.case) else {
            continue;
        };
        let scan = scan_of(&named.case);
        let fitting: Vec<Reason> = scan
            .candidates()
            .into_iter()
            .filter(|candidate| scan.fits(*candidate))
            .collect();
        assert_eq!(fitting, [reason], "{:?}", named.case);
    }
}

/// One effect with every set of inputs from every state and several timers: rows of the same reason lead
/// to the same state and timer.
#[test]
fn the_same_reason_leads_to_the_same_state_and_timer() {
    for delay in [0, 100, 250] {
        let mut led = BTreeMap::new();
        for phase in PHASES {
            let timers: &[u32] = match (phase, delay) {
                (Delayed, 0) => continue,
                (Delayed, _) => &[1, 100],
                _ => &[0],
            };
            for (timer, bits) in timers.iter().flat_map(|timer| {
                let timer = *timer;
                (0..1 << 13).map(move |bits: u16| (timer, bits))
            }) {
                let bit = |place: u16| bits >> place & 1;
                let words = Words {
                    values: bits & 3 | 4,
                    bad: bits >> 2 & 3,
                    mask: bits >> 4 & 3,
                    require_reset: bit(6),
                    reset_permit: bit(7),
                    start_permit: bit(8),
                    reset: bit(9),
                    force_permit: bit(10),
                    force_trip: bit(11),
                    force_normal: bit(12) & !bit(11),
                };
                let (settings, state) = (settings(delay), state(phase, timer));
                let reason = reason_after(&settings, &state, &words, 1).expect("accepted");
                let after = step(&settings, &state, &words).state.slots[0];
                let standing = (after.phase, after.timer);
                let first = *led.entry((phase, timer, reason)).or_insert(standing);
                assert_eq!(first, standing, "{phase:?} {timer} {reason:?}");
            }
        }
        assert!(led.len() >= 40, "{}", led.len());
    }
}

// ---- What the stream of reasons reaches ----

/// A reason without its numbers.
fn shape(reason: Reason) -> String {
    let words = reason.words();
    words
        .trim_end_matches(|last: char| last.is_ascii_digit() || last == ' ')
        .to_string()
}

/// Reason, deciding rule and state before, as far as the rules allow them.
fn possible_shapes() -> BTreeSet<(String, u8, Phase)> {
    let mut all = BTreeSet::new();
    let mut add = |words: &str, rule, phase| {
        all.insert((words.to_string(), rule, phase));
    };
    for phase in PHASES {
        add("forced tripped", 1, phase);
        add("forced normal", 2, phase);
        add("Bad", 3, phase);
    }
    for (phase, rule) in [Tripped, WaitReset, Ready, WaitStart, Normal]
        .into_iter()
        .zip(4..)
    {
        add("active", rule, phase);
    }
    for words in [
        "waiting reset permit",
        "waiting reset",
        "waiting start permit",
        "cleared",
    ] {
        add(words, 4, Tripped);
        add(words, 6, Ready);
    }
    for words in ["waiting reset permit", "waiting reset"] {
        add(words, 5, WaitReset);
    }
    for words in ["waiting start permit", "cleared"] {
        add(words, 7, WaitStart);
    }
    add("at rest", 8, Normal);
    for words in ["delay running", "delay ended"] {
        add(words, 9, Delayed);
    }
    all
}

/// In the stored stream, and in as many as are compared.
#[test]
fn every_reason_occurs_by_every_rule_from_every_state() {
    for cases in [&reasons()[..STORED], reasons()] {
        let mut seen = BTreeSet::new();
        for Named { case, .. } in cases {
            if let Ok(reason) = asked(case) {
                let scan = scan_of(case);
                seen.insert((shape(reason), scan.rule, scan.before.phase));
            }
        }
        assert_eq!(seen, possible_shapes());
    }
}

/// Things that stand beside each other in some stored case, for each state before.
#[test]
fn forces_bad_and_active_causes_occur_together() {
    let mut seen = BTreeSet::new();
    for Named { case, .. } in &reasons()[..STORED] {
        let Ok(reason) = asked(case) else {
            continue;
        };
        let scan = scan_of(case);
        let Inputs { seen: causes, .. } = scan.inputs;
        let beside = (causes.bad != 0, causes.active != 0);
        seen.insert((shape(reason), beside, scan.before.phase));
    }
    for phase in PHASES {
        for words in ["forced tripped", "forced normal"] {
            for beside in [(false, false), (false, true), (true, false), (true, true)] {
                assert!(seen.contains(&(words.to_string(), beside, phase)));
            }
        }
        for active in [false, true] {
            assert!(seen.contains(&("Bad".to_string(), (true, active), phase)));
        }
    }
    assert!(seen.contains(&("delay running".to_string(), (false, true), Delayed)));
    assert!(seen.contains(&("delay ended".to_string(), (false, true), Delayed)));
}

/// Several causes at once, causes that are not seen beside them, timers about the period, and delays.
#[test]
fn causes_timers_and_delays_occur() {
    let (mut several_bad, mut several_active, mut masked, mut elsewhere) = (0, 0, 0, 0);
    let mut timers = BTreeSet::new();
    let mut delays = BTreeSet::new();
    for Named { case, .. } in &reasons()[..STORED] {
        let Ok(reason) = asked(case) else {
            continue;
        };
        let effect = case.settings.slots[usize::from(case.effect) - 1];
        let scan = scan_of(case);
        let tripped = !case.words.values;
        match reason {
            Bad(causes) => {
                several_bad += usize::from(causes.count_ones() > 1);
                masked += usize::from(case.words.bad & case.words.mask & effect.association != 0);
                elsewhere += usize::from(case.words.bad & !effect.association != 0);
            }
            Active(causes) => {
                several_active += usize::from(causes.count_ones() > 1);
                masked += usize::from(tripped & case.words.mask & effect.association != 0);
                elsewhere += usize::from(tripped & !effect.association != 0);
                delays.insert((scan.before.phase, effect.delay == 0));
            }
            DelayRunning(_) | DelayEnded => {
                timers.insert(scan.before.timer.cmp(&u32::from(case.settings.period)));
            }
            _ => {}
        }
    }
    for times in [several_bad, several_active, masked, elsewhere] {
        assert!(
            times >= 20,
            "{several_bad} {several_active} {masked} {elsewhere}"
        );
    }
    assert_eq!(timers.len(), 3);
    assert_eq!(delays.len(), 10);
}

#[test]
fn planted_reasons_are_answered() {
    for (index, named) in reasons().iter().enumerate() {
        if let Some(planted) = &named.planted {
            let number = asked(&named.case).err();
            assert_eq!(
                number,
                planted.first().copied(),
                "case {} {}",
                index + 1,
                named.name
            );
        }
    }
}

/// The refusals of a case, whatever comes before them, by their places in the order and their numbers;
/// that of an absent effect comes last.
fn faults(case: &ReasonCase) -> Vec<(usize, u8)> {
    let row = Row {
        hold: 1,
        words: case.words,
    };
    let words = &row.words;
    let found = [
        !case.settings.block_is_right(),
        !case.settings.effects_are_right(),
        case.state.check(&case.settings).is_err(),
        !words.words_are_right(&case.settings),
        words.force_words_meet(),
        words.several_forced(&case.settings),
        case.state.scans_done >= 1_000_000_000,
        case.effect == 0 || case.effect > case.settings.effects,
    ];
    let numbers = ORDER.into_iter().chain([ABSENT]);
    let found = found.into_iter().zip(numbers).enumerate();
    found
        .filter(|(_, (wrong, _))| *wrong)
        .map(|(place, (_, number))| (place, number))
        .collect()
}

/// Each refusal is given first of every two, in the stored stream.
#[test]
fn every_pair_of_refusals_occurs() {
    let mut pairs = BTreeSet::new();
    for Named { case, .. } in &reasons()[..STORED] {
        let faults = faults(case);
        let first = faults.first().map(|(_, number)| *number);
        assert_eq!(asked(case).err(), first);
        for (position, one) in faults.iter().enumerate() {
            pairs.extend(faults[position + 1..].iter().map(|other| (one.0, other.0)));
        }
    }
    assert_eq!(pairs.len(), 28, "{pairs:?}");
}

#[test]
fn effects_about_the_count_occur() {
    let mut seen = BTreeSet::new();
    for Named { case, .. } in &reasons()[..STORED] {
        let last = case.state.scans_done == 1_000_000_000;
        let effect = match case.effect {
            0 => "0",
            255 => "255",
            effect if effect == case.settings.effects => "count",
            effect if effect == case.settings.effects.saturating_add(1) => "count + 1",
            _ => continue,
        };
        seen.insert((effect, last, asked(case).err()));
    }
    for effect in ["0", "255", "count + 1"] {
        assert!(seen.contains(&(effect, false, Some(3))));
        assert!(seen.contains(&(effect, true, Some(9))));
    }
    assert!(seen.contains(&("count", false, None)));
    assert!(seen.contains(&("count", true, Some(9))));
}

// ---- Pairs of forces, and Bad causes in twos ----

#[test]
fn every_pair_of_forces_is_asked_for() {
    for pair in pairs() {
        let case = pair.reason_case();
        let due = match (pair.force_trip == pair.force_normal, pair.options) {
            (true, _) => Err(5),
            (false, 0) => Err(6),
            (false, _) if pair.force_trip >> (case.effect - 1) & 1 == 1 => Ok(ForcedTripped),
            (false, _) => Ok(ForcedNormal),
        };
        assert_eq!(asked(&case), due, "{pair:?}");
    }
}

/// A Bad cause that is seen is the reason, unless a force counts.
#[test]
fn twos_differ_where_a_bad_cause_is_seen_and_nothing_is_forced() {
    for run in bad_runs() {
        let [clear, set] = run.reason_cases();
        assert_eq!(usize::from(set.effect), run.effect + 1);
        let has = |option| run.trial.options & option != 0;
        let seen = has(TRIP_IF_BAD) && !run.trial.masked && run.trial.associated;
        let counts = run.trial.permit == 1 || has(PERMIT_NOT_REQUIRED);
        let forced = counts && run.trial.force != Force::None;
        let differ = answer_reason(&clear) != answer_reason(&set);
        assert_eq!(differ, seen && !forced, "{run:?}");
        if differ {
            assert_eq!(asked(&set), Ok(Bad(run.causes().bad)));
        }
    }
}

/// A listing with reasons tells a Bad cause wherever one without reasons does, and besides where an
/// effect that is not forced trips by an active cause too.
#[test]
fn twos_of_files_differ_where_listings_do() {
    let (mut plain, mut with_reasons) = (0, 0);
    for file in bad_files() {
        let [clear, set] = file.files();
        let differ = answer_why(&clear) != answer_why(&set);
        let plainly = replay(&clear).text != replay(&set).text;
        assert!(differ || !plainly, "{file:?}");
        assert!(!file.trial.masked || !differ, "{file:?}");
        plain += usize::from(plainly);
        with_reasons += usize::from(differ);
    }
    assert_eq!((plain, with_reasons), (34, 34));
}

// ---- Listings with reasons and the text of their end ----

const LISTING: &str = "\
seq scan effect from to first reason
0 1 1 tripped normal 0 cleared
1 1 2 tripped normal 0 cleared
2 4 1 normal tripped 1 active 1
3 4 2 normal delayed 1 active 1
4 7 2 delayed tripped 1 delay ended
rows 2 scans 8 live 3 exercised 5
";
const NOW: &str = "\
effect state first reason
1 tripped 1 active 1
2 tripped 1 active 1
";

#[test]
fn session_gives_its_listing_and_its_end() {
    let session = bytes_of_hex(SESSION);
    let listing = replay_with_reasons(&session);
    assert_eq!(listing.text, LISTING);
    assert_eq!(now_text(&listing), NOW);
    assert_eq!(answer_why(&session), format!("{LISTING}\n{NOW}\n"));
    let cleared = "0700000000000000";
    let active = "0300000100000000";
    let ended = "0500000000000000";
    assert_eq!(
        reason_lines(&listing),
        format!("{cleared}{cleared}{active}{active}{ended}\n{active}{active}\n")
    );
}

/// Pump two is still off: it trips and waits for everything in turn.
#[test]
fn a_whole_way_round_with_its_reasons() {
    let row = |hold, words| Row { hold, words };
    let waiting = Words {
        require_reset: 1,
        ..quiet()
    };
    let permitted = Words {
        reset_permit: 1,
        reset: 1,
        ..waiting
    };
    let tripped = Words {
        values: 0,
        ..quiet()
    };
    let rows = [
        row(2, waiting),
        row(2, permitted),
        row(3, permitted),
        row(
            2,
            Words {
                start_permit: 1,
                ..waiting
            },
        ),
        row(1, tripped),
        row(2, tripped),
        row(2, waiting),
        row(1, Words { bad: 5, ..waiting }),
        row(
            2,
            Words {
                force_permit: 1,
                force_normal: 1,
                ..tripped
            },
        ),
        row(
            1,
            Words {
                force_permit: 1,
                force_trip: 1,
                ..tripped
            },
        ),
    ];
    let lines = [
        "0 1 1 tripped wait-reset 0 waiting reset permit",
        "1 3 1 wait-reset ready 0 waiting reset",
        "2 5 1 ready wait-start 0 waiting start permit",
        "3 8 1 wait-start normal 0 cleared",
        "4 10 1 normal delayed 3 active 3",
        "5 13 1 delayed tripped 3 delay ended",
        "6 14 1 tripped wait-reset 3 waiting reset permit",
        "7 15 1 wait-reset tripped 3 Bad 1",
        "8 16 1 tripped normal 0 forced normal",
        "9 18 1 normal tripped 3 forced tripped",
    ];
    let ends = [
        "wait-reset 0 waiting reset permit",
        "ready 0 waiting reset",
        "wait-start 0 waiting start permit",
        "normal 0 at rest",
        "delayed 3 active 3",
        "delayed 3 delay running 50",
        "wait-reset 3 waiting reset permit",
        "tripped 3 Bad 1",
        "normal 0 forced normal",
        "tripped 3 forced tripped",
    ];
    for (rows_done, end) in ends.iter().enumerate() {
        let file = file_of(&settings(250), &rows[..=rows_done]);
        let listing = replay_with_reasons(&file);
        let told: Vec<&str> = listing.text.lines().skip(1).collect();
        let records = told.len() - 1;
        assert_eq!(told[..records], lines[..records]);
        assert_eq!(
            now_text(&listing),
            format!("effect state first reason\n1 {end}\n")
        );
    }
}

/// Without its last column a listing with reasons is document 01's. The last column of an accepted one
/// has the records' reasons.
#[test]
fn listings_with_reasons_are_listings() {
    for named in whys() {
        let plain = replay(&named.case);
        let Listing {
            text,
            totals,
            reasons,
            now,
            refusal,
        } = replay_with_reasons(&named.case);
        assert_eq!((totals, refusal), (plain.totals, plain.refusal));
        assert_eq!(now.is_empty(), refusal.is_some());
        assert_eq!(text.lines().count(), plain.text.lines().count());
        let last_column: Vec<&str> = text
            .lines()
            .zip(plain.text.lines())
            .map(|(line, plain)| line.strip_prefix(plain).expect("the same columns before"))
            .collect();
        let words = reasons.iter().map(|reason| format!(" {}", reason.words()));
        let due: Vec<String> = [" reason".to_string()]
            .into_iter()
            .chain(words)
            .chain([String::new()])
            .collect();
        assert!(refusal.is_some() || last_column == due);
    }
}

/// A refused recording has only the line of its refusal as its end, by 9 too, whatever the listing has.
#[test]
fn a_refused_recording_has_one_line_as_its_end() {
    let mut numbers = BTreeSet::new();
    for named in whys() {
        let listing = replay_with_reasons(&named.case);
        if let Some(refusal) = listing.refusal {
            let line = format!("refused {} at {}\n", refusal.number, refusal.place);
            assert_eq!(now_text(&listing), line);
            assert_eq!(reason_lines(&listing), line);
            assert!(listing.text.ends_with(&line));
            numbers.insert(refusal.number);
        }
    }
    assert_eq!(numbers, BTreeSet::from([1, 2, 3, 4, 5, 6, 7, 9]));
}

/// Reasons with the states before and after, in records and at the end of the stored recordings.
#[test]
fn stored_recordings_reach_every_reason() {
    let (mut recorded, mut ended) = (BTreeSet::new(), BTreeSet::new());
    let mut milliseconds = BTreeSet::new();
    for named in &why_cases(1, STORED) {
        let Ok(recording) = second::recording::read(&named.case) else {
            continue;
        };
        let listing = replay_with_reasons(&named.case);
        if listing.refusal.is_some() {
            continue;
        }
        let mut state = State::default();
        for row in &recording.rows {
            let run = run_row(&recording.settings, &state, row);
            for change in &run.changes {
                recorded.insert((shape(change.reason), change.before));
            }
            state = run.state;
        }
        for now in &listing.now {
            ended.insert((shape(now.reason), now.slot.phase));
            if let DelayRunning(left) = now.reason {
                milliseconds.insert(left);
            }
        }
    }
    let named = |shapes: &[(&str, Phase)]| -> BTreeSet<(String, Phase)> {
        let named = shapes.iter();
        named
            .map(|(words, phase)| (words.to_string(), *phase))
            .collect()
    };
    let due = named(&[
        ("forced tripped", WaitReset),
        ("forced tripped", Ready),
        ("forced tripped", WaitStart),
        ("forced tripped", Normal),
        ("forced tripped", Delayed),
        ("forced normal", Tripped),
        ("forced normal", WaitReset),
        ("forced normal", Ready),
        ("forced normal", WaitStart),
        ("forced normal", Delayed),
        ("Bad", WaitReset),
        ("Bad", Ready),
        ("Bad", WaitStart),
        ("Bad", Normal),
        ("Bad", Delayed),
        ("active", WaitReset),
        ("active", Ready),
        ("active", WaitStart),
        ("active", Normal),
        ("delay ended", Delayed),
        ("waiting reset permit", Tripped),
        ("waiting reset permit", Ready),
        ("waiting reset", Tripped),
        ("waiting reset", WaitReset),
        ("waiting start permit", Tripped),
        ("waiting start permit", Ready),
        ("cleared", Tripped),
        ("cleared", Ready),
        ("cleared", WaitStart),
    ]);
    assert_eq!(recorded, due);
    let due = named(&[
        ("forced tripped", Tripped),
        ("forced normal", Normal),
        ("Bad", Tripped),
        ("active", Tripped),
        ("active", Delayed),
        ("delay running", Delayed),
        ("delay ended", Tripped),
        ("waiting reset permit", WaitReset),
        ("waiting reset", Ready),
        ("waiting start permit", WaitStart),
        ("cleared", Normal),
        ("at rest", Normal),
    ]);
    assert_eq!(ended, due);
    assert!(milliseconds.len() >= 100, "{}", milliseconds.len());
}

#[test]
fn kinds_are_named() {
    assert_eq!(Kind::named("reason"), Some(Kind::Reason));
    assert_eq!(Kind::named("why"), Some(Kind::Why));
}
