//! Scan and held cases.

use crate::block::{
    run, Phase, Row, Slot, State, Words, MAX_HOLD, MAX_SCANS, PHASES, RECORD_BYTES,
};
use crate::cases::{Kind, RunCase, MAX_RUN_ROOM};
use crate::make::{Named, Random};
use crate::settings::{
    existing, Effect, Settings, ALL_OPTIONS, MAX_DELAY, MAX_PERIOD, PERMIT_NOT_REQUIRED,
    SEVERAL_FORCED, SLOTS, TRIP_IF_BAD,
};

/// The refusals of a scan or held run in their order.
pub const ORDER: [u8; 8] = [2, 3, 8, 4, 5, 6, 9, 10];

/// How much room a case lends, measured by the records due.
#[derive(Clone, Copy, Debug, PartialEq, Eq)]
enum Room {
    Exact,
    Spare(u16),
    ByteShort,
    RecordShort,
    Zero,
}

/// The bytes of the records due by the rules, whatever else is wrong with the case.
fn due(case: &RunCase) -> u16 {
    let records = run(&case.settings, &case.state, &case.row).records.len();
    (RECORD_BYTES * records) as u16
}

fn room_of(case: &RunCase, room: Room) -> u16 {
    let due = due(case);
    let bytes = match room {
        Room::Exact => due,
        Room::Spare(spare) => due + spare,
        Room::ByteShort => due.saturating_sub(1),
        Room::RecordShort => due.saturating_sub(RECORD_BYTES as u16),
        Room::Zero => 0,
    };
    bytes.min(MAX_RUN_ROOM)
}

// ---- Cases to start from ----

/// An effect's state that keeps the rules: a Delayed one has half its delay left.
fn slot_in(phase: Phase, effect: &Effect) -> Slot {
    Slot {
        phase,
        timer: if phase == Phase::Delayed {
            effect.delay.div_ceil(2)
        } else {
            0
        },
        first_out: if phase == Phase::Normal {
            0
        } else {
            effect.association & 0x5555
        },
    }
}

/// Settings with every cause associated somewhere and delays of 0, 250 and 500.
fn plain_settings(causes: u8, effects: u8) -> Settings {
    let mut settings = Settings {
        causes,
        options: 0,
        period: 100,
        effects,
        ..Settings::default()
    };
    for index in 0..usize::from(effects) {
        settings.slots[index] = Effect {
            association: 1 << (index % usize::from(causes)) | 1,
            delay: [500, 250, 0][index % 3],
        };
    }
    settings
}

/// Quiet words with both permits for every effect.
fn plain_words(settings: &Settings) -> Words {
    Words {
        values: existing(settings.causes),
        reset_permit: existing(settings.effects),
        start_permit: existing(settings.effects),
        ..Words::default()
    }
}

/// A valid case in which the effects stand in all states (never Delayed without a delay).
pub fn plain(causes: u8, effects: u8) -> RunCase {
    let settings = plain_settings(causes, effects);
    let mut case = RunCase {
        settings,
        row: Row {
            hold: 1,
            words: plain_words(&settings),
        },
        ..RunCase::default()
    };
    for index in 0..usize::from(effects) {
        let phase = [
            Phase::Tripped,
            Phase::Delayed,
            Phase::WaitReset,
            Phase::Normal,
            Phase::WaitStart,
            Phase::Ready,
        ][index % 6];
        case.state.slots[index] = slot_in(phase, &settings.slots[index]);
    }
    case
}

/// The same with every effect in one state; the delay is 500 where Delayed is named.
pub fn all_in(phase: Phase, causes: u8, effects: u8) -> RunCase {
    let mut case = plain(causes, effects);
    for index in 0..usize::from(effects) {
        if phase == Phase::Delayed {
            case.settings.slots[index].delay = 500;
        }
        case.state.slots[index] = slot_in(phase, &case.settings.slots[index]);
    }
    case
}

/// Twelve effects: each state twice, without and with a delay.
pub fn all_states() -> RunCase {
    let mut case = plain(2, 12);
    for index in 0..12 {
        let phase = PHASES[index % 6];
        let delay = match (phase, index < 6) {
            (Phase::Delayed, true) => 350,
            (_, true) => 0,
            (_, false) => 500,
        };
        let effect = Effect {
            association: [1, 2, 3][index % 3],
            delay,
        };
        case.settings.slots[index] = effect;
        case.state.slots[index] = slot_in(phase, &effect);
    }
    case
}

/// The whole word if `set`, else 0.
pub fn word_if(set: bool, word: u16) -> u16 {
    if set {
        word
    } else {
        0
    }
}

// ---- The list ----

struct List {
    kind: Kind,
    cases: Vec<Named<RunCase>>,
}

impl List {
    /// Adds a case as it is.
    fn add_exactly(&mut self, name: &str, planted: &[u8], mut case: RunCase, room: Room) {
        if self.kind == Kind::Scan {
            case.row.hold = 1;
        }
        case.room = room_of(&case, room);
        self.cases.push(Named {
            name: name.to_string(),
            planted: Some(planted.to_vec()),
            case,
        });
    }

    /// Adds a case; for held runs its hold of 1 becomes one of a few.
    fn add(&mut self, name: &str, planted: &[u8], mut case: RunCase) {
        if case.row.hold == 1 && case.state.scans_done < MAX_SCANS - 100 {
            case.row.hold = [1, 2, 3, 7][self.cases.len() % 4];
        }
        let room = [Room::Exact, Room::Spare(5), Room::Spare(12)][self.cases.len() % 3];
        self.add_exactly(name, planted, case, room);
    }

    /// `add`, with the refusal `number` planted if `wrong`.
    fn add_if(&mut self, name: &str, wrong: bool, number: u8, case: RunCase) {
        if wrong {
            self.add(name, &[number], case);
        } else {
            self.add(name, &[], case);
        }
    }
}

// ---- The corner table and the rules ----

/// P1 to P12: one cause, one effect, period 100, quiet. P12 has two rows, without and with start
/// permit (document 02, L3).
fn corner_table(list: &mut List) {
    let corner = |phase: Phase, delay: u32, timer: u32| {
        let mut case = RunCase::default();
        case.settings.causes = 1;
        case.settings.period = 100;
        case.settings.effects = 1;
        case.settings.slots[0] = Effect {
            association: 1,
            delay,
        };
        case.state.slots[0] = Slot {
            phase,
            timer,
            first_out: 0,
        };
        case.row.hold = 1;
        case.row.words.values = 1;
        case
    };
    let mut add = |name: &str, case: RunCase| list.add_exactly(name, &[], case, Room::Spare(3));
    let mut case = corner(Phase::Tripped, 0, 0);
    case.row.words.start_permit = 1;
    add("P1", case);
    add("P2", corner(Phase::Tripped, 0, 0));
    let mut case = corner(Phase::Tripped, 0, 0);
    case.row.words.require_reset = 1;
    add("P3", case);
    case.row.words.reset_permit = 1;
    add("P4", case);
    let mut case = corner(Phase::Ready, 0, 0);
    case.row.words.reset = 1;
    add("P6", case);
    case.row.words.reset_permit = 1;
    add("P5", case);
    let mut case = corner(Phase::WaitReset, 0, 0);
    case.row.words.reset_permit = 1;
    add("P7", case);
    let mut case = corner(Phase::Normal, 0, 0);
    case.row.words.values = 0;
    add("P8", case);
    add("P9", corner(Phase::Delayed, 500, 100));
    add("P10", corner(Phase::Delayed, 500, 101));
    let mut case = corner(Phase::Delayed, 500, 300);
    case.row.words.force_permit = 1;
    case.row.words.force_normal = 1;
    add("P11", case);
    let mut case = corner(Phase::Tripped, 0, 0);
    case.settings.options = TRIP_IF_BAD;
    case.row.words.bad = 1;
    case.row.words.mask = 1;
    add("P12", case);
    case.row.words.start_permit = 1;
    add("P12", case);
}

/// Rules 4 to 9: every state with every set of inputs.
fn rules(list: &mut List) {
    for inputs in 0..32 {
        let mut case = all_states();
        let all = existing(case.settings.effects);
        let words = &mut case.row.words;
        words.values = word_if(inputs & 1 == 0, 3);
        words.require_reset = word_if(inputs & 2 != 0, all);
        words.reset_permit = word_if(inputs & 4 != 0, all);
        words.start_permit = word_if(inputs & 8 != 0, all);
        words.reset = word_if(inputs & 16 != 0, all);
        for hold in [1, 2, 3, 6] {
            case.row.hold = hold;
            if hold == 1 || list.kind == Kind::Held {
                list.add_exactly("rules 4 to 9", &[], case, Room::Spare(4));
            }
        }
    }
}

/// Rules 1 to 3: every effect forced at once, with and without permit and Bad.
fn forces(list: &mut List) {
    for inputs in 0..48 {
        let mut case = all_states();
        let all = existing(case.settings.effects);
        case.settings.options = SEVERAL_FORCED;
        if inputs & 1 != 0 {
            case.settings.options |= PERMIT_NOT_REQUIRED;
        }
        let words = &mut case.row.words;
        words.force_permit = word_if(inputs & 2 != 0, 1);
        words.values = word_if(inputs & 4 == 0, 3);
        words.force_trip = word_if(inputs & 8 == 0, all);
        words.force_normal = word_if(inputs & 8 != 0, all);
        let bad = inputs / 16;
        words.bad = word_if(bad > 0, 2);
        if bad > 1 {
            case.settings.options |= TRIP_IF_BAD;
        }
        list.add("rules 1 to 3", &[], case);
    }
}

/// One effect forced, without option bit 2.
fn single_forces(list: &mut List) {
    for index in 0..12 {
        for inputs in 0..4 {
            let mut case = all_states();
            let words = &mut case.row.words;
            words.values = [3, 2][index % 2];
            words.force_permit = inputs & 1;
            words.force_trip = word_if(inputs & 2 == 0, 1 << index);
            words.force_normal = word_if(inputs & 2 != 0, 1 << index);
            list.add("one effect forced", &[], case);
        }
    }
}

/// Each state twice: the first six effects see cause 1, the others cause 2, and none sees cause 3.
/// All see cause 4, which is the first-out of those that are not in Normal.
fn all_states_apart() -> RunCase {
    let kept = 8;
    let mut case = all_states();
    case.settings.causes = 4;
    for index in 0..12 {
        let slot = &mut case.state.slots[index];
        case.settings.slots[index].association = kept | if index < 6 { 1 } else { 2 };
        slot.first_out = word_if(slot.phase != Phase::Normal, kept);
    }
    case
}

/// Bad causes: masked or not, seen by some effects or by none, beside quiet and tripped causes, with
/// and without bit 0; no effect is forced, or every one.
fn bad_causes(list: &mut List) {
    for inputs in 0..24 {
        for bad in [1, 2, 4] {
            let mut case = all_states_apart();
            let all = existing(case.settings.effects);
            case.settings.options = SEVERAL_FORCED;
            if inputs & 1 != 0 {
                case.settings.options |= TRIP_IF_BAD;
            }
            let words = &mut case.row.words;
            words.bad = bad;
            words.mask = word_if(inputs & 2 != 0, bad);
            words.values = word_if(inputs & 4 == 0, 15);
            words.force_permit = 1;
            let force = inputs / 8;
            words.force_trip = word_if(force == 1, all);
            words.force_normal = word_if(force == 2, all);
            list.add("Bad", &[], case);
        }
    }
}

/// Every Bad word and mask of three causes, of which the second is tripped, with every association.
fn bad_words(list: &mut List) {
    for inputs in 0..64 {
        let mut case = every_association();
        case.settings.options = TRIP_IF_BAD;
        case.row.words.values = 5;
        case.row.words.bad = inputs & 7;
        case.row.words.mask = inputs >> 3;
        list.add("Bad words", &[], case);
    }
}

/// Three causes, and an effect in Normal for every association.
fn every_association() -> RunCase {
    let mut case = all_in(Phase::Normal, 3, 7);
    for index in 0..7 {
        case.settings.slots[index].association = index as u16 + 1;
    }
    case
}

/// Every value and mask of three causes, with every association.
fn masks(list: &mut List) {
    for inputs in 0..64 {
        let mut case = every_association();
        case.row.words.values = inputs & 7;
        case.row.words.mask = inputs >> 3;
        list.add("active words", &[], case);
    }
}

/// One bit at a time of every word, over 16 causes and 16 effects.
fn single_bits(list: &mut List) {
    for index in 0..SLOTS {
        let bit = 1 << index;
        let mut case = all_in(Phase::Normal, 16, 16);
        for slot in 0..SLOTS {
            case.settings.slots[slot].association = 1 << slot;
        }
        let mut tripped = case;
        tripped.row.words.values = !bit;
        list.add("one cause tripped", &[], tripped);
        let mut masked = case;
        masked.row.words.values = 0;
        masked.row.words.mask = !bit;
        list.add("one cause not masked", &[], masked);
        let mut bad = case;
        bad.settings.options = TRIP_IF_BAD;
        bad.row.words.bad = bit;
        list.add("one cause Bad", &[], bad);
        let mut forced = case;
        forced.row.words.force_permit = 1;
        forced.row.words.force_trip = bit;
        list.add("one effect forced to trip", &[], forced);

        let mut tripped = all_in(Phase::Tripped, 16, 16);
        tripped.row.words.require_reset = bit;
        list.add("one effect requires reset", &[], tripped);
        tripped.row.words.require_reset = 0;
        tripped.row.words.start_permit = bit;
        list.add("one effect with start permit", &[], tripped);
        tripped.row.words.values = 0;
        tripped.row.words.force_permit = 1;
        tripped.row.words.force_normal = bit;
        list.add("one effect forced to normal", &[], tripped);
        let mut waiting = all_in(Phase::WaitReset, 16, 16);
        waiting.row.words.reset_permit = bit;
        list.add("one effect with reset permit", &[], waiting);
        let mut ready = all_in(Phase::Ready, 16, 16);
        ready.row.words.reset = bit;
        list.add("one effect reset", &[], ready);
    }
}

/// First-out on every way out of Normal, with several causes, one or none.
fn first_outs(list: &mut List) {
    for values in [7, 6, 2, 0] {
        for way in 0..4 {
            let mut case = all_in(Phase::Normal, 3, 6);
            case.settings.options = SEVERAL_FORCED | TRIP_IF_BAD;
            let words = &mut case.row.words;
            words.values = values;
            words.force_permit = 1;
            match way {
                0 => {}
                1 => words.force_trip = existing(6),
                2 => words.bad = 2,
                _ => words.force_normal = existing(6),
            }
            list.add("first-out out of Normal", &[], case);
        }
        let mut case = all_in(Phase::Delayed, 3, 6);
        case.row.words.values = values;
        list.add("first-out does not grow", &[], case);
    }
}

// ---- Limits of every field ----

fn settings_limits(list: &mut List) {
    for causes in [0, 17, 18, 255] {
        let mut case = plain(3, 3);
        case.settings.causes = causes;
        list.add("cause count", &[2], case);
    }
    for (causes, effects) in [(1, 1), (1, 16), (16, 1), (15, 15), (16, 16)] {
        list.add("counts", &[], plain(causes, effects));
    }
    for options in [0, 1, 2, 3, 4, 5, 6, 7, 8, 9, 16, 32, 64, 128, 255] {
        let mut case = plain(3, 3);
        case.settings.options = options;
        list.add_if("options", options > ALL_OPTIONS, 2, case);
    }
    for period in [0, 1, 2, 999, 1_000, 1_001, 1_002, 65_535] {
        let mut case = plain(3, 4);
        case.settings.period = period;
        list.add_if("period", period == 0 || period > MAX_PERIOD, 2, case);
    }
    for effects in [0, 2, 4, 17, 18, 255] {
        let mut case = plain(3, 3);
        case.settings.effects = effects;
        list.add("effect count", &[3], case);
        let mut case = plain(3, 16);
        case.settings.effects = effects;
        list.add("effect count over full slots", &[3], case);
    }
    // Zero slots and a fresh state, so that nothing but the count is wrong.
    list.add("no effect", &[3], plain(3, 0));
}

fn effect_limits(list: &mut List) {
    for index in 0..SLOTS {
        let associations: [(u16, bool); 5] = [
            (0, true),
            (1 << 4, false),
            (1 << 5, true),
            (0x8001, true),
            (0x001f, false),
        ];
        for (association, wrong) in associations {
            let mut case = plain(5, 16);
            case.settings.slots[index].association = association;
            case.state.slots[index].first_out = 0;
            list.add_if("association", wrong, 3, case);
        }
        for delay in [MAX_DELAY - 1, MAX_DELAY, MAX_DELAY + 1, u32::MAX] {
            let mut case = plain(5, 16);
            case.settings.slots[index].delay = delay;
            list.add_if("delay", delay > MAX_DELAY, 3, case);
        }
        if index >= 3 {
            let mut case = plain(5, 3);
            case.settings.slots[index].association = 1;
            list.add("association past the count", &[3], case);
            let mut case = plain(5, 3);
            case.settings.slots[index].delay = 1;
            list.add("delay past the count", &[3], case);
        }
    }
}

fn timer_limits(list: &mut List) {
    for index in 0..SLOTS {
        for (timer, wrong) in [
            (0, true),
            (1, false),
            (499, false),
            (500, false),
            (501, true),
            (u32::MAX, true),
        ] {
            let mut case = plain(5, 16);
            case.settings.slots[index].delay = 500;
            case.state.slots[index].phase = Phase::Delayed;
            case.state.slots[index].timer = timer;
            list.add_if("timer in Delayed", wrong, 8, case);
        }
        let mut case = plain(5, 16);
        case.settings.slots[index].delay = 500;
        case.state.slots[index] = Slot {
            phase: PHASES[index % 5],
            timer: 1,
            first_out: 0,
        };
        list.add("timer outside Delayed", &[8], case);
    }
    for timer in [0, 1] {
        let mut case = plain(1, 1);
        case.settings.slots[0].delay = 0;
        case.state.slots[0].phase = Phase::Delayed;
        case.state.slots[0].timer = timer;
        list.add("Delayed without a delay", &[8], case);
    }
}

fn first_out_limits(list: &mut List) {
    for index in 0..SLOTS {
        let mut case = plain(5, 16);
        let association = case.settings.slots[index].association;
        let phase = [
            Phase::Tripped,
            Phase::WaitReset,
            Phase::Ready,
            Phase::WaitStart,
        ][index % 4];
        case.state.slots[index] = Slot {
            phase,
            timer: 0,
            first_out: association,
        };
        list.add("first-out at its limit", &[], case);
        case.state.slots[index].first_out = !association & existing(5) & 0x0c;
        list.add("first-out of another cause", &[8], case);
        case.state.slots[index].first_out = association | 0x8000;
        list.add("first-out of an absent cause", &[8], case);
        case.state.slots[index].phase = Phase::Normal;
        case.state.slots[index].first_out = 1;
        list.add("first-out in Normal", &[8], case);
    }
    let mut case = all_in(Phase::Delayed, 5, 2);
    case.state.slots[1].first_out = 4;
    list.add("first-out in Delayed", &[8], case);
}

fn limits_past_the_count(list: &mut List) {
    for index in 3..SLOTS {
        let mut case = plain(5, 3);
        case.state.slots[index].phase = PHASES[1 + index % 5];
        list.add("state past the count", &[8], case);
        let mut case = plain(5, 3);
        case.state.slots[index].timer = 1;
        list.add("timer past the count", &[8], case);
        let mut case = plain(5, 3);
        case.state.slots[index].first_out = 1;
        list.add("first-out past the count", &[8], case);
    }
}

fn scan_number_limits(list: &mut List) {
    for (scans_done, hold, planted) in [
        (0, 1, &[][..]),
        (MAX_SCANS - 2, 1, &[]),
        (MAX_SCANS - 1, 1, &[]),
        (MAX_SCANS, 1, &[9]),
        (MAX_SCANS + 1, 1, &[8, 9]),
        (u32::MAX, 1, &[8, 9]),
    ] {
        let mut case = plain(3, 6);
        case.state.scans_done = scans_done;
        case.row.hold = hold;
        list.add_exactly("scans done", planted, case, Room::Spare(1));
        let mut case = all_in(Phase::Normal, 3, 2);
        case.state.scans_done = scans_done;
        case.row.hold = hold;
        list.add_exactly("scans done with no record", planted, case, Room::Zero);
    }
}

fn sequence_limits(list: &mut List) {
    for sequence in [0, 1, 255, 65_519, 65_520, 65_521, 65_533, 65_534, 65_535] {
        let mut case = all_in(Phase::Tripped, 3, 16);
        case.state.next_sequence = sequence;
        list.add("sequence number", &[], case);
        let mut case = all_in(Phase::WaitStart, 3, 1);
        case.state.next_sequence = sequence;
        list.add("sequence number of one record", &[], case);
    }
}

/// Sets the word with the index `word` (in document 01's order).
fn set_word(case: &mut RunCase, word: usize, value: u16) {
    let mut words = case.row.words.to_array();
    words[word] = value;
    case.row.words = Words::from_array(words);
}

fn word_limits(list: &mut List) {
    for word in (0..10).filter(|word| *word != 7) {
        for (causes, effects) in [(5, 5), (5, 16), (16, 5), (1, 1), (16, 16)] {
            let count = if word < 3 { causes } else { effects };
            for value in [1 << (count - 1), 1 << (count % 16), 0x8000, 0xffff] {
                let mut case = plain(causes, effects);
                case.settings.options = SEVERAL_FORCED;
                set_word(&mut case, word, value);
                let wrong = value & !existing(count) != 0;
                list.add_if("word", wrong, 4, case);
            }
        }
    }
    for permit in [0, 1, 2, 3, 255, 256, 257, 0x8000, 0xffff] {
        let mut case = plain(16, 16);
        case.row.words.force_permit = permit;
        list.add_if("force permit", permit > 1, 4, case);
    }
}

fn force_conflicts(list: &mut List) {
    for permit in [0, 1] {
        for (trip, normal, options, planted) in [
            (0, 0, 0, &[][..]),
            (1, 0, 0, &[]),
            (0, 4, 0, &[]),
            (1, 1, 0, &[5]),
            (1, 1, SEVERAL_FORCED, &[5]),
            (3, 1, 0, &[5, 6]),
            (3, 6, SEVERAL_FORCED, &[5]),
            (3, 0, 0, &[6]),
            (0, 3, PERMIT_NOT_REQUIRED, &[6]),
            (1, 2, TRIP_IF_BAD, &[6]),
            (1, 2, SEVERAL_FORCED, &[]),
            (3, 4, ALL_OPTIONS, &[]),
        ] {
            let mut case = plain(3, 3);
            case.settings.options = options;
            case.row.words.force_permit = permit;
            case.row.words.force_trip = trip;
            case.row.words.force_normal = normal;
            list.add("force words", planted, case);
        }
    }
}

fn rooms(list: &mut List) {
    for effects in [1, 2, 3, 16] {
        let case = all_in(Phase::Tripped, 3, effects);
        for (room, planted) in [
            (Room::Exact, &[][..]),
            (Room::Spare(1), &[]),
            (Room::Spare(11), &[]),
            (Room::Spare(12), &[]),
            (Room::Spare(40), &[]),
            (Room::ByteShort, &[10]),
            (Room::RecordShort, &[10]),
            (Room::Zero, &[10]),
        ] {
            list.add_exactly("room", planted, case, room);
        }
    }
    let case = all_in(Phase::Normal, 3, 3);
    for room in [Room::Zero, Room::Spare(1), Room::Spare(MAX_RUN_ROOM)] {
        list.add_exactly("room with nothing due", &[], case, room);
    }
}

// ---- Pairs of faults ----

/// Plants one refusal. Refusal 10 is planted by the room.
pub fn plant(number: u8, variant: usize, case: &mut RunCase) {
    match number {
        2 => match variant {
            0 => case.settings.options |= 8,
            1 => case.settings.period = 0,
            _ => case.settings.period = 1_001,
        },
        3 => match variant {
            0 => case.settings.slots[0].delay = MAX_DELAY + 1,
            1 => case.settings.slots[1].association |= 1 << 3,
            _ => case.settings.slots[9].delay = 1,
        },
        8 => match variant {
            0 => case.state.slots[0].timer = 1,
            1 => case.state.slots[0].first_out = 4,
            _ => case.state.slots[9].phase = Phase::WaitStart,
        },
        4 => match variant {
            0 => case.row.words.values |= 1 << 3,
            1 => case.row.words.reset |= 1 << 4,
            _ => case.row.words.force_permit = 2,
        },
        5 => {
            case.settings.options |= SEVERAL_FORCED;
            case.row.words.force_trip |= 1;
            case.row.words.force_normal |= 1;
        }
        6 => {
            case.settings.options &= !SEVERAL_FORCED;
            case.row.words.force_trip |= 1;
            case.row.words.force_normal |= 2;
        }
        _ => case.state.scans_done = MAX_SCANS.saturating_sub(case.row.hold) + 1,
    }
}

/// The room of a case with the faults `first` and `second`.
fn room_with(first: u8, second: u8, variant: usize) -> Room {
    if first != 10 && second != 10 {
        return Room::Spare(2);
    }
    [Room::ByteShort, Room::RecordShort, Room::Zero][variant]
}

/// Each refusal alone and each pair at once. Every pair of the eight can be made: records
/// are due by the rules even where something else is wrong. Only a hold of 0 (refusal 4 in
/// a held run) has no scan, so it stands with no refusal 10.
fn fault_pairs(list: &mut List) {
    for (position, first) in ORDER.iter().enumerate() {
        for second in &ORDER[position..] {
            for variant in 0..3 {
                let mut case = all_in(Phase::Tripped, 3, 4);
                case.row.hold = if list.kind == Kind::Held { 3 } else { 1 };
                // 6 clears the option bit that 5 sets, so 5 goes first.
                for number in [*first, *second] {
                    if number != 10 {
                        plant(number, variant, &mut case);
                    }
                }
                let room = room_with(*first, *second, variant);
                list.add_exactly("faults", &[*first, *second], case, room);
            }
        }
    }
}

// ---- Held runs ----

fn hold_limits(list: &mut List) {
    for (hold, planted) in [
        (0, &[4][..]),
        (1, &[]),
        (2, &[]),
        (MAX_HOLD - 1, &[]),
        (MAX_HOLD, &[]),
        (MAX_HOLD + 1, &[4]),
    ] {
        let mut case = plain(1, 2);
        case.row.hold = hold;
        list.add_exactly("hold", planted, case, Room::Spare(24));
    }
    // Not by `add_exactly`, which would step so long a hold to measure the room.
    let mut case = plain(1, 2);
    case.row.hold = u32::MAX;
    case.room = 24;
    list.cases.push(Named {
        name: "hold".to_string(),
        planted: Some(vec![4]),
        case,
    });
}

/// A wrong hold with each other refusal.
fn hold_fault_pairs(list: &mut List) {
    for second in ORDER {
        for hold in [0, MAX_HOLD + 1] {
            if second == 4 || (second == 10 && hold == 0) {
                continue;
            }
            let mut case = all_in(Phase::Tripped, 3, 4);
            case.row.hold = 1;
            if second == 9 {
                case.state.scans_done = MAX_SCANS - hold + 1;
            } else if second != 10 {
                plant(second, 0, &mut case);
            }
            case.row.hold = hold;
            // 0 scans above 1,000,000,000 need a state that is wrong itself.
            let planted: &[u8] = if second == 9 && hold == 0 {
                &[8, 4, 9]
            } else {
                &[4, second]
            };
            list.add_exactly(
                "hold and another fault",
                planted,
                case,
                room_with(4, second, 0),
            );
        }
    }
}

fn run_end_limits(list: &mut List) {
    for (scans_done, hold, planted) in [
        (999_999_999, 1, &[][..]),
        (999_999_999, 2, &[9]),
        (999_999_998, 2, &[]),
        (1_000_000_000, 1, &[9]),
        (999_999_990, 10, &[]),
        (999_999_990, 11, &[9]),
        (999_000_000, 1_000_000, &[]),
        (999_000_001, 1_000_000, &[9]),
        (MAX_SCANS, MAX_HOLD, &[9]),
    ] {
        let mut case = plain(2, 2);
        case.state.scans_done = scans_done;
        case.row.hold = hold;
        list.add_exactly("end of the scan numbers", planted, case, Room::Spare(2));
    }
}

/// Ten timers about multiples of the period, with quiet and active rows.
fn timers(list: &mut List) {
    for period in [1, 7, 100, 1_000] {
        for hold in [1, 2, 3, 4, 9, 10, 11, 12, 13, 40] {
            for row in 0..3 {
                let mut case = all_in(Phase::Delayed, 1, 10);
                case.settings.period = period;
                let period = u32::from(period);
                let near = [
                    1,
                    period.saturating_sub(1).max(1),
                    period,
                    period + 1,
                    2 * period - 1,
                    2 * period,
                    2 * period + 1,
                    10 * period - 1,
                    10 * period,
                    10 * period + 1,
                ];
                for (index, timer) in near.into_iter().enumerate() {
                    case.settings.slots[index].delay = 20 * period;
                    case.state.slots[index].timer = timer;
                }
                case.row.hold = hold;
                match row {
                    0 => {}
                    1 => case.row.words.require_reset = existing(10),
                    _ => case.row.words.values = 0,
                }
                list.add_exactly("timers", &[], case, Room::Spare(7));
            }
        }
    }
}

/// Normal to Delayed to Tripped inside one run, for holds about the end.
fn whole_delays(list: &mut List) {
    for (delay, period) in [
        (1, 100),
        (100, 100),
        (101, 100),
        (250, 100),
        (300, 100),
        (7, 3),
    ] {
        let scans = u32::div_ceil(delay, u32::from(period));
        for hold in [1, scans, scans + 1, scans + 2, scans + 50] {
            let mut case = all_in(Phase::Normal, 2, 3);
            case.settings.period = period;
            case.settings.slots[0].delay = delay;
            case.settings.slots[1].delay = delay + 1;
            case.settings.slots[2].delay = 0;
            case.row.words.values = 0;
            case.row.hold = hold;
            list.add_exactly("whole delay", &[], case, Room::Exact);
        }
    }
}

/// A few runs of up to the longest hold.
fn long_runs(list: &mut List) {
    for (period, hold) in [
        (1, 1_000_000),
        (3, 1_000_000),
        (4, 900_000),
        (4, 900_001),
        (4, 1_000_000),
        (1_000, 1_000_000),
    ] {
        let mut case = all_in(Phase::Normal, 1, 2);
        case.settings.period = period;
        case.settings.slots[0].delay = MAX_DELAY;
        case.settings.slots[1].delay = MAX_DELAY - 1;
        case.row.words.values = 0;
        case.row.hold = hold;
        list.add_exactly("longest delay", &[], case, Room::Exact);
    }
}

/// A held reset: it counts in the first scan alone.
fn held_resets(list: &mut List) {
    for phase in [
        Phase::Tripped,
        Phase::WaitReset,
        Phase::Ready,
        Phase::Delayed,
    ] {
        for start_permit in [0, 3] {
            for hold in [1, 2, 3, 10] {
                let mut case = all_in(phase, 2, 2);
                case.row.words.require_reset = 3;
                case.row.words.reset = 3;
                case.row.words.start_permit = start_permit;
                case.row.hold = hold;
                list.add_exactly("held reset", &[], case, Room::Exact);
            }
        }
    }
}

/// Rows that are exercised and rows that are not.
fn exercised_rows(list: &mut List) {
    for (values, mask, bad) in [
        (0, 7, 0),
        (0, 3, 0),
        (6, 1, 0),
        (6, 2, 0),
        (3, 0, 0),
        (7, 0, 7),
        (7, 0, 0),
        (0, 0, 7),
        (7, 3, 7),
        (7, 1, 1),
        (7, 0, 2),
        (7, 1, 3),
        (7, 0, 4),
    ] {
        for options in [0, TRIP_IF_BAD] {
            let mut case = all_in(Phase::Normal, 3, 2);
            case.settings.options = options;
            case.settings.slots[0].association = 1;
            case.settings.slots[1].association = 3;
            case.row.words.values = values;
            case.row.words.mask = mask;
            case.row.words.bad = bad;
            case.row.hold = 9;
            list.add_exactly("exercised", &[], case, Room::Spare(1));
        }
    }
}

fn held_rooms(list: &mut List) {
    for (room, planted) in [
        (Room::Exact, &[][..]),
        (Room::Spare(13), &[]),
        (Room::ByteShort, &[10]),
        (Room::RecordShort, &[10]),
        (Room::Zero, &[10]),
    ] {
        let mut case = all_in(Phase::Delayed, 3, 16);
        case.row.words.require_reset = 0x00ff;
        case.row.hold = 20;
        case.state.next_sequence = 65_520;
        list.add_exactly("room of 32 records", planted, case, room);
    }
}

// ---- Random cases ----

pub fn random_settings(random: &mut Random) -> Settings {
    let causes = pick_count(random);
    let effects = pick_count(random);
    let mut settings = Settings {
        causes,
        options: random.between(0, 7) as u8,
        period: random.pick(&[1, 2, 7, 50, 100, 100, 250, 999, 1_000]),
        effects,
        ..Settings::default()
    };
    for index in 0..usize::from(effects) {
        let mut association = random.word() & existing(causes);
        if random.once_in(2) {
            association &= random.word();
        }
        if association == 0 {
            association = 1 << random.between(0, u32::from(causes) - 1);
        }
        settings.slots[index] = Effect {
            association,
            delay: random_delay(random, u32::from(settings.period)),
        };
    }
    settings
}

fn pick_count(random: &mut Random) -> u8 {
    if random.once_in(3) {
        random.between(1, 16) as u8
    } else {
        random.between(1, 5) as u8
    }
}

fn random_delay(random: &mut Random, period: u32) -> u32 {
    let multiple = period * random.between(1, 12);
    match random.between(0, 9) {
        0..=2 => 0,
        3 => multiple - 1,
        4 => multiple,
        5 => multiple + 1,
        6 => MAX_DELAY,
        7 => random.between(0, MAX_DELAY),
        _ => random.between(1, 5_000),
    }
}

fn random_slot(random: &mut Random, effect: &Effect, period: u32) -> Slot {
    let mut phase = random.pick(&PHASES);
    if effect.delay == 0 && phase == Phase::Delayed {
        phase = Phase::Normal;
    }
    let multiple = period * random.between(0, 4) + random.between(0, 2);
    let timer = match phase {
        Phase::Delayed if random.once_in(2) => random.between(1, effect.delay),
        Phase::Delayed => multiple.clamp(2, effect.delay + 1) - 1,
        _ => 0,
    };
    let first_out = match phase {
        Phase::Normal => 0,
        _ => effect.association & random.word(),
    };
    Slot {
        phase,
        timer,
        first_out,
    }
}

fn random_state(random: &mut Random, settings: &Settings) -> State {
    let mut state = State {
        scans_done: random.between(0, 900_000_000),
        next_sequence: random.word(),
        ..State::default()
    };
    if random.once_in(4) {
        state.scans_done = random.between(0, 50);
    }
    if random.once_in(4) {
        state.next_sequence = random.between(65_525, 65_535) as u16;
    }
    for index in 0..usize::from(settings.effects) {
        let period = u32::from(settings.period);
        state.slots[index] = random_slot(random, &settings.slots[index], period);
    }
    state
}

pub fn random_words(random: &mut Random, settings: &Settings) -> Words {
    let causes = existing(settings.causes);
    let effects = existing(settings.effects);
    let mut words = Words {
        values: causes,
        require_reset: random.word() & effects,
        reset_permit: (random.word() | random.word()) & effects,
        start_permit: random.word() & effects,
        reset: random.word() & effects,
        ..Words::default()
    };
    if random.once_in(2) {
        words.values &= random.word() | random.word();
    }
    if random.once_in(3) {
        words.mask = random.sparse() & causes;
    }
    if random.once_in(3) {
        random_bad(random, settings, &mut words);
    }
    if random.once_in(3) {
        random_forces(random, settings, &mut words);
    }
    words
}

/// One Bad cause or more, of which now and then some are masked.
pub fn random_bad(random: &mut Random, settings: &Settings, words: &mut Words) {
    let one = 1 << random.between(0, u32::from(settings.causes) - 1);
    words.bad = random.sparse() & random.word() & existing(settings.causes) | one;
    if random.once_in(2) {
        words.mask |= words.bad & random.word();
    }
}

pub fn random_forces(random: &mut Random, settings: &Settings, words: &mut Words) {
    let effects = existing(settings.effects);
    words.force_permit = random.between(0, 1) as u16;
    if settings.has_option(SEVERAL_FORCED) {
        words.force_trip = random.sparse() & effects;
        words.force_normal = random.sparse() & effects & !words.force_trip;
    } else {
        let bit = 1 << random.between(0, u32::from(settings.effects) - 1);
        if random.once_in(2) {
            words.force_trip = bit;
        } else {
            words.force_normal = bit;
        }
    }
}

pub fn random_hold(random: &mut Random) -> u32 {
    match random.between(0, 199) {
        0 => random.between(2_000, MAX_HOLD),
        1..=120 => random.between(1, 5),
        121..=180 => random.between(1, 60),
        _ => random.between(1, 2_000),
    }
}

/// A number near a limit, or any number.
fn wild(random: &mut Random) -> u32 {
    let near = random.pick(&[
        0, 1, 15, 16, 17, 255, 1_000, 2_048, 65_535, MAX_HOLD, MAX_DELAY, MAX_SCANS,
    ]);
    match random.between(0, 3) {
        0 => near,
        1 => near + 1,
        2 => 1 << random.between(0, 31),
        _ => random.number() as u32,
    }
}

/// Overwrites one field, or plants one refusal. The case may still be valid after it.
fn damage(random: &mut Random, case: &mut RunCase) {
    let index = random.between(0, SLOTS as u32 - 1) as usize;
    let number = wild(random);
    match random.between(0, 13) {
        0 => case.settings.causes = number as u8,
        1 => case.settings.options = number as u8,
        2 => case.settings.period = number as u16,
        3 => case.settings.effects = number as u8,
        4 => case.settings.slots[index].association = number as u16,
        5 => case.settings.slots[index].delay = number,
        6 => case.state.scans_done = number,
        7 => case.state.slots[index].phase = random.pick(&PHASES),
        8 => case.state.slots[index].timer = number,
        9 => case.state.slots[index].first_out = number as u16,
        10 => set_word(case, random.between(0, 9) as usize, number as u16),
        11 => case.state.scans_done = MAX_SCANS - case.row.hold.min(MAX_HOLD) + number % 2,
        12 => case.row.hold = random.pick(&[0, MAX_HOLD + 1, number]),
        _ => {
            let number = random.pick(&[2, 3, 8, 4, 5, 6, 9]);
            plant(number, index % 3, case);
        }
    }
}

fn random_room(random: &mut Random) -> Room {
    match random.between(0, 15) {
        0 => Room::ByteShort,
        1 => Room::RecordShort,
        2 => Room::Zero,
        3..=9 => Room::Exact,
        _ => Room::Spare(random.between(1, 30) as u16),
    }
}

pub fn random_case(kind: Kind, random: &mut Random) -> RunCase {
    let settings = random_settings(random);
    let mut case = RunCase {
        settings,
        state: random_state(random, &settings),
        row: Row {
            hold: 1,
            words: random_words(random, &settings),
        },
        room: 0,
    };
    if kind == Kind::Held {
        case.row.hold = random_hold(random);
    }
    // The room is measured before the damage, since a damaged hold may be endless.
    let room = random_room(random);
    case.room = room_of(&case, room);
    if random.once_in(4) {
        for _ in 0..random.between(1, 3) {
            damage(random, &mut case);
        }
    }
    if kind == Kind::Scan {
        case.row.hold = 1;
    }
    case
}

// ---- All together ----

/// The named cases of a kind.
pub fn named_runs(kind: Kind) -> Vec<Named<RunCase>> {
    let mut list = List {
        kind,
        cases: Vec::new(),
    };
    corner_table(&mut list);
    rules(&mut list);
    forces(&mut list);
    single_forces(&mut list);
    bad_causes(&mut list);
    bad_words(&mut list);
    masks(&mut list);
    first_outs(&mut list);
    fault_pairs(&mut list);
    rooms(&mut list);
    scan_number_limits(&mut list);
    sequence_limits(&mut list);
    force_conflicts(&mut list);
    if kind == Kind::Held {
        hold_limits(&mut list);
        hold_fault_pairs(&mut list);
        run_end_limits(&mut list);
        timers(&mut list);
        whole_delays(&mut list);
        long_runs(&mut list);
        held_resets(&mut list);
        exercised_rows(&mut list);
        held_rooms(&mut list);
    }
    settings_limits(&mut list);
    effect_limits(&mut list);
    timer_limits(&mut list);
    first_out_limits(&mut list);
    limits_past_the_count(&mut list);
    word_limits(&mut list);
    single_bits(&mut list);
    list.cases
}

/// `count` scan or held cases: the named ones first, then random ones.
pub fn run_cases(kind: Kind, seed: u64, count: usize) -> Vec<Named<RunCase>> {
    let mut cases = named_runs(kind);
    cases.truncate(count);
    let mut random = Random::new(seed);
    while cases.len() < count {
        cases.push(Named {
            name: "random".to_string(),
            planted: None,
            case: random_case(kind, &mut random),
        });
    }
    cases
}
