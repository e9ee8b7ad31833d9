//! The row, the state, one scan and a held run (document 01, "Settings, row, state",
//! "The rules of one scan" and "Held runs and their two counts"; of Bad causes document 01 is
//! read as document 02, L3, changes it).

use crate::settings::{
    inside, Effect, Settings, PERMIT_NOT_REQUIRED, SEVERAL_FORCED, SLOTS, TRIP_IF_BAD,
};

pub const MAX_HOLD: u32 = 1_000_000;
pub const MAX_SCANS: u32 = 1_000_000_000;
pub const RECORD_BYTES: usize = 12;

/// The ten words of a row, in document 01's order.
#[derive(Clone, Copy, Debug, Default, PartialEq, Eq)]
pub struct Words {
    pub values: u16,
    pub bad: u16,
    pub mask: u16,
    pub require_reset: u16,
    pub reset_permit: u16,
    pub start_permit: u16,
    pub reset: u16,
    pub force_permit: u16,
    pub force_trip: u16,
    pub force_normal: u16,
}

impl Words {
    pub fn to_array(self) -> [u16; 10] {
        [
            self.values,
            self.bad,
            self.mask,
            self.require_reset,
            self.reset_permit,
            self.start_permit,
            self.reset,
            self.force_permit,
            self.force_trip,
            self.force_normal,
        ]
    }

    pub fn from_array(words: [u16; 10]) -> Words {
        Words {
            values: words[0],
            bad: words[1],
            mask: words[2],
            require_reset: words[3],
            reset_permit: words[4],
            start_permit: words[5],
            reset: words[6],
            force_permit: words[7],
            force_trip: words[8],
            force_normal: words[9],
        }
    }

    /// Refusal 4: bits of absent causes or effects, and the force permit.
    pub fn words_are_right(&self, settings: &Settings) -> bool {
        let of_causes = [self.values, self.bad, self.mask];
        let of_effects = [
            self.require_reset,
            self.reset_permit,
            self.start_permit,
            self.reset,
            self.force_trip,
            self.force_normal,
        ];
        of_causes.iter().all(|word| inside(*word, settings.causes))
            && of_effects
                .iter()
                .all(|word| inside(*word, settings.effects))
            && self.force_permit <= 1
    }

    /// Refusal 5: an effect stands in both force words.
    pub fn force_words_meet(&self) -> bool {
        self.force_trip & self.force_normal != 0
    }

    /// Refusal 6: several forced without option bit 2, permitted or not.
    pub fn several_forced(&self, settings: &Settings) -> bool {
        let forced = self.force_trip.count_ones() + self.force_normal.count_ones();
        !settings.has_option(SEVERAL_FORCED) && forced > 1
    }
}

/// A row: a hold and the ten words.
#[derive(Clone, Copy, Debug, Default, PartialEq, Eq)]
pub struct Row {
    pub hold: u32,
    pub words: Words,
}

impl Row {
    /// The row's part of the order of refusals: 4, 5, 6.
    pub fn check(&self, settings: &Settings) -> Result<(), u8> {
        if !(1..=MAX_HOLD).contains(&self.hold) || !self.words.words_are_right(settings) {
            return Err(4);
        }
        if self.words.force_words_meet() {
            return Err(5);
        }
        if self.words.several_forced(settings) {
            return Err(6);
        }
        Ok(())
    }
}

/// The state of one effect; the discriminants are document 01's state codes.
#[derive(Clone, Copy, Debug, Default, PartialEq, Eq, PartialOrd, Ord)]
pub enum Phase {
    #[default]
    Tripped = 0,
    WaitReset = 1,
    Ready = 2,
    WaitStart = 3,
    Normal = 4,
    Delayed = 5,
}

pub const PHASES: [Phase; 6] = [
    Phase::Tripped,
    Phase::WaitReset,
    Phase::Ready,
    Phase::WaitStart,
    Phase::Normal,
    Phase::Delayed,
];

impl Phase {
    pub fn code(self) -> u8 {
        self as u8
    }

    pub fn from_code(code: u8) -> Option<Phase> {
        PHASES.get(usize::from(code)).copied()
    }

    pub fn name(self) -> &'static str {
        match self {
            Phase::Tripped => "tripped",
            Phase::WaitReset => "wait-reset",
            Phase::Ready => "ready",
            Phase::WaitStart => "wait-start",
            Phase::Normal => "normal",
            Phase::Delayed => "delayed",
        }
    }
}

/// What is kept of one effect.
#[derive(Clone, Copy, Debug, Default, PartialEq, Eq)]
pub struct Slot {
    pub phase: Phase,
    pub timer: u32,
    pub first_out: u16,
}

/// The state of the block. The default is the fresh state: every effect Tripped, all
/// numbers 0.
#[derive(Clone, Copy, Debug, Default, PartialEq, Eq)]
pub struct State {
    pub scans_done: u32,
    pub next_sequence: u16,
    pub slots: [Slot; SLOTS],
}

impl State {
    /// Refusal 8.
    pub fn check(&self, settings: &Settings) -> Result<(), u8> {
        if self.scans_done > MAX_SCANS {
            return Err(8);
        }
        for (index, slot) in self.slots.iter().enumerate() {
            let right = if index < usize::from(settings.effects) {
                slot_is_right(slot, &settings.slots[index])
            } else {
                *slot == Slot::default()
            };
            if !right {
                return Err(8);
            }
        }
        Ok(())
    }
}

/// The rules of the state for one effect that exists.
fn slot_is_right(slot: &Slot, effect: &Effect) -> bool {
    let timer_is_right = match slot.phase {
        Phase::Delayed => (1..=effect.delay).contains(&slot.timer),
        _ => slot.timer == 0,
    };
    let first_out_is_right = match slot.phase {
        Phase::Normal => slot.first_out == 0,
        _ => slot.first_out & !effect.association == 0,
    };
    timer_is_right && first_out_is_right
}

/// Two words of causes in one scan: those that are tripped and those that are Bad, less the masked
/// ones. Without option bit 0 no Bad cause is seen.
#[derive(Clone, Copy, Debug, PartialEq, Eq)]
pub struct Seen {
    pub active: u16,
    pub bad: u16,
}

impl Seen {
    /// What the block sees of the causes, whatever the effects (document 01, changed by
    /// document 02, L3).
    pub fn of(settings: &Settings, words: &Words) -> Seen {
        let counted = if settings.has_option(TRIP_IF_BAD) {
            words.bad
        } else {
            0
        };
        Seen {
            active: !words.values & !words.mask,
            bad: counted & !words.mask,
        }
    }

    /// *Active* and the Bad causes of one effect: what the block sees within the association word.
    pub fn by(self, effect: &Effect) -> Seen {
        Seen {
            active: self.active & effect.association,
            bad: self.bad & effect.association,
        }
    }

    /// The active and the Bad causes together.
    pub fn causes(self) -> u16 {
        self.active | self.bad
    }
}

/// Whether forces count.
pub fn forces_count(settings: &Settings, words: &Words) -> bool {
    words.force_permit == 1 || settings.has_option(PERMIT_NOT_REQUIRED)
}

/// What the rules read of one effect in one scan.
#[derive(Clone, Copy, Debug)]
pub struct Inputs {
    pub seen: Seen,
    pub force_trip: bool,
    pub force_normal: bool,
    pub require_reset: bool,
    pub reset_permit: bool,
    pub start_permit: bool,
    pub reset: bool,
    pub delay: u32,
    pub period: u32,
}

fn bit(word: u16, index: usize) -> bool {
    word >> index & 1 == 1
}

impl Inputs {
    pub fn of(settings: &Settings, words: &Words, index: usize) -> Inputs {
        let effect = &settings.slots[index];
        let forces = forces_count(settings, words);
        Inputs {
            seen: Seen::of(settings, words).by(effect),
            force_trip: forces && bit(words.force_trip, index),
            force_normal: forces && bit(words.force_normal, index),
            require_reset: bit(words.require_reset, index),
            reset_permit: bit(words.reset_permit, index),
            start_permit: bit(words.start_permit, index),
            reset: bit(words.reset, index),
            delay: effect.delay,
            period: u32::from(settings.period),
        }
    }

    pub fn is_active(&self) -> bool {
        self.seen.active != 0
    }

    /// *Bad trip*, which each effect has of its own (document 02, L3): option bit 0 is set and an
    /// unmasked, associated cause is Bad.
    pub fn bad_trip(&self) -> bool {
        self.seen.bad != 0
    }

    /// The latent bit: force normal counts, and active is not 0 or Bad trip holds.
    pub fn latent(&self) -> bool {
        self.force_normal && (self.is_active() || self.bad_trip())
    }
}

/// Rule 4.
fn from_tripped(inputs: &Inputs) -> Phase {
    if inputs.is_active() {
        Phase::Tripped
    } else if inputs.require_reset {
        if inputs.reset_permit {
            Phase::Ready
        } else {
            Phase::WaitReset
        }
    } else if inputs.start_permit {
        Phase::Normal
    } else {
        Phase::WaitStart
    }
}

/// Rule 5.
fn from_wait_reset(inputs: &Inputs) -> Phase {
    if inputs.is_active() {
        Phase::Tripped
    } else if inputs.reset_permit {
        Phase::Ready
    } else {
        Phase::WaitReset
    }
}

/// Rule 6.
fn from_ready(inputs: &Inputs) -> Phase {
    if inputs.is_active() {
        Phase::Tripped
    } else if !inputs.reset_permit {
        Phase::WaitReset
    } else if inputs.reset && inputs.start_permit {
        Phase::Normal
    } else if inputs.reset {
        Phase::WaitStart
    } else {
        Phase::Ready
    }
}

/// Rule 7.
fn from_wait_start(inputs: &Inputs) -> Phase {
    if inputs.is_active() {
        Phase::Tripped
    } else if inputs.start_permit {
        Phase::Normal
    } else {
        Phase::WaitStart
    }
}

/// Rule 8, with the timer after.
fn from_normal(inputs: &Inputs) -> (Phase, u32) {
    if !inputs.is_active() {
        (Phase::Normal, 0)
    } else if inputs.delay == 0 {
        (Phase::Tripped, 0)
    } else {
        (Phase::Delayed, inputs.delay)
    }
}

/// Rule 9, with the timer after. Causes are not read.
fn from_delayed(inputs: &Inputs, timer: u32) -> (Phase, u32) {
    if timer <= inputs.period {
        (Phase::Tripped, 0)
    } else {
        (Phase::Delayed, timer - inputs.period)
    }
}

/// The number of the first rule that applies.
pub fn deciding_rule(phase: Phase, inputs: &Inputs) -> u8 {
    if inputs.force_trip {
        return 1;
    }
    if inputs.force_normal {
        return 2;
    }
    if inputs.bad_trip() {
        return 3;
    }
    match phase {
        Phase::Tripped => 4,
        Phase::WaitReset => 5,
        Phase::Ready => 6,
        Phase::WaitStart => 7,
        Phase::Normal => 8,
        Phase::Delayed => 9,
    }
}

/// State and timer after one scan.
fn decide(slot: &Slot, inputs: &Inputs) -> (Phase, u32) {
    match deciding_rule(slot.phase, inputs) {
        1 => (Phase::Tripped, 0),
        2 => (Phase::Normal, 0),
        3 => (Phase::Tripped, 0),
        4 => (from_tripped(inputs), 0),
        5 => (from_wait_reset(inputs), 0),
        6 => (from_ready(inputs), 0),
        7 => (from_wait_start(inputs), 0),
        8 => from_normal(inputs),
        _ => from_delayed(inputs, slot.timer),
    }
}

/// First-out after: 0 in Normal, what the effect sees in the scan that leaves Normal, else kept.
/// That is *active* and, with option bit 0, the Bad causes besides (document 02, L3).
fn first_out_after(before: &Slot, after: Phase, seen: Seen) -> u16 {
    if after == Phase::Normal {
        0
    } else if before.phase == Phase::Normal {
        seen.causes()
    } else {
        before.first_out
    }
}

/// One effect in one scan.
pub fn slot_after(slot: &Slot, inputs: &Inputs) -> Slot {
    let (phase, timer) = decide(slot, inputs);
    Slot {
        phase,
        timer,
        first_out: first_out_after(slot, phase, inputs.seen),
    }
}

/// One event record.
fn record(sequence: u16, scan: u32, effect: u8, before: Phase, after: &Slot) -> [u8; RECORD_BYTES] {
    let mut bytes = [0; RECORD_BYTES];
    bytes[0..2].copy_from_slice(&sequence.to_be_bytes());
    bytes[2..6].copy_from_slice(&scan.to_be_bytes());
    bytes[6] = effect;
    bytes[7] = before.code();
    bytes[8] = after.phase.code();
    bytes[9] = 0;
    bytes[10..12].copy_from_slice(&after.first_out.to_be_bytes());
    bytes
}

/// What one scan by the rules gives.
#[derive(Clone, Debug)]
pub struct Step {
    pub state: State,
    pub effect_word: u16,
    pub latent_word: u16,
    pub records: Vec<[u8; RECORD_BYTES]>,
}

/// One scan by the rules, with nothing checked.
pub fn step(settings: &Settings, state: &State, words: &Words) -> Step {
    let mut after = *state;
    after.scans_done = state.scans_done.wrapping_add(1);
    let mut effect_word = 0;
    let mut latent_word = 0;
    let mut records = Vec::new();
    for index in 0..SLOTS.min(usize::from(settings.effects)) {
        let inputs = Inputs::of(settings, words, index);
        let before = &state.slots[index];
        let slot = slot_after(before, &inputs);
        after.slots[index] = slot;
        if matches!(slot.phase, Phase::Normal | Phase::Delayed) {
            effect_word |= 1 << index;
        }
        if inputs.latent() {
            latent_word |= 1 << index;
        }
        if slot.phase != before.phase {
            let number = index as u8 + 1;
            records.push(record(
                after.next_sequence,
                after.scans_done,
                number,
                before.phase,
                &slot,
            ));
            after.next_sequence = after.next_sequence.wrapping_add(1);
        }
    }
    Step {
        state: after,
        effect_word,
        latent_word,
        records,
    }
}

/// What a held run by the rules gives.
#[derive(Clone, Debug)]
pub struct Run {
    pub last: Step,
    pub live: u32,
    pub exercised: u32,
    /// The records of all scans.
    pub records: Vec<[u8; RECORD_BYTES]>,
}

/// The words of every scan but the first: reset goes False after every execution.
pub fn without_reset(words: &Words) -> Words {
    let mut later = *words;
    later.reset = 0;
    later
}

/// Exercised scans: the hold if any effect sees an active cause or, with option bit 0, a Bad one
/// (document 02, L3), forced or not; otherwise 0.
pub fn exercised(settings: &Settings, row: &Row) -> u32 {
    let seen = Seen::of(settings, &row.words);
    for effect in settings.slots.iter().take(usize::from(settings.effects)) {
        if seen.by(effect).causes() != 0 {
            return row.hold;
        }
    }
    0
}

/// A held run by the rules, scan by scan, with nothing checked. A hold of 0 runs no scan
/// and gives words of 0.
pub fn run(settings: &Settings, state: &State, row: &Row) -> Run {
    let mut last = Step {
        state: *state,
        effect_word: 0,
        latent_word: 0,
        records: Vec::new(),
    };
    let mut live = 0;
    let mut records = Vec::new();
    let later = without_reset(&row.words);
    for scan in 0..row.hold {
        let words = if scan == 0 { &row.words } else { &later };
        last = step(settings, &last.state, words);
        if !last.records.is_empty() {
            live += 1;
        }
        records.extend_from_slice(&last.records);
    }
    Run {
        last,
        live,
        exercised: exercised(settings, row),
        records,
    }
}

/// The whole answer of a scan or a held run.
#[derive(Clone, Copy, Debug, PartialEq, Eq)]
pub struct Answer {
    /// 0, or the refusal number.
    pub number: u8,
    pub place: u32,
    pub state: State,
    pub effect_word: u16,
    pub latent_word: u16,
    pub records: u16,
    pub live: u32,
    pub exercised: u32,
}

/// A refusal: its refusal number, place 0, the given state, and zeros.
fn refused(number: u8, state: &State) -> Answer {
    Answer {
        number,
        place: 0,
        state: *state,
        effect_word: 0,
        latent_word: 0,
        records: 0,
        live: 0,
        exercised: 0,
    }
}

/// Everything that is checked before running: 2, 3, 8, 4, 5, 6, 9.
pub fn check(settings: &Settings, state: &State, row: &Row) -> Result<(), u8> {
    settings.check()?;
    state.check(settings)?;
    row.check(settings)?;
    if u64::from(state.scans_done) + u64::from(row.hold) > u64::from(MAX_SCANS) {
        return Err(9);
    }
    Ok(())
}

/// A held run into a lent buffer.
pub fn held(settings: &Settings, state: &State, row: &Row, buffer: &mut [u8]) -> Answer {
    if let Err(number) = check(settings, state, row) {
        return refused(number, state);
    }
    let run = run(settings, state, row);
    if buffer.len() < RECORD_BYTES * run.records.len() {
        return refused(10, state);
    }
    for (index, record) in run.records.iter().enumerate() {
        let start = RECORD_BYTES * index;
        buffer[start..start + RECORD_BYTES].copy_from_slice(record);
    }
    Answer {
        number: 0,
        place: 0,
        state: run.last.state,
        effect_word: run.last.effect_word,
        latent_word: run.last.latent_word,
        records: run.records.len() as u16,
        live: run.live,
        exercised: run.exercised,
    }
}

/// One scan into a lent buffer: the ten words alone, with a hold of 1.
pub fn scan(settings: &Settings, state: &State, words: &Words, buffer: &mut [u8]) -> Answer {
    let row = Row {
        hold: 1,
        words: *words,
    };
    held(settings, state, &row, buffer)
}
