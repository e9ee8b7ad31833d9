//! Cases of Bad causes in twos, which differ in one Bad bit of one row alone: it is clear in the first
//! case and set in the second. First come all twos whose cause is masked, and whose answers must be
//! equal, then those whose cause is not (document 02, L3).

use crate::block::{Phase, Row, Slot, Words, PHASES};
use crate::cases::{
    put_file, put_reason_case, put_run_case, put_season_case, Kind, ReasonCase, RunCase,
    SeasonCase, MAX_RUN_ROOM,
};
use crate::make_files::file_of;
use crate::season::Report;
use crate::settings::{
    Effect, Settings, MAX_CAUSES, MAX_EFFECTS, PERMIT_NOT_REQUIRED, SEVERAL_FORCED, SLOTS,
    TRIP_IF_BAD,
};

/// All 16 causes, or all 16 effects.
pub const ALL: u16 = u16::MAX;
const PERIOD: u16 = 100;
/// A delay that runs out while an effect is led to its state, and one that does not.
const SHORT_DELAY: u32 = 150;
const LONG_DELAY: u32 = 1_000;
/// What is left of the long delay in a scan or a held run; it ends inside the held run.
const LEFT: u32 = 350;
/// How long the row with the Bad bit is held: in a held run, and in files.
const HELD: u32 = 7;
const FILE_HOLDS: [u32; 2] = [1, HELD];
/// Scans in which the short delay runs out.
const LEADING: u32 = 4;

// ---- What is tried ----

#[derive(Clone, Copy, Debug, PartialEq, Eq, PartialOrd, Ord)]
pub enum Force {
    None,
    Trip,
    Normal,
}

/// Forces with the force permit; without it they count by option bit 1 alone.
const FORCES: [(Force, u16); 5] = [
    (Force::None, 0),
    (Force::Trip, 1),
    (Force::Trip, 0),
    (Force::Normal, 1),
    (Force::Normal, 0),
];
const OPTIONS: [u8; 4] = [
    0,
    TRIP_IF_BAD,
    PERMIT_NOT_REQUIRED,
    TRIP_IF_BAD | PERMIT_NOT_REQUIRED,
];

/// What stands around the Bad bit of a row.
#[derive(Clone, Copy, Debug, PartialEq, Eq, PartialOrd, Ord)]
pub struct Trial {
    pub masked: bool,
    pub options: u8,
    pub force: Force,
    pub permit: u16,
    /// Whether the effects that are tried see the Bad cause.
    pub associated: bool,
    /// Whether another cause that they see is active.
    pub active: bool,
}

/// All trials, those of masked causes first. Causes take turns over them, so trials that are alike in
/// what decides whether a Bad cause is seen stand together, and each cause is met among them.
fn trials() -> Vec<Trial> {
    let mut trials = Vec::new();
    for masked in [true, false] {
        for options in OPTIONS {
            for associated in [false, true] {
                for (force, permit) in FORCES {
                    trials.extend([false, true].map(|active| Trial {
                        masked,
                        options,
                        force,
                        permit,
                        associated,
                        active,
                    }));
                }
            }
        }
    }
    trials
}

/// A state before the row, and the effect's delay.
#[derive(Clone, Copy, Debug, PartialEq, Eq, PartialOrd, Ord)]
pub struct Standing {
    pub phase: Phase,
    pub delay: u32,
}

/// Every state without and with a delay; Delayed has one in any case.
pub fn standings() -> Vec<Standing> {
    let mut standings = Vec::new();
    for phase in PHASES {
        let delays: &[u32] = match phase {
            Phase::Delayed => &[LONG_DELAY],
            _ => &[0, SHORT_DELAY],
        };
        standings.extend(delays.iter().map(|delay| Standing {
            phase,
            delay: *delay,
        }));
    }
    standings
}

// ---- Causes and words ----

/// The causes of a case, each as its bit.
#[derive(Clone, Copy, Debug, PartialEq, Eq)]
pub struct Causes {
    pub bad: u16,
    /// Active besides in some trials.
    pub other: u16,
    /// The first-out of effects that are not in Normal.
    pub kept: u16,
    /// Keeps effects of a file in Tripped before the row with the Bad bit.
    holding: u16,
}

impl Causes {
    /// The Bad cause has the index `cause`; the others follow it.
    fn from(cause: usize) -> Causes {
        let bit = |after: usize| 1 << ((cause + after) % SLOTS);
        Causes {
            bad: bit(0),
            other: bit(1),
            kept: bit(2),
            holding: bit(3),
        }
    }
}

/// Nothing active, with both permits for every effect.
pub fn quiet() -> Words {
    Words {
        values: ALL,
        reset_permit: ALL,
        start_permit: ALL,
        ..Words::default()
    }
}

/// Settings of 16 causes, and of 16 effects that see the kept cause alone and have no delay.
fn bystanders(options: u8, causes: &Causes) -> Settings {
    let effect = Effect {
        association: causes.kept,
        delay: 0,
    };
    Settings {
        causes: MAX_CAUSES,
        options,
        period: PERIOD,
        effects: MAX_EFFECTS,
        slots: [effect; SLOTS],
    }
}

impl Trial {
    /// An effect that is tried.
    fn effect(&self, standing: &Standing, causes: &Causes) -> Effect {
        let bad = if self.associated { causes.bad } else { 0 };
        Effect {
            association: causes.other | causes.kept | bad,
            delay: standing.delay,
        }
    }

    /// The words of the row, with the Bad bit clear and with it set; the `tried` effects are forced.
    fn words(&self, causes: &Causes, tried: u16) -> [Words; 2] {
        let forced = |force| if self.force == force { tried } else { 0 };
        let clear = Words {
            values: if self.active {
                ALL & !causes.other
            } else {
                ALL
            },
            mask: if self.masked { causes.bad } else { 0 },
            reset: ALL,
            force_permit: self.permit,
            force_trip: forced(Force::Trip),
            force_normal: forced(Force::Normal),
            ..quiet()
        };
        let set = Words {
            bad: causes.bad,
            ..clear
        };
        [clear, set]
    }
}

// ---- Scans and held runs: one effect is tried ----

#[derive(Clone, Copy, Debug, PartialEq, Eq)]
pub struct BadRun {
    pub trial: Trial,
    pub standing: Standing,
    /// The index of the Bad cause, and that of the effect that is tried.
    pub cause: usize,
    pub effect: usize,
}

/// The indices of the Bad cause and of the first effect that is tried: they take turns so that each
/// cause meets each effect.
pub fn cause_and_effect(turn: usize) -> (usize, usize) {
    (turn % SLOTS, (turn + turn / SLOTS) % SLOTS)
}

/// Each trial with each of some other things.
fn each_trial_with<T: Copy>(others: &[T]) -> impl Iterator<Item = (Trial, T)> + '_ {
    let with_each = |trial| others.iter().map(move |other| (trial, *other));
    trials().into_iter().flat_map(with_each)
}

/// Each trial of each standing.
pub fn bad_runs() -> Vec<BadRun> {
    let run = |(turn, (trial, standing))| {
        let (cause, effect) = cause_and_effect(turn);
        BadRun {
            trial,
            standing,
            cause,
            effect,
        }
    };
    each_trial_with(&standings()).enumerate().map(run).collect()
}

/// An effect that stands so, with a first-out where the state allows one.
fn slot_of(standing: &Standing, kept: u16) -> Slot {
    let phase = standing.phase;
    Slot {
        phase,
        timer: if phase == Phase::Delayed { LEFT } else { 0 },
        first_out: if phase == Phase::Normal { 0 } else { kept },
    }
}

impl BadRun {
    pub fn causes(&self) -> Causes {
        Causes::from(self.cause)
    }

    /// The other effects stand in all states and see nothing of the row.
    pub fn cases(&self, kind: Kind) -> [RunCase; 2] {
        let causes = self.causes();
        let mut case = RunCase {
            settings: bystanders(self.trial.options, &causes),
            room: MAX_RUN_ROOM,
            ..RunCase::default()
        };
        for (index, standing) in standings().iter().cycle().take(SLOTS).enumerate() {
            case.settings.slots[index].delay = standing.delay;
            case.state.slots[index] = slot_of(standing, causes.kept);
        }
        case.settings.slots[self.effect] = self.trial.effect(&self.standing, &causes);
        case.state.slots[self.effect] = slot_of(&self.standing, causes.kept);
        case.row.hold = if kind == Kind::Held { HELD } else { 1 };
        self.trial.words(&causes, 1 << self.effect).map(|words| {
            case.row.words = words;
            case
        })
    }

    /// The scans, asked for the effect that is tried.
    pub fn reason_cases(&self) -> [ReasonCase; 2] {
        let effect = self.effect as u8 + 1;
        self.cases(Kind::Scan)
            .map(|case| ReasonCase::of(&case, effect))
    }
}

// ---- Files: an effect for each standing ----

#[derive(Clone, Copy, Debug, PartialEq, Eq)]
pub struct BadFile {
    pub trial: Trial,
    /// How long the row with the Bad bit is held.
    pub hold: u32,
    /// The index of the Bad cause, and that of the first effect that is tried.
    pub cause: usize,
    pub first: usize,
}

/// Each trial with each hold.
pub fn bad_files() -> Vec<BadFile> {
    let file = |(turn, (trial, hold))| {
        let (cause, first) = cause_and_effect(turn);
        BadFile {
            trial,
            hold,
            cause,
            first,
        }
    };
    each_trial_with(&FILE_HOLDS).enumerate().map(file).collect()
}

impl BadFile {
    pub fn causes(&self) -> Causes {
        Causes::from(self.cause)
    }

    /// The effects that are tried, by their indices.
    pub fn tried(&self) -> Vec<(usize, Standing)> {
        let indices = (self.first..).map(|index| index % SLOTS);
        indices.zip(standings()).collect()
    }

    /// The effects that are tried and stand in one of these states.
    pub fn standing_in(&self, phases: &[Phase]) -> u16 {
        let tried = self.tried().into_iter();
        tried
            .filter(|(_, standing)| phases.contains(&standing.phase))
            .fold(0, |word, (index, _)| word | 1 << index)
    }

    /// All tried effects are forced, which takes option bit 2.
    pub fn settings(&self) -> Settings {
        let causes = self.causes();
        let mut settings = bystanders(self.trial.options | SEVERAL_FORCED, &causes);
        for (index, standing) in self.tried() {
            let slot = &mut settings.slots[index];
            *slot = self.trial.effect(&standing, &causes);
            if standing.phase == Phase::Tripped {
                slot.association |= causes.holding;
            }
        }
        settings
    }

    /// Rows that lead the effects from Tripped to where they stand: all to Normal, all out of it by
    /// the kept cause, and then each to its state.
    pub fn leading_rows(&self) -> [Row; 3] {
        let causes = self.causes();
        let out_of_normal = Words {
            values: ALL & !causes.kept,
            ..quiet()
        };
        let apart = Words {
            values: ALL & !causes.holding,
            require_reset: self.standing_in(&[Phase::WaitReset, Phase::Ready]),
            reset_permit: ALL & !self.standing_in(&[Phase::WaitReset]),
            start_permit: ALL & !self.standing_in(&[Phase::WaitStart]),
            ..Words::default()
        };
        [(1, quiet()), (LEADING, out_of_normal), (1, apart)]
            .map(|(hold, words)| Row { hold, words })
    }

    /// The leading rows, the row with the Bad bit, and a quiet one.
    pub fn files(&self) -> [Vec<u8>; 2] {
        let settings = self.settings();
        let last = Row {
            hold: 1,
            words: quiet(),
        };
        let words = self.trial.words(&self.causes(), self.standing_in(&PHASES));
        words.map(|words| {
            let tried = Row {
                hold: self.hold,
                words,
            };
            let rows = [&self.leading_rows()[..], &[tried, last]].concat();
            file_of(&settings, &rows)
        })
    }
}

// ---- The stream ----

fn season_case(file: Vec<u8>) -> SeasonCase {
    SeasonCase {
        report: Report::empty(),
        file,
    }
}

/// The bytes of the twos of a kind; writing reads no rule and has none.
pub fn bad_stream(kind: Kind) -> Option<Vec<u8>> {
    let mut out = Vec::new();
    match kind {
        Kind::Scan | Kind::Held => {
            for case in bad_runs().iter().flat_map(|run| run.cases(kind)) {
                put_run_case(kind, &case, &mut out);
            }
        }
        Kind::Reason => {
            for case in bad_runs().iter().flat_map(BadRun::reason_cases) {
                put_reason_case(&case, &mut out);
            }
        }
        Kind::Recording | Kind::Replay | Kind::Why => {
            for file in bad_files().iter().flat_map(BadFile::files) {
                put_file(&file, &mut out);
            }
        }
        Kind::Season => {
            for file in bad_files().iter().flat_map(BadFile::files) {
                put_season_case(&season_case(file), &mut out);
            }
        }
        Kind::Writing => return None,
    }
    Some(out)
}
