//! Why an effect stands in its state after a scan (document 02, L4).

use crate::block::{check, deciding_rule, slot_after, Inputs, Phase, Row, Slot, State, Words};
use crate::settings::Settings;

/// What a waiting effect lacks.
#[derive(Clone, Copy, Debug, PartialEq, Eq, PartialOrd, Ord)]
pub enum Missing {
    ResetPermit,
    Reset,
    StartPermit,
}

impl Missing {
    fn code(self) -> u8 {
        match self {
            Missing::ResetPermit => 1,
            Missing::Reset => 2,
            Missing::StartPermit => 3,
        }
    }

    fn words(self) -> &'static str {
        match self {
            Missing::ResetPermit => "reset permit",
            Missing::Reset => "reset",
            Missing::StartPermit => "start permit",
        }
    }
}

/// The reason for an effect's state after a scan.
#[derive(Clone, Copy, Debug, PartialEq, Eq, PartialOrd, Ord)]
pub enum Reason {
    ForcedTripped,
    ForcedNormal,
    /// With the Bad causes.
    Bad(u16),
    /// With the active causes.
    Active(u16),
    /// With the milliseconds left.
    DelayRunning(u32),
    DelayEnded,
    Waiting(Missing),
    Cleared,
    AtRest,
}

/// The bytes of a reason.
pub const REASON_BYTES: usize = 8;

impl Reason {
    fn kind(self) -> u8 {
        match self {
            Reason::ForcedTripped => 0,
            Reason::ForcedNormal => 1,
            Reason::Bad(_) => 2,
            Reason::Active(_) => 3,
            Reason::DelayRunning(_) => 4,
            Reason::DelayEnded => 5,
            Reason::Waiting(_) => 6,
            Reason::Cleared => 7,
            Reason::AtRest => 8,
        }
    }

    /// The code of the missing thing, or 0.
    fn missing(self) -> u8 {
        match self {
            Reason::Waiting(missing) => missing.code(),
            _ => 0,
        }
    }

    /// The causes of a reason that names causes, or 0.
    fn causes(self) -> u16 {
        match self {
            Reason::Bad(causes) | Reason::Active(causes) => causes,
            _ => 0,
        }
    }

    fn milliseconds(self) -> u32 {
        match self {
            Reason::DelayRunning(left) => left,
            _ => 0,
        }
    }

    /// Kind 1, missing thing 1, causes 2, milliseconds 4; what the reason does not have is 0.
    pub fn to_bytes(self) -> [u8; REASON_BYTES] {
        let mut bytes = [0; REASON_BYTES];
        bytes[0] = self.kind();
        bytes[1] = self.missing();
        bytes[2..4].copy_from_slice(&self.causes().to_be_bytes());
        bytes[4..8].copy_from_slice(&self.milliseconds().to_be_bytes());
        bytes
    }

    /// Document 02's words, then any causes, milliseconds or missing thing.
    pub fn words(self) -> String {
        match self {
            Reason::ForcedTripped => "forced tripped".to_string(),
            Reason::ForcedNormal => "forced normal".to_string(),
            Reason::Bad(causes) => format!("Bad {causes}"),
            Reason::Active(causes) => format!("active {causes}"),
            Reason::DelayRunning(left) => format!("delay running {left}"),
            Reason::DelayEnded => "delay ended".to_string(),
            Reason::Waiting(missing) => format!("waiting {}", missing.words()),
            Reason::Cleared => "cleared".to_string(),
            Reason::AtRest => "at rest".to_string(),
        }
    }
}

// ---- Finding it ----

/// Rule 9: the delay has ended or goes on, with what is left of it after the scan.
fn of_the_delay(after: &Slot) -> Reason {
    if after.phase == Phase::Delayed {
        Reason::DelayRunning(after.timer)
    } else {
        Reason::DelayEnded
    }
}

/// Rules 4 to 8 with nothing active: the effect waits, or it is in Normal.
fn of_a_quiet_scan(before: Phase, after: Phase) -> Reason {
    match after {
        Phase::WaitReset => Reason::Waiting(Missing::ResetPermit),
        Phase::Ready => Reason::Waiting(Missing::Reset),
        Phase::WaitStart => Reason::Waiting(Missing::StartPermit),
        Phase::Normal if before == Phase::Normal => Reason::AtRest,
        Phase::Normal => Reason::Cleared,
        Phase::Tripped | Phase::Delayed => panic!("no quiet effect trips by rules 4 to 8"),
    }
}

/// The reason for one effect's state after one scan. The rule that decides gives it.
pub fn reason_of(before: &Slot, inputs: &Inputs) -> Reason {
    let after = slot_after(before, inputs);
    match deciding_rule(before.phase, inputs) {
        1 => Reason::ForcedTripped,
        2 => Reason::ForcedNormal,
        3 => Reason::Bad(inputs.seen.bad),
        9 => of_the_delay(&after),
        _ if inputs.is_active() => Reason::Active(inputs.seen.active),
        _ => of_a_quiet_scan(before.phase, after.phase),
    }
}

/// The refusal of an effect that the settings do not have.
const ABSENT_EFFECT: u8 = 3;

/// The reason for the state of an effect, numbered from 1, after a scan of these words: 2, 3, 8, 4, 5, 6, 9, and
/// then 3 for an effect that is absent.
pub fn reason_after(
    settings: &Settings,
    state: &State,
    words: &Words,
    effect: u8,
) -> Result<Reason, u8> {
    let row = Row {
        hold: 1,
        words: *words,
    };
    check(settings, state, &row)?;
    if !(1..=settings.effects).contains(&effect) {
        return Err(ABSENT_EFFECT);
    }
    let index = usize::from(effect) - 1;
    let inputs = Inputs::of(settings, words, index);
    Ok(reason_of(&state.slots[index], &inputs))
}
