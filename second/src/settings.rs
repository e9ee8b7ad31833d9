//! Settings (document 01, "Settings, row, state").

/// Slots that every settings and every state have.
pub const SLOTS: usize = 16;
pub const MAX_CAUSES: u8 = 16;
pub const MAX_EFFECTS: u8 = 16;
pub const MAX_PERIOD: u16 = 1_000;
pub const MAX_DELAY: u32 = 3_600_000;

/// Option bit 0: trip if Bad.
pub const TRIP_IF_BAD: u8 = 1;
/// Option bit 1: force permit not required.
pub const PERMIT_NOT_REQUIRED: u8 = 2;
/// Option bit 2: several effects may be forced.
pub const SEVERAL_FORCED: u8 = 4;
pub const ALL_OPTIONS: u8 = 7;

/// One effect's settings.
#[derive(Clone, Copy, Debug, Default, PartialEq, Eq)]
pub struct Effect {
    pub association: u16,
    pub delay: u32,
}

/// The settings of the block. Slots past the effect count are zero.
#[derive(Clone, Copy, Debug, Default, PartialEq, Eq)]
pub struct Settings {
    pub causes: u8,
    pub options: u8,
    pub period: u16,
    pub effects: u8,
    pub slots: [Effect; SLOTS],
}

/// The word with a 1 for each of `count` causes or effects, bit 0 being the first.
pub fn existing(count: u8) -> u16 {
    let mut word = 0;
    for bit in 0..u16::BITS {
        if bit < u32::from(count) {
            word |= 1 << bit;
        }
    }
    word
}

/// Whether `word` has only bits of the first `count` causes or effects.
pub fn inside(word: u16, count: u8) -> bool {
    word & !existing(count) == 0
}

impl Settings {
    pub fn has_option(&self, option: u8) -> bool {
        self.options & option != 0
    }

    /// Refusal 2: cause count, options, period.
    pub fn block_is_right(&self) -> bool {
        (1..=MAX_CAUSES).contains(&self.causes)
            && self.options <= ALL_OPTIONS
            && (1..=MAX_PERIOD).contains(&self.period)
    }

    /// Refusal 3: the effect count.
    pub fn effect_count_is_right(&self) -> bool {
        (1..=MAX_EFFECTS).contains(&self.effects)
    }

    /// Refusal 3: an effect that exists.
    pub fn effect_is_right(&self, effect: &Effect) -> bool {
        effect.association != 0
            && inside(effect.association, self.causes)
            && effect.delay <= MAX_DELAY
    }

    /// Refusal 3: the count, each effect, and zero in the slots past the count.
    pub fn effects_are_right(&self) -> bool {
        if !self.effect_count_is_right() {
            return false;
        }
        for (index, effect) in self.slots.iter().enumerate() {
            let right = if index < usize::from(self.effects) {
                self.effect_is_right(effect)
            } else {
                *effect == Effect::default()
            };
            if !right {
                return false;
            }
        }
        true
    }

    /// The settings' part of the order of refusals: 2, then 3.
    pub fn check(&self) -> Result<(), u8> {
        if !self.block_is_right() {
            return Err(2);
        }
        if !self.effects_are_right() {
            return Err(3);
        }
        Ok(())
    }
}
