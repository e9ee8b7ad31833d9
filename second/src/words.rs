//! A refusal in words (docs/FORMAT.md, "Refusals in words"): the count or the entry at its
//! place, and the first fault of it.

use crate::block::{Row, MAX_HOLD};
use crate::recording::{number16, number32, row_of, Refusal, ROW_BYTES};
use crate::settings::{inside, ALL_OPTIONS, MAX_CAUSES, MAX_DELAY, MAX_PERIOD};

/// Places and lengths in a recording; the block begins with the cause count.
const CAUSES: usize = 2;
const OPTIONS: usize = 3;
const PERIOD: usize = 4;
const EFFECT_COUNT: usize = 6;
const EFFECTS: usize = 8;
const EFFECT_BYTES: usize = 6;
const COUNT_BYTES: usize = 2;
/// The place of the delay in an effect.
const DELAY: usize = 2;

/// A count or an entry of a recording; entries count from 1.
#[derive(Clone, Copy)]
enum Part {
    BlockCount,
    Block,
    EffectCount,
    Effect(usize),
    RowCount,
    Row(usize),
}

impl Part {
    fn name(self) -> String {
        match self {
            Part::BlockCount => "the block count".to_string(),
            Part::Block => "the block".to_string(),
            Part::EffectCount => "the effect count".to_string(),
            Part::Effect(number) => format!("effect {number}"),
            Part::RowCount => "the row count".to_string(),
            Part::Row(number) => format!("row {number}"),
        }
    }
}

/// The part that a place lies in; the counts before it are valid.
fn part_at(file: &[u8], place: usize) -> Part {
    if place < CAUSES {
        return Part::BlockCount;
    }
    if place < EFFECT_COUNT {
        return Part::Block;
    }
    if place < EFFECTS {
        return Part::EffectCount;
    }
    let row_count = EFFECTS + EFFECT_BYTES * usize::from(effects_of(file));
    if place < row_count {
        return Part::Effect((place - EFFECTS) / EFFECT_BYTES + 1);
    }
    let rows = row_count + COUNT_BYTES;
    if place < rows {
        return Part::RowCount;
    }
    Part::Row((place - rows) / ROW_BYTES + 1)
}

fn causes_of(file: &[u8]) -> u8 {
    file[CAUSES]
}

fn effects_of(file: &[u8]) -> u8 {
    number16(&file[EFFECT_COUNT..EFFECTS]) as u8
}

/// Refusal 2: the first wrong field of the block.
fn block_fault(file: &[u8]) -> &'static str {
    if !(1..=MAX_CAUSES).contains(&causes_of(file)) {
        "its cause count is not 1 to 16"
    } else if file[OPTIONS] > ALL_OPTIONS {
        "its options have a bit above 2"
    } else if !(1..=MAX_PERIOD).contains(&number16(&file[PERIOD..])) {
        "its period is not 1 to 1,000"
    } else {
        panic!("the block is right")
    }
}

/// Refusal 3: the first wrong field of the effect at a place.
fn effect_fault(file: &[u8], place: usize) -> &'static str {
    let association = number16(&file[place..]);
    if association == 0 {
        "it has no cause"
    } else if !inside(association, causes_of(file)) {
        "it has a cause above the cause count"
    } else if number32(&file[place + DELAY..]) > MAX_DELAY {
        "its delay is above 3,600,000"
    } else {
        panic!("the effect is right")
    }
}

/// What the bits of a word belong to.
#[derive(Clone, Copy)]
enum Of {
    Causes,
    Effects,
    /// The force permit has no bits of its own: it is 0 or 1.
    Nothing,
}

/// The words of a row in the order of the file.
const WORDS: [(&str, Of); 10] = [
    ("values", Of::Causes),
    ("bad", Of::Causes),
    ("mask", Of::Causes),
    ("require reset", Of::Effects),
    ("reset permit", Of::Effects),
    ("start permit", Of::Effects),
    ("reset", Of::Effects),
    ("force permit", Of::Nothing),
    ("force trip", Of::Effects),
    ("force normal", Of::Effects),
];

/// What is wrong with a word, if it is.
fn word_fault(file: &[u8], of: Of, word: u16) -> Option<&'static str> {
    let (right, fault) = match of {
        Of::Causes => (
            inside(word, causes_of(file)),
            "word has a bit of an absent cause",
        ),
        Of::Effects => (
            inside(word, effects_of(file)),
            "word has a bit of an absent effect",
        ),
        Of::Nothing => (word <= 1, "is not 0 or 1"),
    };
    (!right).then_some(fault)
}

/// Refusal 4: the first wrong field of a row.
fn row_fault(file: &[u8], row: &Row) -> String {
    if !(1..=MAX_HOLD).contains(&row.hold) {
        return "its hold is not 1 to 1,000,000".to_string();
    }
    for ((name, of), word) in WORDS.iter().zip(row.words.to_array()) {
        if let Some(fault) = word_fault(file, *of, word) {
            return format!("its {name} {fault}");
        }
    }
    panic!("the row is right")
}

/// What a refusal of the reader, or 9 of a replay, says of the file that it was given for.
pub fn words(file: &[u8], refusal: &Refusal) -> String {
    let place = refusal.place as usize;
    let part = part_at(file, place);
    let name = part.name();
    match (refusal.number, part) {
        (1, _) => format!("the bytes end in {name}"),
        (2, Part::BlockCount) => format!("{name} is not 1"),
        (2, _) => format!("block: {}", block_fault(file)),
        (3, Part::EffectCount) => format!("{name} is not 1 to 16"),
        (3, _) => format!("{name}: {}", effect_fault(file, place)),
        (4, Part::RowCount) => format!("{name} is not 1 to 2,048"),
        (4, _) => format!("{name}: {}", row_fault(file, &row_of(&file[place..]))),
        (5, _) => format!("{name}: an effect is in both force words"),
        (6, _) => format!("{name}: several effects are forced without option bit 2"),
        (7, _) => "bytes follow the last row".to_string(),
        (9, _) => format!("{name}: it ends after scan 1,000,000,000"),
        (number, _) => panic!("no file is refused by {number}"),
    }
}
