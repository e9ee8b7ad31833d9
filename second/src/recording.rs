//! The reader and the writer of recordings (document 01, "Recordings" and "Refusal
//! numbers").

use crate::block::{Row, Words};
use crate::settings::{Effect, Settings, MAX_EFFECTS};

pub const MAX_ROWS: u16 = 2_048;
pub const ROW_BYTES: usize = 24;
/// The largest recording.
pub const MAX_BYTES: usize = 49_258;

/// The reader's refusal.
#[derive(Clone, Copy, Debug, PartialEq, Eq)]
pub struct Refusal {
    pub number: u8,
    pub place: u32,
}

/// A recording that was read.
#[derive(Clone, Debug, PartialEq, Eq)]
pub struct Recording {
    pub settings: Settings,
    /// The place of the first row's first byte.
    pub first_row: u32,
    pub rows: Vec<Row>,
}

/// The bytes of a file and the place that the reader has reached.
struct Reader<'a> {
    bytes: &'a [u8],
    place: usize,
}

fn refusal(number: u8, place: usize) -> Refusal {
    Refusal {
        number,
        place: place as u32,
    }
}

impl<'a> Reader<'a> {
    /// The next `count` bytes, or refusal 1 at the file's length.
    fn take(&mut self, count: usize) -> Result<&'a [u8], Refusal> {
        if self.bytes.len() - self.place < count {
            return Err(refusal(1, self.bytes.len()));
        }
        let taken = &self.bytes[self.place..self.place + count];
        self.place += count;
        Ok(taken)
    }

    /// A section's count, which must lie in `low..=high`.
    fn count(&mut self, low: u16, high: u16, number: u8) -> Result<u16, Refusal> {
        let place = self.place;
        let count = number16(self.take(2)?);
        if count < low || count > high {
            return Err(refusal(number, place));
        }
        Ok(count)
    }

    /// The block section: count 1; cause count, options, period.
    fn block(&mut self, settings: &mut Settings) -> Result<(), Refusal> {
        self.count(1, 1, 2)?;
        let place = self.place;
        let entry = self.take(4)?;
        settings.causes = entry[0];
        settings.options = entry[1];
        settings.period = number16(&entry[2..4]);
        if !settings.block_is_right() {
            return Err(refusal(2, place));
        }
        Ok(())
    }

    /// The effects section: count 1..16; each association, delay.
    fn effects(&mut self, settings: &mut Settings) -> Result<(), Refusal> {
        let count = self.count(1, u16::from(MAX_EFFECTS), 3)?;
        settings.effects = count as u8;
        for index in 0..usize::from(count) {
            let place = self.place;
            let entry = self.take(6)?;
            let effect = Effect {
                association: number16(&entry[0..2]),
                delay: number32(&entry[2..6]),
            };
            if !settings.effect_is_right(&effect) {
                return Err(refusal(3, place));
            }
            settings.slots[index] = effect;
        }
        Ok(())
    }

    /// One row: its bytes, then 4, 5, 6.
    fn row(&mut self, settings: &Settings) -> Result<Row, Refusal> {
        let place = self.place;
        let row = row_of(self.take(ROW_BYTES)?);
        match row.check(settings) {
            Ok(()) => Ok(row),
            Err(number) => Err(refusal(number, place)),
        }
    }

    /// Nothing stands after the last row.
    fn end(&self) -> Result<(), Refusal> {
        if self.place < self.bytes.len() {
            return Err(refusal(7, self.place));
        }
        Ok(())
    }
}

pub fn number16(bytes: &[u8]) -> u16 {
    u16::from(bytes[0]) << 8 | u16::from(bytes[1])
}

pub fn number32(bytes: &[u8]) -> u32 {
    u32::from(number16(&bytes[0..2])) << 16 | u32::from(number16(&bytes[2..4]))
}

/// The row that 24 bytes hold.
pub fn row_of(bytes: &[u8]) -> Row {
    let mut words = [0; 10];
    for (index, word) in words.iter_mut().enumerate() {
        *word = number16(&bytes[4 + 2 * index..6 + 2 * index]);
    }
    Row {
        hold: number32(&bytes[0..4]),
        words: Words::from_array(words),
    }
}

/// Reads a file section by section and stops at the first refusal.
pub fn read(bytes: &[u8]) -> Result<Recording, Refusal> {
    let mut reader = Reader { bytes, place: 0 };
    let mut settings = Settings::default();
    reader.block(&mut settings)?;
    reader.effects(&mut settings)?;
    let count = reader.count(1, MAX_ROWS, 4)?;
    let first_row = reader.place as u32;
    let mut rows = Vec::new();
    for _ in 0..count {
        rows.push(reader.row(&settings)?);
    }
    reader.end()?;
    Ok(Recording {
        settings,
        first_row,
        rows,
    })
}

/// What is valid in a file before its first refusal.
pub struct Front {
    /// If both sections of the settings are valid.
    pub settings: Option<Settings>,
    /// The place of the first row's first byte, or 0 if no row is reached.
    pub first_row: usize,
    pub rows: Vec<Row>,
}

/// Reads a file as far as it is valid, for a person to see what comes before a refusal.
pub fn read_front(bytes: &[u8]) -> Front {
    let mut reader = Reader { bytes, place: 0 };
    let mut settings = Settings::default();
    let mut front = Front {
        settings: None,
        first_row: 0,
        rows: Vec::new(),
    };
    if reader.block(&mut settings).is_err() || reader.effects(&mut settings).is_err() {
        return front;
    }
    front.settings = Some(settings);
    if let Ok(count) = reader.count(1, MAX_ROWS, 4) {
        front.first_row = reader.place;
        while front.rows.len() < usize::from(count) {
            let Ok(row) = reader.row(&settings) else {
                break;
            };
            front.rows.push(row);
        }
    }
    front
}

/// The bytes of the opening piece, with nothing checked.
pub fn opening_bytes(settings: &Settings, row_count: u16) -> Vec<u8> {
    let mut bytes = vec![0, 1, settings.causes, settings.options];
    bytes.extend_from_slice(&settings.period.to_be_bytes());
    bytes.extend_from_slice(&u16::from(settings.effects).to_be_bytes());
    for effect in settings.slots.iter().take(usize::from(settings.effects)) {
        bytes.extend_from_slice(&effect.association.to_be_bytes());
        bytes.extend_from_slice(&effect.delay.to_be_bytes());
    }
    bytes.extend_from_slice(&row_count.to_be_bytes());
    bytes
}

/// The bytes of a row, with nothing checked.
pub fn row_bytes(row: &Row) -> Vec<u8> {
    let mut bytes = row.hold.to_be_bytes().to_vec();
    for word in row.words.to_array() {
        bytes.extend_from_slice(&word.to_be_bytes());
    }
    bytes
}

/// Puts a piece at the buffer's start and gives its length, or refuses by 10.
fn put(piece: &[u8], buffer: &mut [u8]) -> Result<u16, u8> {
    if buffer.len() < piece.len() {
        return Err(10);
    }
    buffer[..piece.len()].copy_from_slice(piece);
    Ok(piece.len() as u16)
}

/// Writes the opening piece, through the row count: 2, 3, 4, 10.
pub fn write_opening(settings: &Settings, row_count: u16, buffer: &mut [u8]) -> Result<u16, u8> {
    settings.check()?;
    if !(1..=MAX_ROWS).contains(&row_count) {
        return Err(4);
    }
    put(&opening_bytes(settings, row_count), buffer)
}

/// Writes one row: 2, 3, 4, 5, 6, 10.
pub fn write_row(settings: &Settings, row: &Row, buffer: &mut [u8]) -> Result<u16, u8> {
    settings.check()?;
    row.check(settings)?;
    put(&row_bytes(row), buffer)
}
