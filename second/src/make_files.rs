//! Recordings and writing cases.

use crate::block::{Row, Words, MAX_HOLD};
use crate::cases::{WritingCase, MAX_PIECE_ROOM};
use crate::make::{Named, Random};
use crate::make_replays::totals_files;
use crate::recording::{opening_bytes, row_bytes, MAX_BYTES, MAX_ROWS, ROW_BYTES};
use crate::settings::{existing, Effect, Settings, MAX_DELAY, SEVERAL_FORCED};

/// The 70 bytes of "One session, whole", as document 01 prints them.
pub const SESSION: &str = "0001 0200 0064 0002 0001 00000000 0003 000000FA 0002
    00000003 0003 0000 0000 0000 0003 0003 0000 0000 0000 0000
    00000005 0002 0000 0000 0000 0003 0003 0000 0000 0000 0000";

/// The bytes that hexadecimal digits name; spaces are passed over.
pub fn bytes_of_hex(text: &str) -> Vec<u8> {
    let digits: Vec<u8> = text
        .chars()
        .filter(|character| !character.is_whitespace())
        .map(|character| character.to_digit(16).expect("a hexadecimal digit") as u8)
        .collect();
    digits
        .chunks(2)
        .map(|pair| pair[0] << 4 | pair[1])
        .collect()
}

/// From this count on the stream has three files of the largest size.
pub const LARGE_FROM: usize = 2_000;

/// Places in a file of `plain_file`.
const CAUSES: usize = 2;
const OPTIONS: usize = 3;
const PERIOD: usize = 4;
const EFFECT_COUNT: usize = 6;
const EFFECTS: usize = 8;
const EFFECT_BYTES: usize = 6;

// ---- Files to start from ----

pub fn plain_settings(causes: u8, effects: u8) -> Settings {
    let mut settings = Settings {
        causes,
        options: 0,
        period: 100,
        effects,
        ..Settings::default()
    };
    for index in 0..usize::from(effects) {
        settings.slots[index] = Effect {
            association: 1 << (index % usize::from(causes)),
            delay: 250 * index as u32,
        };
    }
    settings
}

fn plain_row(settings: &Settings, hold: u32) -> Row {
    Row {
        hold,
        words: Words {
            values: existing(settings.causes),
            reset_permit: existing(settings.effects),
            start_permit: 1,
            ..Words::default()
        },
    }
}

/// A file of the settings and rows, valid or not.
pub fn file_of(settings: &Settings, rows: &[Row]) -> Vec<u8> {
    let mut file = opening_bytes(settings, rows.len() as u16);
    for row in rows {
        file.extend_from_slice(&row_bytes(row));
    }
    file
}

fn plain_file(causes: u8, effects: u8, rows: u32) -> Vec<u8> {
    let settings = plain_settings(causes, effects);
    let rows: Vec<Row> = (1..=rows).map(|hold| plain_row(&settings, hold)).collect();
    file_of(&settings, &rows)
}

fn put16(file: &mut [u8], place: usize, number: u16) {
    file[place..place + 2].copy_from_slice(&number.to_be_bytes());
}

pub fn put32(file: &mut [u8], place: usize, number: u32) {
    file[place..place + 4].copy_from_slice(&number.to_be_bytes());
}

/// The place of the row count.
fn row_count_place(effects: usize) -> usize {
    EFFECTS + EFFECT_BYTES * effects
}

/// The place of a row, counted from 0.
pub fn row_place(effects: usize, row: usize) -> usize {
    row_count_place(effects) + 2 + ROW_BYTES * row
}

// ---- Named files ----

pub type Files = Vec<Named<Vec<u8>>>;

/// A file with what the reader must say: the refusal in `planted`, or nothing at all.
pub fn add(files: &mut Files, name: &str, planted: &[u8], file: Vec<u8>) {
    files.push(Named {
        name: name.to_string(),
        planted: Some(planted.to_vec()),
        case: file,
    });
}

fn add_if(files: &mut Files, name: &str, wrong: bool, number: u8, file: Vec<u8>) {
    if wrong {
        add(files, name, &[number], file);
    } else {
        add(files, name, &[], file);
    }
}

/// The session whole, cut at every length, with spare bytes, and each byte damaged.
fn session_files(files: &mut Files) {
    let session = bytes_of_hex(SESSION);
    add(files, "session", &[], session.clone());
    for length in 0..session.len() {
        add(files, "session cut", &[1], session[..length].to_vec());
    }
    for spare in [1, 2, 23, 24, 48] {
        let mut file = session.clone();
        file.resize(session.len() + spare, 0);
        add(files, "session with spare bytes", &[7], file);
    }
    for place in 0..session.len() {
        for change in [1, 4, 0x80] {
            let mut file = session.clone();
            file[place] ^= change;
            files.push(Named {
                name: "session damaged".to_string(),
                planted: None,
                case: file,
            });
        }
    }
}

fn smallest_files(files: &mut Files) {
    let smallest = plain_file(1, 1, 1);
    add(files, "smallest", &[], smallest.clone());
    add(
        files,
        "one byte below the smallest",
        &[1],
        smallest[..39].to_vec(),
    );
    let mut file = smallest;
    file.push(0);
    add(files, "smallest with a spare byte", &[7], file);
    add(files, "all counts at 16", &[], plain_file(16, 16, 3));
}

fn block_files(files: &mut Files) {
    let file = plain_file(3, 3, 2);
    for count in [0, 2, 3, 256, 257, 65_535] {
        let mut file = file.clone();
        put16(&mut file, 0, count);
        add(files, "block count", &[2], file.clone());
        add(
            files,
            "block count and nothing more",
            &[2],
            file[..2].to_vec(),
        );
    }
    for causes in [0, 3, 15, 16, 17, 255] {
        let mut file = file.clone();
        file[CAUSES] = causes;
        add_if(files, "causes", causes == 0 || causes > 16, 2, file);
    }
    for options in [1, 2, 4, 7, 8, 16, 32, 64, 128, 255] {
        let mut file = file.clone();
        file[OPTIONS] = options;
        add_if(files, "options", options > 7, 2, file);
    }
    for period in [0, 1, 999, 1_000, 1_001, 65_535] {
        let mut file = file.clone();
        put16(&mut file, PERIOD, period);
        add_if(
            files,
            "period",
            period == 0 || period > 1_000,
            2,
            file.clone(),
        );
        let planted = if period == 0 || period > 1_000 { 2 } else { 1 };
        add(
            files,
            "period and nothing more",
            &[planted],
            file[..6].to_vec(),
        );
    }
}

fn effect_files(files: &mut Files) {
    for count in [0, 17, 18, 256, 65_535] {
        let mut file = plain_file(3, 16, 1);
        put16(&mut file, EFFECT_COUNT, count);
        add(files, "effect count", &[3], file.clone());
        add(
            files,
            "effect count and nothing more",
            &[3],
            file[..8].to_vec(),
        );
    }
    for effect in 0..16 {
        let place = EFFECTS + EFFECT_BYTES * effect;
        for (association, wrong) in [(0, true), (4, false), (8, true), (0x8001, true)] {
            let mut file = plain_file(3, 16, 1);
            put16(&mut file, place, association);
            add_if(files, "association", wrong, 3, file);
        }
        for delay in [0, MAX_DELAY, MAX_DELAY + 1, u32::MAX] {
            let mut file = plain_file(3, 16, 1);
            put32(&mut file, place + 2, delay);
            add_if(files, "delay", delay > MAX_DELAY, 3, file);
        }
    }
}

fn row_count_files(files: &mut Files) {
    let file = plain_file(2, 2, 3);
    let place = row_count_place(2);
    for (count, number) in [
        (0, 4),
        (1, 7),
        (2, 7),
        (4, 1),
        (2_048, 1),
        (2_049, 4),
        (65_535, 4),
    ] {
        let mut file = file.clone();
        put16(&mut file, place, count);
        add(files, "row count", &[number], file.clone());
        let alone = if number == 4 { 4 } else { 1 };
        add(
            files,
            "row count and nothing more",
            &[alone],
            file[..place + 2].to_vec(),
        );
    }
}

fn row_files(files: &mut Files) {
    for row in 0..3 {
        let place = row_place(5, row);
        for hold in [0, 1, MAX_HOLD, MAX_HOLD + 1, u32::MAX] {
            let mut file = plain_file(3, 5, 3);
            put32(&mut file, place, hold);
            add_if(files, "hold", hold == 0 || hold > MAX_HOLD, 4, file);
        }
        for word in 0..10 {
            let count = match word {
                0..=2 => 3,
                7 => 1,
                _ => 5,
            };
            for (value, wrong) in [
                (1 << (count - 1), false),
                (1 << count, true),
                (0x8000, true),
            ] {
                let mut file = plain_file(3, 5, 3);
                put16(&mut file, place + 4 + 2 * word, value);
                add_if(files, "word", wrong, 4, file);
            }
        }
    }
}

/// Both force words of one row, with the refusals due.
fn force_files(files: &mut Files) {
    for row in 0..2 {
        for permit in [0, 1] {
            for (trip, normal, options, planted) in [
                (0, 1, 0, &[][..]),
                (1, 1, 0, &[5]),
                (1, 1, SEVERAL_FORCED, &[5]),
                (3, 1, 0, &[5, 6]),
                (3, 0, 3, &[6]),
                (0, 3, 0, &[6]),
                (1, 2, 0, &[6]),
                (1, 2, SEVERAL_FORCED, &[]),
                (3, 12, 7, &[]),
                (16, 1, 0, &[4, 6]),
                (17, 17, 0, &[4, 5, 6]),
            ] {
                let mut file = plain_file(2, 4, 2);
                file[OPTIONS] = options;
                let place = row_place(4, row);
                put16(&mut file, place + 18, permit);
                put16(&mut file, place + 20, trip);
                put16(&mut file, place + 22, normal);
                add(files, "force words", planted, file);
            }
        }
    }
}

/// Plants one refusal in a file of two causes, two effects and two rows. The later row
/// takes 6, the earlier 4 or 5, as the reader meets them.
fn plant_in_file(number: u8, file: &mut Vec<u8>) {
    match number {
        1 => {
            file.pop();
        }
        2 => file[OPTIONS] = 8,
        3 => put32(file, EFFECTS + EFFECT_BYTES + 2, MAX_DELAY + 1),
        4 => put32(file, row_place(2, 0), 0),
        5 => {
            put16(file, row_place(2, 0) + 20, 1);
            put16(file, row_place(2, 0) + 22, 1);
        }
        6 => put16(file, row_place(2, 1) + 20, 3),
        _ => file.push(0),
    }
}

/// Two refusals at once: the one that the reader meets first is given. 1 and 7 cannot
/// stand together. 1 comes before everything in its own entry: here it cuts row 2, which
/// holds 6, so 1 hides 6 and every other one hides 1.
fn fault_pair_files(files: &mut Files) {
    let met = [2, 3, 4, 5, 1, 6, 7];
    for (position, first) in met.iter().enumerate() {
        for second in &met[position + 1..] {
            if [*first, *second] == [1, 7] {
                continue;
            }
            let mut file = plain_file(2, 2, 2);
            plant_in_file(*second, &mut file);
            plant_in_file(*first, &mut file);
            add(files, "faults", &[*first, *second], file);
        }
    }
    // A later row's 4 does not hide an earlier row's 6, nor a 5 in row 2 a 4 in row 1.
    let mut file = plain_file(2, 2, 2);
    put16(&mut file, row_place(2, 0) + 20, 3);
    put32(&mut file, row_place(2, 1), 0);
    add(files, "6 in row 1, 4 in row 2", &[6, 4], file);
}

/// A wrong entry that is cut short is refused by 1, since an entry's bytes come before its
/// fields. A wrong entry that is whole hides the cut after it.
fn cut_entry_files(files: &mut Files) {
    let mut file = plain_file(3, 2, 2);
    file[CAUSES] = 0;
    for length in CAUSES + 1..EFFECT_COUNT {
        add(files, "wrong block cut", &[1], file[..length].to_vec());
    }
    let mut file = plain_file(3, 2, 2);
    put16(&mut file, EFFECTS, 8);
    let second = EFFECTS + EFFECT_BYTES;
    for length in EFFECTS + 2..second {
        add(files, "wrong effect cut", &[1], file[..length].to_vec());
    }
    for length in second..second + EFFECT_BYTES {
        let file = file[..length].to_vec();
        add(files, "wrong effect before a cut", &[3, 1], file);
    }
    // Of row 1: the hold, a word of causes, one of effects, and several forced.
    for (place, value, kept) in [(2, 0, 4), (4, 8, 6), (16, 4, 18), (20, 3, 22)] {
        let row = row_place(2, 0);
        let mut file = plain_file(3, 2, 2);
        put16(&mut file, row + place, value);
        for length in [kept, ROW_BYTES - 1] {
            add(files, "wrong row cut", &[1], file[..row + length].to_vec());
        }
        let number = if place == 20 { 6 } else { 4 };
        let file = file[..row + ROW_BYTES].to_vec();
        add(files, "wrong row before a cut", &[number, 1], file);
    }
}

fn full_rows(random: &mut Random) -> Vec<u8> {
    let settings = plain_settings(16, 16);
    let rows: Vec<Row> = (0..MAX_ROWS)
        .map(|_| random_row(random, &settings))
        .collect();
    file_of(&settings, &rows)
}

/// The largest file, and longer ones.
fn large_files(files: &mut Files, random: &mut Random) {
    for spare in [0, 1, 4] {
        let mut file = full_rows(random);
        assert!(file.len() == MAX_BYTES);
        file.resize(MAX_BYTES + spare, 0);
        add_if(files, "largest", spare > 0, 7, file);
    }
}

// ---- Random files ----

fn random_settings(random: &mut Random) -> Settings {
    let causes = random.between(1, 16) as u8;
    let mut settings = plain_settings(causes, random.pick(&[1, 1, 2, 2, 3, 5, 16]));
    settings.options = random.between(0, 7) as u8;
    settings.period = random.between(1, 1_000) as u16;
    for index in 0..usize::from(settings.effects) {
        let effect = &mut settings.slots[index];
        effect.association |= random.sparse() & existing(causes);
        effect.delay = random.pick(&[0, 1, 100, 250, 65_536, MAX_DELAY]);
    }
    settings
}

fn random_row(random: &mut Random, settings: &Settings) -> Row {
    let causes = existing(settings.causes);
    let effects = existing(settings.effects);
    let mut row = Row {
        hold: random.pick(&[1, 2, 3, 255, 256, 65_535, 65_536, 999_999, MAX_HOLD]),
        words: Words {
            values: random.word() & causes,
            bad: random.sparse() & causes,
            mask: random.sparse() & causes,
            require_reset: random.word() & effects,
            reset_permit: random.word() & effects,
            start_permit: random.word() & effects,
            reset: random.word() & effects,
            force_permit: random.between(0, 1) as u16,
            force_trip: 0,
            force_normal: 0,
        },
    };
    if settings.has_option(SEVERAL_FORCED) {
        row.words.force_trip = random.sparse() & effects;
        row.words.force_normal = random.word() & effects & !row.words.force_trip;
    } else if random.once_in(2) {
        row.words.force_trip = 1 << random.between(0, u32::from(settings.effects) - 1);
    }
    row
}

fn random_file(random: &mut Random) -> Vec<u8> {
    let settings = random_settings(random);
    let rows: Vec<Row> = (0..random.pick(&[1, 1, 2, 2, 3, 6]))
        .map(|_| random_row(random, &settings))
        .collect();
    file_of(&settings, &rows)
}

pub fn damage_file(random: &mut Random, file: &mut Vec<u8>) {
    let place = random.between(0, file.len() as u32 - 1) as usize;
    match random.between(0, 7) {
        0 => file.truncate(place.max(1)),
        1 => file.resize(file.len() + random.between(1, 30) as usize, 0),
        2..=4 => file[place] ^= 1 << random.between(0, 7),
        5 => file[place] = 0,
        6 => file[place] = 255,
        _ => file[place] = file[place].wrapping_add(1),
    }
}

/// The named files; the three largest only if they are asked for.
pub fn named_files(random: &mut Random, with_large: bool) -> Files {
    let mut files = Vec::new();
    session_files(&mut files);
    smallest_files(&mut files);
    block_files(&mut files);
    row_count_files(&mut files);
    fault_pair_files(&mut files);
    cut_entry_files(&mut files);
    force_files(&mut files);
    row_files(&mut files);
    effect_files(&mut files);
    if with_large {
        large_files(&mut files, random);
    }
    files
}

/// `count` files: the named ones first, then random ones.
pub fn file_cases(seed: u64, count: usize) -> Files {
    let mut random = Random::new(seed);
    let mut files = named_files(&mut random, count >= LARGE_FROM);
    totals_files(&mut files);
    files.truncate(count);
    while files.len() < count {
        let mut file = random_file(&mut random);
        if random.once_in(2) {
            for _ in 0..random.between(1, 2) {
                damage_file(&mut random, &mut file);
            }
        }
        files.push(Named {
            name: "random".to_string(),
            planted: None,
            case: file,
        });
    }
    files
}

// ---- Writing ----

/// Writing cases. What is planted is the refusal number of the opening, then that of the row;
/// 0 is accepted.
pub type Pieces = Vec<Named<WritingCase>>;

/// The length of the opening piece.
fn opening_length(effects: u8) -> u16 {
    10 + 6 * u16::from(effects)
}

pub fn plain_writing(causes: u8, effects: u8) -> WritingCase {
    let settings = plain_settings(causes, effects);
    WritingCase {
        settings,
        row_count: 2,
        row: plain_row(&settings, 5),
        room: MAX_PIECE_ROOM,
    }
}

fn add_writing(pieces: &mut Pieces, name: &str, planted: [u8; 2], case: WritingCase) {
    pieces.push(Named {
        name: name.to_string(),
        planted: Some(planted.to_vec()),
        case,
    });
}

fn writing_rooms(pieces: &mut Pieces) {
    for effects in [1, 2, 3, 15, 16] {
        let length = opening_length(effects);
        for room in [0, 1, 23, 24, 25, length - 1, length, length + 1, 106, 160] {
            let mut case = plain_writing(3, effects);
            case.room = room;
            let opening = if room < length { 10 } else { 0 };
            let row = if room < 24 { 10 } else { 0 };
            add_writing(pieces, "room", [opening, row], case);
        }
    }
}

fn writing_counts(pieces: &mut Pieces) {
    for row_count in [0, 1, 2, 255, 256, 2_047, 2_048, 2_049, 65_535] {
        let mut case = plain_writing(3, 3);
        case.row_count = row_count;
        let wrong = row_count == 0 || row_count > MAX_ROWS;
        add_writing(pieces, "row count", [if wrong { 4 } else { 0 }, 0], case);
    }
    for hold in [0, 1, 256, 65_536, MAX_HOLD, MAX_HOLD + 1, u32::MAX] {
        let mut case = plain_writing(3, 3);
        case.row.hold = hold;
        let wrong = hold == 0 || hold > MAX_HOLD;
        add_writing(pieces, "hold", [0, if wrong { 4 } else { 0 }], case);
    }
}

fn writing_settings(pieces: &mut Pieces) {
    let mut add = |name: &str, number: u8, change: &dyn Fn(&mut Settings)| {
        let mut case = plain_writing(3, 3);
        change(&mut case.settings);
        add_writing(pieces, name, [number, number], case);
    };
    for causes in [0, 17, 255] {
        add("causes", 2, &|settings| settings.causes = causes);
    }
    for options in [0, 1, 2, 4, 7, 8, 128, 255] {
        let number = if options > 7 { 2 } else { 0 };
        add("options", number, &|settings| settings.options = options);
    }
    for period in [0, 1, 255, 256, 1_000, 1_001, 65_535] {
        let number = if period == 0 || period > 1_000 { 2 } else { 0 };
        add("period", number, &|settings| settings.period = period);
    }
    for effects in [0, 2, 4, 17, 255] {
        add("effects", 3, &|settings| settings.effects = effects);
    }
    // With its slots zero too, nothing but the count is wrong.
    add("no effect", 3, &|settings| {
        settings.effects = 0;
        settings.slots = [Effect::default(); 16];
    });
    for slot in 0..16 {
        add("slot", 3, &|settings| settings.slots[slot].association = 8);
        add("slot", 3, &|settings| {
            settings.slots[slot].delay = MAX_DELAY + 1;
        });
        if slot < 3 {
            add("slot", 3, &|settings| settings.slots[slot].association = 0);
            add("slot", 0, &|settings| {
                settings.slots[slot].delay = MAX_DELAY
            });
        } else {
            add("slot", 3, &|settings| settings.slots[slot].association = 1);
            add("slot", 3, &|settings| settings.slots[slot].delay = 1);
        }
    }
}

fn writing_words(pieces: &mut Pieces) {
    for word in 0..10 {
        let count = match word {
            0..=2 => 3,
            7 => 1,
            _ => 5,
        };
        for (value, number) in [(1 << (count - 1), 0), (1 << count, 4), (0x8000, 4)] {
            let mut case = plain_writing(3, 5);
            let mut words = case.row.words.to_array();
            words[word] = value;
            case.row.words = Words::from_array(words);
            add_writing(pieces, "word", [0, number], case);
        }
    }
    for (trip, normal, options, number) in [
        (1, 1, 0, 5),
        (1, 1, SEVERAL_FORCED, 5),
        (3, 1, 0, 5),
        (3, 0, 0, 6),
        (1, 2, 3, 6),
        (1, 2, SEVERAL_FORCED, 0),
        (8, 8, 0, 4),
    ] {
        let mut case = plain_writing(3, 3);
        case.settings.options = options;
        case.row.words.force_trip = trip;
        case.row.words.force_normal = normal;
        add_writing(pieces, "force words", [0, number], case);
    }
}

/// Plants one refusal of the opening (`row` false) or the row. 5 and 6 are of the row.
fn plant_in_writing(number: u8, row: bool, case: &mut WritingCase) {
    match number {
        2 => case.settings.options |= 8,
        3 => case.settings.slots[4].delay = 1,
        4 if row => case.row.words.values = 8,
        4 => case.row_count = 0,
        5 => {
            case.row.words.force_trip |= 1;
            case.row.words.force_normal |= 1;
        }
        6 => case.row.words.force_trip |= 2,
        _ => case.room = 0,
    }
}

/// Each refusal alone and each pair at once; every pair can be made. A row meant for 6
/// starts with one force bit, to which the planting adds another.
fn writing_pairs(pieces: &mut Pieces) {
    let opening_order = [2, 3, 4, 10];
    for (position, first) in opening_order.iter().enumerate() {
        for second in &opening_order[position..] {
            let mut case = plain_writing(3, 3);
            plant_in_writing(*first, false, &mut case);
            plant_in_writing(*second, false, &mut case);
            let row = match (*first, *second) {
                (2 | 3, _) => *first,
                (_, 10) => 10,
                _ => 0,
            };
            add_writing(pieces, "faults of the opening", [*first, row], case);
        }
    }
    let row_order = [2, 3, 4, 5, 6, 10];
    for (position, first) in row_order.iter().enumerate() {
        for second in &row_order[position..] {
            let mut case = plain_writing(3, 3);
            if *first == 6 || *second == 6 {
                case.row.words.force_normal = 1;
            }
            plant_in_writing(*first, true, &mut case);
            plant_in_writing(*second, true, &mut case);
            let opening = match (*first, *second) {
                (2 | 3, _) => *first,
                (_, 10) => 10,
                _ => 0,
            };
            add_writing(pieces, "faults of the row", [opening, *first], case);
        }
    }
}

fn damage_writing(random: &mut Random, case: &mut WritingCase) {
    let number = random.pick(&[2, 3, 4, 5, 6, 10]);
    let row = random.once_in(2);
    plant_in_writing(number, row, case);
}

fn random_writing(random: &mut Random) -> WritingCase {
    let settings = random_settings(random);
    let length = opening_length(settings.effects);
    let mut case = WritingCase {
        settings,
        row_count: random.between(1, u32::from(MAX_ROWS)) as u16,
        row: random_row(random, &settings),
        room: random.pick(&[0, 23, 24, 25, length - 1, length, length + 1, length + 9]),
    };
    if random.once_in(3) {
        damage_writing(random, &mut case);
    }
    case
}

/// The named writing cases.
pub fn named_writings() -> Pieces {
    let mut pieces = Vec::new();
    writing_rooms(&mut pieces);
    writing_counts(&mut pieces);
    writing_settings(&mut pieces);
    writing_words(&mut pieces);
    writing_pairs(&mut pieces);
    pieces
}

/// `count` writing cases: the named ones first, then random ones.
pub fn writing_cases(seed: u64, count: usize) -> Pieces {
    let mut random = Random::new(seed);
    let mut pieces = named_writings();
    pieces.truncate(count);
    while pieces.len() < count {
        pieces.push(Named {
            name: "random".to_string(),
            planted: None,
            case: random_writing(&mut random),
        });
    }
    pieces
}
