//! The replay of whole recordings: document 01's session, the refusals, the end of the scan
//! numbers, every row and its reasons against single stepping, and what the made streams reach.

use second::block::{run, step, without_reset, Phase, Row, State, Words, RECORD_BYTES};
use second::cases::{Kind, RunCase};
use second::make::{Named, Random};
use second::make_files::{bytes_of_hex, file_of, SESSION};
use second::make_filled::{filled_file, random_ending};
use second::make_replays::{replay_cases, LARGE_FROM};
use second::make_runs::run_cases;
use second::make_whys::why_cases;
use second::reasons::{reason_after, Reason};
use second::recording::read;
use second::replay::{listed, replay, run_row, Change, Columns, Listing, Now, RowRun, Totals};
use second::settings::{Effect, Settings};
use std::collections::{BTreeMap, BTreeSet};
use std::sync::OnceLock;
use Phase::*;

fn session() -> Vec<u8> {
    bytes_of_hex(SESSION)
}

fn cases() -> &'static [Named<Vec<u8>>] {
    static CASES: OnceLock<Vec<Named<Vec<u8>>>> = OnceLock::new();
    CASES.get_or_init(|| replay_cases(1, LARGE_FROM))
}

fn whys() -> &'static [Named<Vec<u8>>] {
    static CASES: OnceLock<Vec<Named<Vec<u8>>>> = OnceLock::new();
    CASES.get_or_init(|| why_cases(1, LARGE_FROM))
}

// ---- "One session, whole" ----

const LISTING: &str = "\
seq scan effect from to first
0 1 1 tripped normal 0
1 1 2 tripped normal 0
2 4 1 normal tripped 1
3 4 2 normal delayed 1
4 7 2 delayed tripped 1
rows 2 scans 8 live 3 exercised 5
";

#[test]
fn session_gives_its_listing_to_the_byte() {
    let listing = replay(&session());
    assert_eq!(listing.text, LISTING);
    assert_eq!(listing.refusal, None);
}

#[test]
fn a_refused_file_gives_one_line() {
    let session = session();
    for length in 0..session.len() {
        let text = replay(&session[..length]).text;
        assert_eq!(text, format!("refused 1 at {length}\n"));
    }
    let changed = |place: usize, byte: u8| {
        let mut file = session.clone();
        file[place] = byte;
        replay(&file).text
    };
    assert_eq!(changed(1, 2), "refused 2 at 0\n");
    assert_eq!(changed(2, 17), "refused 2 at 2\n");
    assert_eq!(changed(7, 0), "refused 3 at 6\n");
    assert_eq!(changed(15, 4), "refused 3 at 14\n");
    assert_eq!(changed(21, 0), "refused 4 at 20\n");
    assert_eq!(changed(49, 0), "refused 4 at 46\n");
    assert_eq!(changed(67, 3), "refused 6 at 46\n");
    let mut both = session.clone();
    (both[43], both[45]) = (1, 1);
    assert_eq!(replay(&both).text, "refused 5 at 22\n");
    let longer = [&session[..], &[0]].concat();
    assert_eq!(replay(&longer).text, "refused 7 at 70\n");
}

/// Every state's name, and a first-out of two causes, worked out by hand.
#[test]
fn a_whole_way_round() {
    let mut settings = Settings {
        causes: 3,
        period: 100,
        effects: 1,
        ..Settings::default()
    };
    settings.slots[0] = Effect {
        association: 6,
        delay: 200,
    };
    let words = Words {
        values: 7,
        require_reset: 1,
        ..Words::default()
    };
    let row = |hold, words| Row { hold, words };
    let rows = [
        row(2, words),
        row(
            2,
            Words {
                reset_permit: 1,
                reset: 1,
                ..words
            },
        ),
        row(
            3,
            Words {
                reset_permit: 1,
                reset: 1,
                ..words
            },
        ),
        row(
            1,
            Words {
                start_permit: 1,
                ..words
            },
        ),
        row(1, Words { values: 0, ..words }),
        row(1_000_000, words),
    ];
    let expected = "\
seq scan effect from to first
0 1 1 tripped wait-reset 0
1 3 1 wait-reset ready 0
2 5 1 ready wait-start 0
3 8 1 wait-start normal 0
4 9 1 normal delayed 6
5 11 1 delayed tripped 6
6 12 1 tripped wait-reset 6
rows 6 scans 1000009 live 7 exercised 1
";
    assert_eq!(replay(&file_of(&settings, &rows)).text, expected);
}

// ---- The end of the scan numbers ----

/// One cause and one effect without a delay: it trips in the second row and stays so.
fn long_file(holds: &[u32]) -> Vec<u8> {
    let mut settings = Settings {
        causes: 1,
        period: 100,
        effects: 1,
        ..Settings::default()
    };
    settings.slots[0].association = 1;
    let row = |(index, hold): (usize, &u32)| Row {
        hold: *hold,
        words: Words {
            values: u16::from(index == 0),
            start_permit: 1,
            ..Words::default()
        },
    };
    let rows: Vec<Row> = holds.iter().enumerate().map(row).collect();
    file_of(&settings, &rows)
}

const LONG_LINES: &str = "\
seq scan effect from to first
0 1 1 tripped normal 0
1 1000001 1 normal tripped 1
";

#[test]
fn a_thousand_million_scans_are_accepted() {
    for holds in [
        vec![1_000_000; 1_000],
        [vec![1_000_000; 999], vec![999_999, 1]].concat(),
    ] {
        let rows = holds.len();
        let last = format!(
            "rows {rows} scans 1000000000 live 2 exercised {}\n",
            999_000_000
        );
        assert_eq!(
            replay(&long_file(&holds)).text,
            LONG_LINES.to_string() + &last
        );
    }
}

#[test]
fn one_scan_more_is_refused_at_its_row() {
    for (holds, row) in [
        ([vec![1_000_000; 1_000], vec![1]].concat(), 1_000),
        ([vec![1_000_000; 999], vec![999_999, 2, 1]].concat(), 1_000),
        ([vec![1_000_000; 999], vec![1, 1_000_000]].concat(), 1_000),
        (vec![1_000_000; 2_048], 1_000),
    ] {
        let listing = replay(&long_file(&holds));
        // the opening has 16 bytes, a row 24
        let last = format!("refused 9 at {}\n", 16 + 24 * row);
        assert_eq!(listing.text, LONG_LINES.to_string() + &last);
        assert_eq!(listing.refusal.map(|refusal| refusal.number), Some(9));
    }
}

#[test]
fn the_reader_refuses_before_any_row_runs() {
    let mut file = long_file(&vec![1_000_000; 1_002]);
    file.push(0);
    let spare = file.len() - 1;
    assert_eq!(replay(&file).text, format!("refused 7 at {spare}\n"));
}

// ---- Single stepping ----

/// The reasons of the records in their order, and all effects after the last scan, each reason
/// asked for its own scan alone.
fn stepped_reasons(settings: &Settings, state: &State, row: &Row) -> (Vec<Reason>, Vec<Now>) {
    let mut state = *state;
    let (mut reasons, mut now) = (Vec::new(), Vec::new());
    for scan in 1..=row.hold {
        let words = match scan {
            1 => row.words,
            _ => without_reset(&row.words),
        };
        let step = step(settings, &state, &words);
        let reason = |effect| reason_after(settings, &state, &words, effect).expect("accepted");
        reasons.extend(step.records.iter().map(|record| reason(record[6])));
        if scan == row.hold {
            let effects = (1..=settings.effects).zip(step.state.slots);
            now.extend(effects.map(|(effect, slot)| Now {
                effect,
                slot,
                reason: reason(effect),
            }));
        }
        state = step.state;
    }
    (reasons, now)
}

/// What `run` gives, which steps every scan singly, in the terms of `run_row`.
fn stepped(settings: &Settings, state: &State, row: &Row) -> RowRun {
    let run = run(settings, state, row);
    let (reasons, now) = stepped_reasons(settings, state, row);
    assert_eq!(reasons.len(), run.records.len());
    let change = |(record, reason): (&[u8; RECORD_BYTES], Reason)| Change {
        scan: u32::from_be_bytes([record[2], record[3], record[4], record[5]]),
        effect: record[6],
        before: Phase::from_code(record[7]).expect("a state"),
        after: Phase::from_code(record[8]).expect("a state"),
        first_out: u16::from_be_bytes([record[10], record[11]]),
        reason,
    };
    let sequence = |record: &[u8; RECORD_BYTES]| u16::from_be_bytes([record[0], record[1]]);
    for (index, record) in run.records.iter().enumerate() {
        let expected = state.next_sequence.wrapping_add(index as u16);
        assert_eq!(sequence(record), expected);
    }
    RowRun {
        state: run.last.state,
        changes: run.records.iter().zip(reasons).map(change).collect(),
        live: run.live,
        exercised: run.exercised,
        now,
    }
}

/// Rows of the made recordings in the states that they meet there. Holds too long to be
/// stepped in a test are cut; `long_holds_equal_their_single_steps` has some.
#[test]
fn rows_of_recordings_equal_their_single_steps() {
    let mut rows = 0;
    for named in cases().iter().chain(whys()) {
        let Ok(recording) = read(&named.case) else {
            continue;
        };
        let mut state = State::default();
        for row in &recording.rows {
            let row = Row {
                hold: row.hold.min(1_000 + row.hold % 7),
                ..*row
            };
            let run = run_row(&recording.settings, &state, &row);
            assert_eq!(run, stepped(&recording.settings, &state, &row));
            state = run.state;
            rows += 1;
        }
    }
    assert!(rows > 30_000, "{rows} rows");
}

/// Held cases that are accepted, given room enough.
fn held_cases() -> &'static [RunCase] {
    static CASES: OnceLock<Vec<RunCase>> = OnceLock::new();
    CASES.get_or_init(|| {
        let cases = run_cases(Kind::Held, 7, 5_000).into_iter();
        let accepted = |case: &RunCase| {
            case.settings.check().is_ok()
                && case.state.check(&case.settings).is_ok()
                && case.row.check(&case.settings).is_ok()
                && u64::from(case.state.scans_done) + u64::from(case.row.hold) <= 1_000_000_000
        };
        cases.map(|named| named.case).filter(accepted).collect()
    })
}

/// Rows from any right state, also such as no replay reaches.
#[test]
fn rows_from_any_state_equal_their_single_steps() {
    let mut rows = 0;
    for case in held_cases().iter().filter(|case| case.row.hold <= 100_000) {
        let run = run_row(&case.settings, &case.state, &case.row);
        assert_eq!(run, stepped(&case.settings, &case.state, &case.row));
        rows += 1;
    }
    assert!(rows > 3_500, "{rows} rows");
}

#[test]
fn long_holds_equal_their_single_steps() {
    let mut rows = 0;
    for case in held_cases()
        .iter()
        .filter(|case| case.row.hold > 100_000)
        .take(15)
    {
        let run = run_row(&case.settings, &case.state, &case.row);
        assert_eq!(run, stepped(&case.settings, &case.state, &case.row));
        rows += 1;
    }
    assert!(rows >= 10, "{rows} rows");
}

// ---- What the made streams reach ----

fn planted_are_replayed(columns: Columns, files: &[Named<Vec<u8>>]) {
    for (index, named) in files.iter().enumerate() {
        let Some(planted) = &named.planted else {
            continue;
        };
        let listing = listed(columns, &named.case);
        let number = listing.refusal.map(|refusal| refusal.number);
        let expected = planted.first().copied();
        assert_eq!(number, expected, "file {} {}", index + 1, named.name);
        let alone = number.is_some_and(|number| number != 9);
        assert_eq!(listing.text.starts_with(columns.header()), !alone);
    }
}

#[test]
fn planted_recordings_are_replayed() {
    planted_are_replayed(Columns::Plain, cases());
    planted_are_replayed(Columns::WithReason, whys());
}

/// A line for each record between the header and the last line, which has the other totals.
#[test]
fn listings_and_totals_agree() {
    let mut accepted = 0;
    for named in cases() {
        let Listing {
            text,
            totals,
            refusal,
            ..
        } = replay(&named.case);
        if refusal.is_some() {
            assert_eq!(totals, Totals::default());
            continue;
        }
        accepted += 1;
        let lines: Vec<&str> = text.lines().collect();
        assert_eq!(lines.len(), totals.records as usize + 2);
        let last = format!(
            "rows {} scans {} live {} exercised {}",
            totals.rows, totals.scans, totals.live, totals.exercised
        );
        assert_eq!(lines.last(), Some(&last.as_str()));
    }
    assert!(accepted >= 500, "{accepted} accepted");
}

/// The changes of state that the rules allow: to Tripped and to Normal from every other
/// state (rules 1 to 3), and rules 4 to 9.
const CHANGES: [(&str, &str); 17] = [
    ("tripped", "wait-reset"),
    ("tripped", "ready"),
    ("tripped", "wait-start"),
    ("tripped", "normal"),
    ("wait-reset", "tripped"),
    ("wait-reset", "ready"),
    ("wait-reset", "normal"),
    ("ready", "tripped"),
    ("ready", "wait-reset"),
    ("ready", "wait-start"),
    ("ready", "normal"),
    ("wait-start", "tripped"),
    ("wait-start", "normal"),
    ("normal", "tripped"),
    ("normal", "delayed"),
    ("delayed", "tripped"),
    ("delayed", "normal"),
];

#[test]
fn listings_reach_every_change_and_every_refusal() {
    let mut changes = BTreeMap::new();
    let mut numbers = BTreeMap::new();
    for named in cases().iter().filter(|named| named.planted.is_none()) {
        let listing = replay(&named.case);
        let number = listing.refusal.map_or(0, |refusal| refusal.number);
        *numbers.entry(number).or_insert(0) += 1;
        for line in listing.text.lines() {
            let words: Vec<&str> = line.split(' ').collect();
            if let [_, _, _, before, after, first] = words[..] {
                if before != "from" {
                    let change = (before.to_string(), after.to_string());
                    let times = changes.entry(change).or_insert([0, 0]);
                    times[usize::from(first != "0")] += 1;
                }
            }
        }
    }
    let expected: BTreeSet<_> = CHANGES
        .iter()
        .map(|(before, after)| (before.to_string(), after.to_string()))
        .collect();
    let seen: BTreeSet<_> = changes.keys().cloned().collect();
    assert_eq!(seen, expected);
    for (change, times) in &changes {
        assert!(times[0] + times[1] >= 30, "{change:?}: {times:?}");
        assert!(
            change.1 == "normal" || times[1] >= 50,
            "{change:?}: {times:?}"
        );
    }
    for number in [0, 1, 2, 3, 4, 7, 9] {
        let times = numbers.get(&number).copied().unwrap_or(0);
        assert!(times >= 1, "number {number}: {times} of {numbers:?}");
    }
}

#[test]
fn recordings_reach_their_sizes() {
    let rows = |file: &[u8]| read(file).map_or(0, |recording| recording.rows.len());
    // the stored streams have random recordings of a thousand rows too
    for files in [replay_cases(1, 500), why_cases(1, 500)] {
        let mut random = files.iter().filter(|named| named.planted.is_none());
        assert!(random.any(|named| rows(&named.case) >= 1_000));
    }
}

/// The longest that we can make: an effect changes three times in two rows, over and over,
/// 3 x 1,024 x 16 records.
#[test]
fn the_longest_listing_has_no_number_twice() {
    let named = cases().iter().find(|named| named.name == "longest listing");
    let text = replay(&named.expect("it is named").case).text;
    let lines: Vec<&str> = text.lines().collect();
    assert_eq!(lines.len(), 1 + 49_152 + 1);
    assert!(lines[49_152].starts_with("49151 "));
    let longest = cases().iter().map(|named| replay(&named.case).text.len());
    assert_eq!(longest.max(), Some(text.len()));
}

/// Nothing tried gives more: over all rows that one effect can meet, the most changes after
/// each row, by the state that it ends in. Delays of one scan and of more are enough, since
/// only whether a timer ends inside its row matters.
#[test]
fn no_recording_gives_more_records() {
    let mut most: BTreeMap<(Phase, u32), u32> = BTreeMap::from([((Tripped, 0), 0)]);
    for _ in 0..64 {
        let mut after = BTreeMap::new();
        for ((phase, timer), records) in &most {
            for bits in 0..1 << 10 {
                for hold in [1, 2, 3, 9] {
                    let (slot, changes) = one_row(*phase, *timer, bits, hold);
                    let best = after.entry(slot).or_insert(0);
                    *best = (*best).max(records + changes);
                }
            }
        }
        most = after;
    }
    assert_eq!(most.values().max(), Some(&96));
}

/// One effect with a delay of three scans, in one row whose words are ten bits.
fn one_row(phase: Phase, timer: u32, bits: u16, hold: u32) -> ((Phase, u32), u32) {
    let mut settings = Settings {
        causes: 1,
        options: 1,
        period: 100,
        effects: 1,
        ..Settings::default()
    };
    settings.slots[0] = Effect {
        association: 1,
        delay: 300,
    };
    let mut words = [0; 10];
    for (index, word) in words.iter_mut().enumerate() {
        *word = bits >> index & 1;
    }
    let mut state = State::default();
    state.slots[0].phase = phase;
    state.slots[0].timer = timer;
    let words = Words::from_array(words);
    let run = run_row(&settings, &state, &Row { hold, words });
    let slot = run.state.slots[0];
    ((slot.phase, slot.timer), run.changes.len() as u32)
}

// ---- Listings that end about the end of a buffer ----

/// How a listing goes through a buffer that is written before a piece (a row's lines, the
/// last line) for which fewer than 2,368 bytes are left.
struct Printed {
    /// Bytes before the last line.
    length: usize,
    /// The fill at every write before the last line's own.
    fills: Vec<usize>,
    /// The fill before the last line, and before the last row.
    before_last_line: usize,
    before_last_row: usize,
}

impl Printed {
    /// How often the buffer was written before the last row's lines, or the last line, came.
    fn writes_by(&self, fill: usize, edge: usize) -> usize {
        self.fills.len() - usize::from(fill > edge)
    }
}

/// What a piece of a listing counts as: 32 lines of 74 bytes.
const PIECE: usize = 2_368;

/// `None` for what the reader refuses.
fn printed(columns: Columns, file: &[u8], buffer: usize) -> Option<Printed> {
    let edge = buffer - PIECE;
    let recording = read(file).ok()?;
    let text = listed(columns, file).text;
    let mut lines = text.split_inclusive('\n').map(str::len);
    let mut state = State::default();
    let mut printed = Printed {
        length: lines.next()?,
        fills: Vec::new(),
        before_last_line: 0,
        before_last_row: 0,
    };
    let mut fill = printed.length;
    for row in &recording.rows {
        if state.scans_done + row.hold > 1_000_000_000 {
            break;
        }
        printed.before_last_row = fill;
        let run = run_row(&recording.settings, &state, row);
        let taken: usize = lines.by_ref().take(run.changes.len()).sum();
        if fill > edge {
            printed.fills.push(fill);
            fill = 0;
        }
        fill += taken;
        printed.length += taken;
        state = run.state;
    }
    assert!(lines.next().is_some() && lines.next().is_none());
    printed.before_last_line = fill;
    if fill > edge {
        printed.fills.push(fill);
    }
    Some(printed)
}

/// A stored stream, for the buffer of 4,096 bytes that its program has. Fills are met in so many steps
/// of 64 bytes past the edge.
fn listings_end_about_the_end_of_a_buffer(
    columns: Columns,
    files: &[Named<Vec<u8>>],
    most_steps: usize,
) {
    let edge = 4_096 - PIECE;
    let all: Vec<Printed> = files
        .iter()
        .filter_map(|named| printed(columns, &named.case, 4_096))
        .collect();
    for writes in 0..3 {
        // the last line fits up to the edge; past it the buffer is written first
        let ends: BTreeSet<usize> = all
            .iter()
            .filter(|one| one.writes_by(one.before_last_line, edge) == writes)
            .map(|one| one.before_last_line)
            .collect();
        for fill in [edge - 1, edge, edge + 1] {
            assert!(ends.contains(&fill), "{fill} after {writes} writes");
        }
        // and so does the last row, however many lines it has
        let ends: BTreeSet<usize> = all
            .iter()
            .filter(|one| one.before_last_line != one.before_last_row)
            .map(|one| one.before_last_row)
            .collect();
        for fill in [edge - 1, edge, edge + 1] {
            assert!(ends.contains(&fill), "{fill} before the last row");
        }
    }
    let steps: BTreeSet<usize> = all
        .iter()
        .flat_map(|one| &one.fills)
        .map(|fill| (fill - edge) / 64)
        .collect();
    assert_eq!(steps, BTreeSet::from_iter(0..most_steps));
    let lengths: BTreeSet<usize> = all.iter().map(|one| one.length).collect();
    for length in (edge - 64..4_096 + 64).step_by(48) {
        assert!(lengths.contains(&length), "{length} bytes");
    }
    let nines: BTreeSet<bool> = files
        .iter()
        .filter(|named| named.planted.as_deref() == Some(&[9]))
        .map(|named| {
            let one = printed(columns, &named.case, 4_096);
            one.expect("read").before_last_line > edge
        })
        .collect();
    assert_eq!(nines, BTreeSet::from([false, true]));
}

#[test]
fn stored_listings_end_about_the_end_of_a_buffer() {
    listings_end_about_the_end_of_a_buffer(Columns::Plain, &replay_cases(1, 500), 19);
    listings_end_about_the_end_of_a_buffer(Columns::WithReason, &why_cases(1, 500), 25);
}

/// A line counts as 74 bytes, which none passes, even one with the longest word in each column; nor do
/// the header and the last line.
#[test]
fn no_line_of_a_listing_is_longer_than_it_counts() {
    let longest = "65535 1000000000 16 wait-reset wait-start 65535 delay running 3600000\n";
    assert!(longest.len() <= 74);
    for named in cases().iter().chain(whys()) {
        let text = listed(Columns::WithReason, &named.case).text;
        assert!(text.lines().all(|line| line.len() < 74));
    }
}

/// The fresh ones, for the buffer of 65,536 bytes of the programs.
fn fresh_ones_end_about_the_end_of_a_buffer(columns: Columns) {
    let edge = 65_536 - PIECE;
    let mut seen = BTreeSet::new();
    let mut random = Random::new(3);
    for _ in 0..400 {
        let ending = random_ending(&mut random, 65_536);
        let file = filled_file(&mut random, columns, 65_536, &ending);
        let one = printed(columns, &file, 65_536).expect("read");
        let fill = match ending.many {
            Some(_) => one.before_last_row,
            None => one.before_last_line,
        };
        assert_eq!(fill, ending.fill, "{ending:?}");
        let last_row_writes = ending.many.is_some() && fill > edge;
        let writes = ending.writes + usize::from(last_row_writes);
        assert_eq!(one.writes_by(one.before_last_line, edge), writes);
        seen.insert((ending.writes, ending.many, one.before_last_line > edge));
    }
    for writes in 0..3 {
        for (many, first) in [
            (None, false),
            (None, true),
            (Some(1), false),
            (Some(1), true),
            (Some(3), true),
        ] {
            assert!(seen.contains(&(writes, many, first)), "{seen:?}");
        }
    }
}

#[test]
fn fresh_listings_end_about_the_end_of_a_buffer() {
    fresh_ones_end_about_the_end_of_a_buffer(Columns::Plain);
    fresh_ones_end_about_the_end_of_a_buffer(Columns::WithReason);
}
