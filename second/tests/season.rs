//! Season totals: the session's numbers and others worked out by hand, the limit of 64 bits, the
//! order of refusals, the table to the byte, and single steps against stretches.

use second::block::{Phase, Row, Words, PHASES};
use second::cases::{answer_season, SeasonCase};
use second::make::{Named, Random};
use second::make_files::{bytes_of_hex, file_of, SESSION};
use second::make_replays::replay_cases;
use second::make_season::season_cases;
use second::recording::{read, Recording, Refusal};
use second::season::{
    add, by_single_steps, by_stretches, scans_in, trips_of, Report, Season, EXERCISED,
    REPORT_BYTES, REPORT_NUMBERS, SHORT_SCANS,
};
use second::settings::{Effect, Settings};
use std::collections::{BTreeMap, BTreeSet};
use std::ffi::OsStr;
use std::fs::{File, OpenOptions};
use std::io::Write;
use std::os::unix::ffi::OsStrExt;
use std::path::PathBuf;
use std::process::{Command, Output, Stdio};
use std::sync::OnceLock;
use Phase::*;

fn session() -> Vec<u8> {
    bytes_of_hex(SESSION)
}

/// A report of zeros but for the numbers at the given places.
fn report_of(numbers: &[(usize, u64)]) -> Report {
    let mut report = Report::empty();
    for (place, number) in numbers {
        report.numbers[*place] = *number;
    }
    report
}

/// The session's report. Effect 1 stands in Normal after scans 1 to 3 and in Tripped after 4 to 8.
/// Effect 2 stands in Normal after 1 to 3, in Delayed after 4 to 6 and in Tripped after 7 and 8.
/// Cause 1 is tripped in the 5 scans of row 2.
const SESSION_NUMBERS: [(usize, u64); 8] = [
    (0, 5),
    (4, 3),
    (6, 1),
    (7, 2),
    (11, 3),
    (12, 3),
    (13, 1),
    (112, 5),
];

fn refused(number: u8, place: u32) -> Result<u8, Refusal> {
    Err(Refusal { number, place })
}

// ---- The numbers ----

#[test]
fn session_gives_its_report() {
    let mut report = Report::empty();
    assert_eq!(add(&mut report, &session()), Ok(2));
    assert_eq!(report, report_of(&SESSION_NUMBERS));
}

#[test]
fn the_session_twice_is_double() {
    let mut report = report_of(&SESSION_NUMBERS);
    assert_eq!(add(&mut report, &session()), Ok(2));
    let doubled = SESSION_NUMBERS.map(|(place, number)| (place, 2 * number));
    assert_eq!(report, report_of(&doubled));
}

/// A report that no recordings give is taken as it is.
#[test]
fn any_report_is_added_to() {
    let mut report = Report::empty();
    for (place, number) in report.numbers.iter_mut().enumerate() {
        *number = 1_000 * place as u64;
    }
    let before = report;
    assert_eq!(add(&mut report, &session()), Ok(2));
    assert_eq!(Some(report), before.plus(&report_of(&SESSION_NUMBERS)));
    assert_eq!(report.numbers[0], 5);
    assert_eq!(report.numbers[13], 13_001);
    assert_eq!(report.numbers[14], 14_000);
    assert_eq!(report.numbers[111], 111_000);
    assert_eq!(report.numbers[112], 112_005);
}

#[test]
fn places_of_the_numbers() {
    assert_eq!(scans_in(0, Tripped), 0);
    assert_eq!(scans_in(0, Delayed), 5);
    assert_eq!(trips_of(0), 6);
    assert_eq!(scans_in(15, WaitReset), 106);
    assert_eq!(trips_of(15), 111);
    assert_eq!(EXERCISED, 112);
    assert_eq!((REPORT_NUMBERS, REPORT_BYTES), (113, 904));
}

/// Eight bytes for each number, the highest first.
#[test]
fn bytes_of_a_report() {
    let report = report_of(&[(0, 0x0102_0304_0506_0708), (1, 9), (112, u64::MAX)]);
    let bytes = report.to_bytes();
    assert_eq!(bytes.len(), 904);
    assert_eq!(
        bytes[..16],
        [1, 2, 3, 4, 5, 6, 7, 8, 0, 0, 0, 0, 0, 0, 0, 9]
    );
    assert_eq!(bytes[896..], [255; 8]);
    assert!(bytes[16..896].iter().all(|byte| *byte == 0));
    let bytes: [u8; 904] = bytes.try_into().expect("904 bytes");
    assert_eq!(Report::of_bytes(&bytes), report);
}

fn one_effect(delay: u32) -> Settings {
    let mut settings = Settings {
        causes: 1,
        period: 100,
        effects: 1,
        ..Settings::default()
    };
    settings.slots[0] = Effect {
        association: 1,
        delay,
    };
    settings
}

/// One effect with a delay of two scans goes through all states: Wait-reset after scans 1 and 2, Ready
/// after 3 and 4, Wait-start after 5 to 7, Normal after 8, Delayed after 9 and 10, and then Tripped. A
/// short recording is counted scan by scan, a long one by stretches.
#[test]
fn a_way_through_all_states() {
    let quiet = Words {
        values: 1,
        require_reset: 1,
        ..Words::default()
    };
    let permitted = Words {
        reset_permit: 1,
        reset: 1,
        ..quiet
    };
    let started = Words {
        start_permit: 1,
        ..quiet
    };
    let tripped = Words { values: 0, ..quiet };
    let row = |hold, words| Row { hold, words };
    for last in [12, 1_000_000] {
        let rows = [
            row(2, quiet),
            row(2, permitted),
            row(3, permitted),
            row(1, started),
            row(2, tripped),
            row(last, tripped),
        ];
        let mut report = Report::empty();
        let file = file_of(&one_effect(200), &rows);
        assert_eq!(add(&mut report, &file), Ok(1));
        let last = u64::from(last);
        let expected = [
            (0, last),
            (1, 2),
            (2, 2),
            (3, 3),
            (4, 1),
            (5, 2),
            (6, 1),
            (112, last + 2),
        ];
        assert_eq!(report, report_of(&expected));
    }
}

/// The fresh Tripped stands after no scan and is no change into Tripped; leaving Tripped is none
/// either. Normal after scans 1 and 2, Tripped after 3 to 5, then Normal to the end.
#[test]
fn a_recording_that_ends_in_normal() {
    let normal = |hold| Row {
        hold,
        words: Words {
            values: 1,
            start_permit: 1,
            ..Words::default()
        },
    };
    for last in [4, 40_000] {
        let mut report = Report::empty();
        let file = file_of(&one_effect(0), &[normal(last)]);
        assert_eq!(add(&mut report, &file), Ok(1));
        assert_eq!(report, report_of(&[(4, last.into())]));

        let mut report = Report::empty();
        let rows = [normal(2), tripped_row(3), normal(last)];
        assert_eq!(add(&mut report, &file_of(&one_effect(0), &rows)), Ok(1));
        let expected = [(0, 3), (4, 2 + u64::from(last)), (6, 1), (112, 3)];
        assert_eq!(report, report_of(&expected));
    }
}

/// A row that keeps every effect of a fresh state in Tripped.
fn tripped_row(hold: u32) -> Row {
    Row {
        hold,
        words: Words::default(),
    }
}

#[test]
fn a_thousand_million_scans_are_counted() {
    let file = file_of(&one_effect(0), &[tripped_row(1_000_000); 1_000]);
    let mut report = Report::empty();
    assert_eq!(add(&mut report, &file), Ok(1));
    let expected = [(0, 1_000_000_000), (112, 1_000_000_000)];
    assert_eq!(report, report_of(&expected));
}

// ---- Refusals ----

/// That a file is refused so, with no number changed.
fn refuses(report: &Report, file: &[u8], number: u8, place: u32) {
    let mut after = *report;
    assert_eq!(add(&mut after, file), refused(number, place));
    assert_eq!(after, *report);
}

fn full() -> Report {
    Report {
        numbers: [u64::MAX; REPORT_NUMBERS],
    }
}

#[test]
fn the_reader_refuses_first() {
    let session = session();
    let longer = [&session[..], &[0]].concat();
    for report in [Report::empty(), report_of(&SESSION_NUMBERS), full()] {
        refuses(&report, &session[..69], 1, 69);
        refuses(&report, &[], 1, 0);
        refuses(&report, &longer, 7, 70);
    }
}

/// 9 is for the whole length, so it has no place, and it comes before 11.
#[test]
fn too_many_scans_are_refused_before_a_full_report() {
    let mut rows = vec![tripped_row(1_000_000); 1_000];
    rows.push(tripped_row(1));
    let mut file = file_of(&one_effect(0), &rows);
    refuses(&Report::empty(), &file, 9, 0);
    refuses(&full(), &file, 9, 0);
    let spare = file.len() as u32;
    file.push(0);
    refuses(&full(), &file, 7, spare);
}

#[test]
fn a_full_report_is_refused() {
    refuses(&full(), &session(), 11, 0);
}

/// A sum may reach 2^64 - 1 and not pass it. What the session does not add to may be full.
#[test]
fn sums_end_at_64_bits() {
    for (place, number) in SESSION_NUMBERS {
        let mut report = report_of(&[(place, u64::MAX - number)]);
        assert_eq!(add(&mut report, &session()), Ok(2));
        assert_eq!(report.numbers[place], u64::MAX);
        refuses(&report, &session(), 11, 0);
        refuses(
            &report_of(&[(place, u64::MAX - number + 1)]),
            &session(),
            11,
            0,
        );
    }
}

#[test]
fn what_is_not_added_to_may_be_full() {
    let mut report = full();
    for (place, number) in SESSION_NUMBERS {
        report.numbers[place] -= number;
    }
    assert_eq!(add(&mut report, &session()), Ok(2));
    assert_eq!(report, full());
}

// ---- Single steps and stretches ----

/// The made recordings, with every hold cut so that all scans can be stepped.
fn short_recordings() -> Vec<Recording> {
    let mut recordings = Vec::new();
    for Named { case, .. } in replay_cases(11, 900) {
        let Ok(mut recording) = read(&case) else {
            continue;
        };
        let most = SHORT_SCANS as u32 / recording.rows.len() as u32;
        for row in &mut recording.rows {
            row.hold = row.hold.min(most);
        }
        recordings.push(recording);
    }
    recordings
}

fn holds(recording: &Recording) -> u64 {
    recording.rows.iter().map(|row| u64::from(row.hold)).sum()
}

#[test]
fn stretches_equal_single_steps() {
    let recordings = short_recordings();
    assert!(recordings.len() > 500, "{}", recordings.len());
    let mut sum = Report::empty();
    for recording in &recordings {
        let totals = by_single_steps(recording);
        assert_eq!(by_stretches(recording), totals);
        sum = sum.plus(&totals).expect("it is far from the limit");
    }
    // Every number is reached, by effects of every number.
    assert!(sum.numbers.iter().all(|number| *number > 0), "{sum:?}");
}

/// The threshold between the two ways does not show: one scan to each side of it, and both ways
/// beyond it.
#[test]
fn the_two_ways_meet() {
    for hold in [SHORT_SCANS as u32 - 1, SHORT_SCANS as u32, 20_001, 50_000] {
        let rows = [
            Row {
                hold: 1,
                words: Words {
                    values: 1,
                    start_permit: 1,
                    ..Words::default()
                },
            },
            tripped_row(hold - 1),
        ];
        let file = file_of(&one_effect(1_000_000), &rows);
        let recording = read(&file).expect("it is valid");
        let mut report = Report::empty();
        assert_eq!(add(&mut report, &file), Ok(1));
        assert_eq!(report, by_single_steps(&recording));
        assert_eq!(report, by_stretches(&recording));
        // The delay is 10,000 scans; it starts in scan 2 and ends in scan 10,002.
        let expected = [
            (0, u64::from(hold) - 10_001),
            (4, 1),
            (5, 10_000),
            (6, 1),
            (112, u64::from(hold) - 1),
        ];
        assert_eq!(report, report_of(&expected));
    }
}

/// In a report grown from an empty one, an effect's six state totals add up to the holds of the
/// recordings that have it; refused files add nothing.
#[test]
fn six_totals_add_up_to_the_holds() {
    let mut report = Report::empty();
    let mut expected = [0; 16];
    let mut random = Random::new(5);
    let mut taken = 0;
    for Named { case, .. } in replay_cases(3, 900) {
        if random.once_in(3) {
            continue;
        }
        let Ok(effects) = add(&mut report, &case) else {
            continue;
        };
        taken += 1;
        let scans = holds(&read(&case).expect("it was added"));
        for sum in &mut expected[..usize::from(effects)] {
            *sum += scans;
        }
    }
    assert!(taken > 300, "{taken}");
    for (effect, scans) in expected.iter().enumerate() {
        let six = PHASES.map(|phase| report.numbers[scans_in(effect, phase)]);
        assert_eq!(six.iter().sum::<u64>(), *scans, "effect {}", effect + 1);
    }
}

// ---- The made cases ----

/// A long stream, which has the largest files too.
fn cases() -> &'static [Named<SeasonCase>] {
    static CASES: OnceLock<Vec<Named<SeasonCase>>> = OnceLock::new();
    CASES.get_or_init(|| season_cases(1, 1_200))
}

/// The refusal number, or 0, and the report after.
fn answered(case: &SeasonCase) -> (u8, Report) {
    let mut report = case.report;
    let number = add(&mut report, &case.file).map_or_else(|refusal| refusal.number, |_| 0);
    (number, report)
}

/// The first of the planted refusals is given, and a refusal changes no number.
#[test]
fn planted_cases_are_answered() {
    let mut met = BTreeSet::new();
    for (index, named) in cases().iter().enumerate() {
        let (number, report) = answered(&named.case);
        if number != 0 {
            assert_eq!(report, named.case.report);
        }
        if let Some(planted) = &named.planted {
            let expected = planted.first().copied().unwrap_or(0);
            assert_eq!(number, expected, "case {} {}", index + 1, named.name);
            met.insert((number, planted.contains(&11)));
        }
    }
    // Every refusal of a file is met with a report that would be refused by 11.
    let mut expected = BTreeSet::from([(0, false), (1, false), (11, true)]);
    expected.extend([1, 2, 3, 4, 5, 6, 7, 9].map(|number| (number, true)));
    assert_eq!(met, expected);
}

fn reports_named(name: &str) -> Vec<(u8, Report, Report)> {
    let named = cases().iter().filter(|named| named.name == name);
    named
        .map(|named| {
            let (number, after) = answered(&named.case);
            (number, named.case.report, after)
        })
        .collect()
}

/// All 113 numbers end just below the limit, and at it. Each of them alone is refused one above it.
#[test]
fn every_number_meets_its_limit() {
    let all = |number| Report {
        numbers: [number; REPORT_NUMBERS],
    };
    let [(0, start, after)] = reports_named("below the limit")[..] else {
        panic!("one report, which is accepted");
    };
    assert_eq!(after, all(u64::MAX - 1));
    let above = reports_named("above the limit");
    assert_eq!(above.len(), 113);
    for (place, (number, report, _)) in above.iter().enumerate() {
        assert_eq!(*number, 11);
        for (other, number) in report.numbers.iter().enumerate() {
            if other == place {
                assert_eq!(*number, start.numbers[place] + 2);
            } else {
                assert!(*number <= u64::MAX / 2);
            }
        }
    }
    let [(0, _, after)] = reports_named("at the limit")[..] else {
        panic!("one report, which is accepted");
    };
    assert_eq!(after, full());
}

#[test]
fn cases_have_every_effect_count() {
    let counts: BTreeSet<u8> = cases()
        .iter()
        .filter_map(|named| add(&mut named.case.report.clone(), &named.case.file).ok())
        .collect();
    assert_eq!(counts, BTreeSet::from_iter(1..=16));
}

/// Both ways of counting, the whole length of 1,000,000,000 scans, and every refusal.
#[test]
fn cases_reach_long_recordings_and_every_refusal() {
    let (mut short, mut long, mut longest) = (0, 0, 0);
    let mut numbers = BTreeMap::new();
    for named in cases() {
        let (number, _) = answered(&named.case);
        if named.planted.is_none() {
            *numbers.entry(number).or_insert(0) += 1;
        }
        if number == 0 {
            let scans = holds(&read(&named.case.file).expect("it was added"));
            short += usize::from(scans <= SHORT_SCANS);
            long += usize::from(scans > SHORT_SCANS);
            longest += usize::from(scans == 1_000_000_000);
        }
    }
    assert!(short >= 300 && long >= 50, "{short} {long}");
    assert!(longest >= 2, "{longest}");
    for number in [0, 1, 2, 3, 4, 7, 9, 11] {
        let times = numbers.get(&number).copied().unwrap_or(0);
        assert!(times >= 1, "number {number}: {times} of {numbers:?}");
    }
    assert!(numbers[&11] >= 50, "{numbers:?}");
}

/// Many recordings fill one report: a case starts with what the case before has left.
#[test]
fn cases_follow_one_another() {
    let mut follows = 0;
    for pair in cases().windows(2) {
        let (_, left) = answered(&pair[0].case);
        let start = &pair[1].case.report;
        follows += usize::from(*start == left && left != Report::empty());
    }
    assert!(follows >= 150, "{follows}");
}

/// One byte of refusal number, eight of place, and the report.
#[test]
fn lines_of_a_season() {
    let number = |number: u64| format!("{number:016x}");
    let case = SeasonCase {
        report: report_of(&[(1, 10), (112, 1)]),
        file: session(),
    };
    let line: String = [5, 10, 0, 0, 3, 0, 1, 2, 0, 0, 0, 3, 3, 1]
        .map(number)
        .concat();
    let zeros = number(0).repeat(98);
    let accepted = format!("00000000000000000002{line}{zeros}{}\n", number(6));
    assert_eq!(answer_season(&case), accepted);
    let case = SeasonCase {
        file: session()[..69].to_vec(),
        ..case
    };
    let zeros = number(0).repeat(110);
    let refused = format!(
        "01000000000000004500{}{}{zeros}{}\n",
        number(0),
        number(10),
        number(1)
    );
    assert_eq!(answer_season(&case), refused);
}

// ---- The table ----

const EMPTY_TABLE: &str = "\
effect tripped wait-reset ready wait-start normal delayed trips
recordings 0 refused 0 exercised 0
";

const SESSION_TABLE: &str = "\
effect tripped wait-reset ready wait-start normal delayed trips
1 5 0 0 0 3 0 1
2 2 0 0 0 3 3 1
recordings 1 refused 0 exercised 5
";

#[test]
fn tables_to_the_byte() {
    let mut season = Season::empty();
    assert_eq!(season.table(), EMPTY_TABLE);
    assert_eq!(season.add(&session()), Ok(()));
    assert_eq!(season.table(), SESSION_TABLE);
}

/// A recording of one effect comes after that of two, and a refused one of sixteen counts for
/// nothing but the number of refused ones.
#[test]
fn the_table_has_the_effects_of_accepted_recordings() {
    let mut season = Season::empty();
    let small = file_of(&one_effect(0), &[tripped_row(4)]);
    let mut settings = one_effect(0);
    settings.effects = 16;
    settings.slots = [settings.slots[0]; 16];
    let mut large = file_of(&settings, &[tripped_row(4)]);
    large.pop();
    assert_eq!(season.add(&session()), Ok(()));
    assert_eq!(season.add(&small), Ok(()));
    let place = large.len() as u32;
    assert_eq!(season.add(&large), Err(Refusal { number: 1, place }));
    let expected = "\
effect tripped wait-reset ready wait-start normal delayed trips
1 9 0 0 0 3 0 1
2 2 0 0 0 3 3 1
recordings 2 refused 1 exercised 9
";
    assert_eq!(season.table(), expected);
}

// ---- The program ----

fn program(words: &[&OsStr], input: &[u8]) -> Output {
    let mut child = Command::new(env!("CARGO_BIN_EXE_second"))
        .arg("season")
        .args(words)
        .stdin(Stdio::piped())
        .stdout(Stdio::piped())
        .stderr(Stdio::piped())
        .spawn()
        .expect("the program starts");
    let mut pipe = child.stdin.take().expect("a pipe");
    pipe.write_all(input).expect("the program reads its input");
    drop(pipe);
    child.wait_with_output().expect("the program ends")
}

/// Output, messages and exit status.
fn told(output: &Output) -> (&str, &str, Option<i32>) {
    let text = |bytes| std::str::from_utf8(bytes).expect("text");
    (
        text(&output.stdout),
        text(&output.stderr),
        output.status.code(),
    )
}

#[test]
fn standard_input_is_one_recording() {
    for words in [&[][..], &[OsStr::new("-")]] {
        let output = program(words, &session());
        assert_eq!(told(&output), (SESSION_TABLE, "", Some(0)));
    }
}

#[test]
fn a_season_of_nothing_accepted() {
    let output = program(&[], &session()[..69]);
    let table = EMPTY_TABLE.replace("refused 0", "refused 1");
    assert_eq!(
        told(&output),
        (table.as_str(), "-: refused 1 at 69\n", Some(1))
    );
}

/// A file of this name, which goes away at the end of a test.
struct Temporary {
    path: PathBuf,
}

impl Temporary {
    fn new(name: &[u8], bytes: &[u8]) -> Temporary {
        let own = format!("{} ", std::process::id());
        let name = [own.as_bytes(), name].concat();
        let path = std::env::temp_dir().join(OsStr::from_bytes(&name));
        std::fs::write(&path, bytes).expect("a file");
        Temporary { path }
    }

    fn name(&self) -> &OsStr {
        self.path.as_os_str()
    }
}

impl Drop for Temporary {
    fn drop(&mut self) {
        std::fs::remove_file(&self.path).expect("the file");
    }
}

/// The others go on after a file that is refused, and after one that cannot be read; a name
/// need not be text.
#[test]
fn refused_and_unreadable_files_are_named() {
    let good = Temporary::new(b"season good.rec", &session());
    let cut = Temporary::new(b"season \xff cut.rec", &session()[..69]);
    let output = program(&[cut.name(), good.name()], &[]);
    let table = SESSION_TABLE.replace("refused 0", "refused 1");
    assert_eq!(output.stdout, table.as_bytes());
    let said = [cut.name().as_bytes(), b": refused 1 at 69\n"].concat();
    assert_eq!(output.stderr, said);
    assert_eq!(output.status.code(), Some(1));

    let nothing = OsStr::new("no such file.rec");
    let output = program(&[nothing, cut.name(), good.name()], &[]);
    assert_eq!(output.stdout, table.as_bytes());
    assert!(output
        .stderr
        .starts_with(b"second: no such file.rec: No such file or directory"));
    assert!(output.stderr.ends_with(&said));
    assert_eq!(output.status.code(), Some(2));
}

/// Failing input has a message and adds nothing; failing output is no success either.
#[test]
fn failing_input_and_output_have_status_2() {
    let season = || {
        let mut command = Command::new(env!("CARGO_BIN_EXE_second"));
        command.arg("season");
        command
    };
    let folder = File::open(env!("CARGO_MANIFEST_DIR")).expect("a folder");
    let output = season().stdin(folder).output().expect("the program ends");
    let (table, said, status) = told(&output);
    assert_eq!((table, status), (EMPTY_TABLE, Some(2)));
    assert!(said.starts_with("second: reading standard input: "));

    let full = OpenOptions::new().write(true).open("/dev/full");
    let full = full.expect("the full device");
    let output = season().stdin(Stdio::null()).stdout(full).output();
    let output = output.expect("the program ends");
    let (_, said, status) = told(&output);
    assert_eq!(status, Some(2));
    assert!(said.contains("second: writing standard output: "));
}
