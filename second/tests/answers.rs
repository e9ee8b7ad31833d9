//! The lines of `second check`, `explain` and `summary`. Every expected line is worked out by
//! hand; `refusals.txt` has those of the refusals.

use second::answers::Question;
use second::make_files::{bytes_of_hex, SESSION};
use std::ffi::OsStr;
use std::os::unix::ffi::OsStrExt;
use std::process::{Command, Output, Stdio};

fn session() -> Vec<u8> {
    bytes_of_hex(SESSION)
}

fn line(question: Question, name: &str, file: &[u8]) -> (String, bool) {
    let line = question.line(name.as_bytes(), file);
    (String::from_utf8(line.bytes).expect("text"), line.refused)
}

fn told(text: &str, refused: bool) -> (String, bool) {
    (text.to_string(), refused)
}

// ---- The refusals of refusals.txt ----

const EFFECT_COUNT: usize = 6;
const EFFECTS: usize = 8;
const EFFECT_BYTES: usize = 6;
const ROW_BYTES: usize = 24;

fn effect_count(file: &[u8]) -> usize {
    usize::from(file[EFFECT_COUNT + 1])
}

/// The front of a file, a count, and so many times its first entry.
fn times(front: &[u8], count: u16, entry: &[u8]) -> Vec<u8> {
    [front, &count.to_be_bytes(), &entry.repeat(count.into())].concat()
}

fn with_effects(file: &[u8], count: u16) -> Vec<u8> {
    let after = EFFECTS + EFFECT_BYTES * effect_count(file);
    let first = &file[EFFECTS..EFFECTS + EFFECT_BYTES];
    let mut changed = times(&file[..EFFECT_COUNT], count, first);
    changed.extend_from_slice(&file[after..]);
    changed
}

fn with_rows(file: &[u8], count: u16) -> Vec<u8> {
    let row_count = EFFECTS + EFFECT_BYTES * effect_count(file);
    let first = &file[row_count + 2..row_count + 2 + ROW_BYTES];
    times(&file[..row_count], count, first)
}

/// A file with one change of those that `refusals.txt` names.
fn changed(mut file: Vec<u8>, change: &str) -> Vec<u8> {
    if let Some((place, hex)) = change.split_once('=') {
        let place: usize = place.parse().expect("a place");
        let bytes = bytes_of_hex(hex);
        file[place..place + bytes.len()].copy_from_slice(&bytes);
        return file;
    }
    let (what, value) = change.split_once(' ').expect("a change and its value");
    match what {
        "cut" => file.truncate(value.parse().expect("a length")),
        "add" => file.extend(bytes_of_hex(value)),
        "effects" => return with_effects(&file, value.parse().expect("a count")),
        "rows" => return with_rows(&file, value.parse().expect("a count")),
        _ => panic!("no such change: {change}"),
    }
    file
}

struct Case {
    file: Vec<u8>,
    /// `NUMBER at PLACE: WORDS`.
    refusal: &'static str,
}

fn cases() -> Vec<Case> {
    include_str!("refusals.txt")
        .lines()
        .filter(|line| !line.is_empty() && !line.starts_with('#'))
        .map(|line| {
            let (changes, refusal) = line.split_once(" => ").expect("changes and refusal");
            let file = changes.split(", ").fold(session(), changed);
            Case { file, refusal }
        })
        .collect()
}

/// The refusal's number and place.
fn number_and_place(refusal: &str) -> (u32, u32) {
    let (number, rest) = refusal.split_once(" at ").expect("a number");
    let (place, _) = rest.split_once(": ").expect("a place");
    (
        number.parse().expect("a number"),
        place.parse().expect("a place"),
    )
}

#[test]
fn refusals_are_explained() {
    let cases = cases();
    assert!(cases.len() > 100);
    for Case { file, refusal } in &cases {
        let expected = told(&format!("a: refused {refusal}\n"), true);
        assert_eq!(line(Question::Explain, "a", file), expected);
    }
}

/// 9 is no refusal of the reader.
#[test]
fn refusals_are_checked() {
    for Case { file, refusal } in cases() {
        let (number, place) = number_and_place(refusal);
        let (text, refused) = line(Question::Check, "a", &file);
        if number == 9 {
            assert!(text.starts_with("a: accepted, ") && !refused, "{text}");
        } else {
            let expected = format!("a: refused {number} at {place}\n");
            assert_eq!((text, refused), (expected, true));
        }
    }
}

#[test]
fn refusals_are_summed_up() {
    for Case { file, refusal } in cases() {
        let (number, place) = number_and_place(refusal);
        let expected = told(&format!("a,{number},{place},0,0,0,0,0\n"), true);
        assert_eq!(line(Question::Summary, "a", &file), expected);
    }
}

// ---- Recordings that are accepted ----

#[test]
fn the_session_is_accepted() {
    let accepted = told("the session: accepted, 2 rows\n", false);
    assert_eq!(line(Question::Check, "the session", &session()), accepted);
    assert_eq!(line(Question::Explain, "the session", &session()), accepted);
    let totals = told("the session,0,0,2,8,3,5,5\n", false);
    assert_eq!(line(Question::Summary, "the session", &session()), totals);
}

#[test]
fn one_row_is_counted_plainly() {
    let file = changed(session(), "rows 1");
    let accepted = told("-: accepted, 1 rows\n", false);
    assert_eq!(line(Question::Check, "-", &file), accepted);
    assert_eq!(line(Question::Explain, "-", &file), accepted);
    let totals = told("-,0,0,1,3,1,0,2\n", false);
    assert_eq!(line(Question::Summary, "-", &file), totals);
}

/// 1,000 rows of 1,000,000 scans reach the last scan; a row more passes it.
#[test]
fn the_last_scan() {
    let file = ["22=000F4240", "rows 1000"]
        .iter()
        .fold(session(), |file, change| changed(file, change));
    let accepted = told("a: accepted, 1000 rows\n", false);
    assert_eq!(line(Question::Explain, "a", &file), accepted);
    let totals = told("a,0,0,1000,1000000000,1,0,2\n", false);
    assert_eq!(line(Question::Summary, "a", &file), totals);
    let file = changed(file, "rows 1001");
    let accepted = told("a: accepted, 1001 rows\n", false);
    assert_eq!(line(Question::Check, "a", &file), accepted);
}

#[test]
fn names_are_fields_of_csv() {
    for (name, field) in [
        ("plain.rec", "plain.rec"),
        ("two words;'x'\t", "two words;'x'\t"),
        ("", ""),
        ("a,b", "\"a,b\""),
        ("say \"so\"", "\"say \"\"so\"\"\""),
        ("\"", "\"\"\"\""),
        ("two\nlines", "\"two\nlines\""),
        ("two\r", "\"two\r\""),
    ] {
        let totals = told(&format!("{field},0,0,2,8,3,5,5\n"), false);
        assert_eq!(line(Question::Summary, name, &session()), totals);
        let accepted = told(&format!("{name}: accepted, 2 rows\n"), false);
        assert_eq!(line(Question::Check, name, &session()), accepted);
    }
}

// ---- The program ----

/// A folder of its own with the session as `good`, the session cut as `bad`, and the session
/// under a name that is no text; it is gone when this is.
struct Folder(std::path::PathBuf);

const NO_TEXT: &[u8] = b"\xff,";

impl Folder {
    fn new(name: &str) -> Folder {
        let name = format!("second answers {name} {}", std::process::id());
        let path = std::env::temp_dir().join(name);
        std::fs::create_dir(&path).expect("a folder");
        let write = |name: &OsStr, data: &[u8]| std::fs::write(path.join(name), data);
        write(OsStr::new("good"), &session()).expect("a file");
        write(OsStr::new("bad"), &session()[..69]).expect("a file");
        write(OsStr::from_bytes(NO_TEXT), &session()).expect("a file");
        Folder(path)
    }

    /// The program in this folder, with the session on standard input.
    fn run(&self, words: &[&[u8]]) -> Output {
        let input = std::fs::File::open(self.0.join("good")).expect("a file");
        Command::new(env!("CARGO_BIN_EXE_second"))
            .args(words.iter().map(|word| OsStr::from_bytes(word)))
            .current_dir(&self.0)
            .stdin(Stdio::from(input))
            .output()
            .expect("the program ends")
    }
}

impl Drop for Folder {
    fn drop(&mut self) {
        std::fs::remove_dir_all(&self.0).expect("the folder");
    }
}

fn ended(output: &Output, lines: &[u8], status: i32) {
    assert_eq!(
        String::from_utf8_lossy(&output.stdout),
        String::from_utf8_lossy(lines)
    );
    assert_eq!(output.stdout, lines);
    assert_eq!(output.status.code(), Some(status));
}

#[test]
fn a_line_for_each_file() {
    let folder = Folder::new("lines");
    let output = folder.run(&[b"check", b"good", b"bad", b"-", NO_TEXT]);
    let lines = b"good: accepted, 2 rows\nbad: refused 1 at 69\n\
        -: accepted, 2 rows\n\xff,: accepted, 2 rows\n";
    ended(&output, lines, 1);
    assert!(output.stderr.is_empty());
    let output = folder.run(&[b"explain", b"good", b"bad"]);
    let lines = b"good: accepted, 2 rows\nbad: refused 1 at 69: the bytes end in row 2\n";
    ended(&output, lines, 1);
    let output = folder.run(&[b"summary", b"bad", NO_TEXT]);
    let lines = b"file,number,place,rows,scans,live,exercised,records\n\
        bad,1,69,0,0,0,0,0\n\"\xff,\",0,0,2,8,3,5,5\n";
    ended(&output, lines, 1);
}

#[test]
fn no_name_is_standard_input() {
    let folder = Folder::new("input");
    for question in ["check", "explain"] {
        let output = folder.run(&[question.as_bytes()]);
        ended(&output, b"-: accepted, 2 rows\n", 0);
    }
    let output = folder.run(&[b"summary"]);
    let lines = b"file,number,place,rows,scans,live,exercised,records\n-,0,0,2,8,3,5,5\n";
    ended(&output, lines, 0);
}

/// A file that cannot be read is named on standard error, and the others go on.
#[test]
fn files_that_cannot_be_read() {
    let folder = Folder::new("unread");
    let output = folder.run(&[b"check", b"bad", b"no such file", b".", b"", b"good"]);
    ended(
        &output,
        b"bad: refused 1 at 69\ngood: accepted, 2 rows\n",
        2,
    );
    let said = String::from_utf8(output.stderr).expect("text");
    let said: Vec<&str> = said.lines().collect();
    assert_eq!(said.len(), 3);
    assert!(said[0].starts_with("second: no such file: No such file or directory"));
    assert!(said[1].starts_with("second: .: Is a directory"));
    assert!(said[2].starts_with("second: : No such file or directory"));
}
