//! The program itself: its lines byte for byte, and what it does with bad input. Every
//! expected line is worked out by hand.

use second::make_files::{bytes_of_hex, SESSION};
use std::fs::{File, OpenOptions};
use std::io::Write;
use std::process::{Command, Output, Stdio};

fn program(words: &[&str]) -> Command {
    let mut command = Command::new(env!("CARGO_BIN_EXE_second"));
    command
        .args(words)
        .stdin(Stdio::null())
        .stdout(Stdio::piped())
        .stderr(Stdio::piped());
    command
}

fn run(words: &[&str], input: &[u8]) -> Output {
    let mut child = program(words)
        .stdin(Stdio::piped())
        .spawn()
        .expect("the program starts");
    let mut pipe = child.stdin.take().expect("a pipe");
    pipe.write_all(input).expect("the program reads its input");
    drop(pipe);
    child.wait_with_output().expect("the program ends")
}

fn answer(kind: &str, cases: &str) -> String {
    let output = run(&["answer", kind], &bytes_of_hex(cases));
    assert_eq!(output.status.code(), Some(0));
    assert!(output.stderr.is_empty());
    String::from_utf8(output.stdout).expect("text")
}

/// The digits alone; a `|` stands for a space.
fn line(text: &str) -> String {
    let digits: String = text.split_whitespace().collect();
    digits.replace('|', " ") + "\n"
}

fn zeros(bytes: usize) -> String {
    "00".repeat(bytes)
}

/// The buffer's bytes from `first` up to `room`, before the call.
fn pattern(first: usize, room: usize) -> String {
    (first..room)
        .map(|index| format!("{:02x}", (index * 7 + 3) % 256))
        .collect()
}

/// One cause, one effect without a delay, period 100; Normal after 5 scans; next sequence
/// number 65,535.
fn settings_and_state() -> String {
    let settings = format!("01 00 0064 01 0001 00000000 {}", zeros(15 * 6));
    let state = format!("00000005 ffff 04 00000000 0000 {}", zeros(15 * 7));
    settings + &state
}

#[test]
fn scan_line() {
    let case = format!("{} {} 000e", settings_and_state(), zeros(20));
    let expected = format!(
        "00 00000000 00000006 0000 00 00000000 0001 {} 0000 0000 0001 |
         ffff 00000006 01 04 00 00 0001 {}",
        zeros(15 * 7),
        pattern(12, 14)
    );
    assert_eq!(answer("scan", &case), line(&expected));
}

#[test]
fn scan_line_of_a_refusal() {
    let case = format!("{} {} 000b", settings_and_state(), zeros(20));
    let expected = format!(
        "0a 00000000 00000005 ffff 04 00000000 0000 {} 0000 0000 0000 | {}",
        zeros(15 * 7),
        pattern(0, 11)
    );
    assert_eq!(answer("scan", &case), line(&expected));
}

#[test]
fn held_line() {
    let case = format!("{} 00000003 {} 000c", settings_and_state(), zeros(20));
    let expected = format!(
        "00 00000000 00000008 0000 00 00000000 0001 {} 0000 0000 0001 00000001 00000003 |
         ffff 00000006 01 04 00 00 0001",
        zeros(15 * 7)
    );
    assert_eq!(answer("held", &case), line(&expected));
}

fn session_settings() -> String {
    let slots = zeros(14 * 6);
    format!("02 00 0064 02 0001 00000000 0003 000000fa {slots}")
}

#[test]
fn recording_lines() {
    let cases = format!("00000046 {SESSION} 00000000");
    let heading = format!("00 00000000 {} 0002 00000016 00000018", session_settings());
    let words = "0000 0000 0000 0003 0003 0000 0000 0000 0000";
    let refused = format!("01 00000000 {}", zeros(101 + 10));
    let expected = line(&heading)
        + &line(&format!("00000016 00000003 0003 {words}"))
        + &line(&format!("0000002e 00000005 0002 {words}"))
        + &line(SESSION).to_lowercase()
        + &line("00000000 00000000 00000005 00000002 00000008 00000003 00000005")
        + &line(&refused)
        + &line(&format!("00000001 00000000 {}", zeros(5 * 4)));
    assert_eq!(answer("recording", &cases), expected);
}

#[test]
fn writing_line() {
    let words = "0003 0000 0000 0000 0003 0003 0000 0000 0000 0000";
    let case = format!("{} 0002 00000003 {words} 0017", session_settings());
    let expected = format!(
        "00 00000000 0016 |
         0001 0200 0064 0002 0001 00000000 0003 000000fa 0002 {} |
         0a 00000000 0000 | {}",
        pattern(22, 23),
        pattern(0, 23)
    );
    assert_eq!(answer("writing", &case), line(&expected));
}

#[test]
fn replay_lines() {
    let cases = format!("00000046 {SESSION} 00000000");
    let listing = "seq scan effect from to first\n\
        0 1 1 tripped normal 0\n\
        1 1 2 tripped normal 0\n\
        2 4 1 normal tripped 1\n\
        3 4 2 normal delayed 1\n\
        4 7 2 delayed tripped 1\n\
        rows 2 scans 8 live 3 exercised 5\n";
    let expected = format!("{listing}\nrefused 1 at 0\n\n");
    assert_eq!(answer("replay", &cases), expected);
    let output = run(&["replay"], &bytes_of_hex(SESSION));
    assert_eq!(output.status.code(), Some(0));
    assert_eq!(output.stdout, listing.as_bytes());
}

/// One effect in Normal that is active; an effect that is absent; and no word that fits.
#[test]
fn reason_lines() {
    let active = format!("{} {} 01", settings_and_state(), zeros(20));
    assert_eq!(
        answer("reason", &active),
        line("00 00000000 | 03 00 0001 00000000")
    );
    let absent = format!("{} {} 02", settings_and_state(), zeros(20));
    assert_eq!(answer("reason", &absent), "0300000000 \n");
    let wrong = format!("{} 0002 {} 01", settings_and_state(), zeros(18));
    let both = active + &wrong;
    assert_eq!(
        answer("reason", &both),
        line("00 00000000 | 03 00 0001 00000000") + "0400000000 \n"
    );
}

const SESSION_WITH_REASONS: &str = "seq scan effect from to first reason\n\
    0 1 1 tripped normal 0 cleared\n\
    1 1 2 tripped normal 0 cleared\n\
    2 4 1 normal tripped 1 active 1\n\
    3 4 2 normal delayed 1 active 1\n\
    4 7 2 delayed tripped 1 delay ended\n\
    rows 2 scans 8 live 3 exercised 5\n";
const SESSION_NOW: &str = "effect state first reason\n\
    1 tripped 1 active 1\n\
    2 tripped 1 active 1\n";

#[test]
fn why_lines() {
    let cases = format!("00000046 {SESSION} 00000000");
    let refused = "refused 1 at 0\n";
    let expected = format!("{SESSION_WITH_REASONS}\n{SESSION_NOW}\n{refused}\n{refused}\n");
    assert_eq!(answer("why", &cases), expected);
}

#[test]
fn reasons_of_a_recording() {
    let digits = "0700000000000000 0700000000000000 0300000100000000 0300000100000000
        0500000000000000";
    let bytes = line(digits) + &line("0300000100000000 0300000100000000");
    for (word, expected) in [
        ("why", SESSION_WITH_REASONS),
        ("now", SESSION_NOW),
        ("reasons", &bytes),
    ] {
        let output = run(&[word], &bytes_of_hex(SESSION));
        assert_eq!(output.status.code(), Some(0));
        assert!(output.stderr.is_empty());
        assert_eq!(output.stdout, expected.as_bytes());
    }
}

#[test]
fn a_refused_replay_ends_with_status_1() {
    for word in ["replay", "why", "now", "reasons"] {
        let output = run(&[word], &[]);
        assert_eq!(output.status.code(), Some(1));
        assert_eq!(output.stdout, b"refused 1 at 0\n");
        assert!(output.stderr.is_empty());
    }
}

/// 1,001 rows of 1,000,000 scans: the listing has the earlier lines, the rest the refusal alone.
#[test]
fn nine_leaves_the_earlier_lines_of_a_listing_alone() {
    let file = too_many_scans();
    let refused = "refused 9 at 24016\n";
    let lines = "seq scan effect from to first reason\n\
        0 1 1 tripped wait-start 0 waiting start permit\n";
    for (word, expected) in [
        ("why", format!("{lines}{refused}")),
        ("now", refused.to_string()),
        ("reasons", refused.to_string()),
    ] {
        let output = run(&[word], &file);
        assert_eq!(output.status.code(), Some(1));
        assert_eq!(output.stdout, expected.as_bytes());
    }
}

/// The largest recording and a byte more decide; the rest is not read.
#[test]
fn endless_input_is_answered() {
    for word in ["replay", "why", "now", "reasons"] {
        let zero = File::open("/dev/zero").expect("the device of zeros");
        let output = program(&[word]).stdin(zero).output();
        let output = output.expect("the program ends");
        assert_eq!(output.status.code(), Some(1));
        assert_eq!(output.stdout, b"refused 2 at 0\n");
    }
}

// ---- A recording in words ----

fn shown(file: &[u8]) -> (String, Option<i32>) {
    let output = run(&["show", "-"], file);
    assert!(output.stderr.is_empty());
    let text = String::from_utf8(output.stdout).expect("text");
    (text, output.status.code())
}

const SESSION_SHOWN: &str = "70 bytes\n\
    2 causes, 2 effects, scan period 100 ms\n\
    options: none\n\
    effect 1: cause 1, no delay\n\
    effect 2: causes 1 2, delay 250 ms\n\
    2 rows, 8 scans; words that are not listed are 0\n\
    row 1 at 22: hold 3 scans\n\
    \x20 cause values  0003  normal 1 2\n\
    \x20 reset permit  0003  effects 1 2\n\
    \x20 start permit  0003  effects 1 2\n\
    row 2 at 46: hold 5 scans\n\
    \x20 cause values  0002  normal 2, tripped 1\n\
    \x20 reset permit  0003  effects 1 2\n\
    \x20 start permit  0003  effects 1 2\n";

#[test]
fn show_a_recording() {
    let session = bytes_of_hex(SESSION);
    assert_eq!(shown(&session), (SESSION_SHOWN.to_string(), Some(0)));
    let path = std::env::temp_dir().join(format!("a recording {}.rec", std::process::id()));
    std::fs::write(&path, &session).expect("a file");
    let output = program(&["show"]).arg(&path).output();
    std::fs::remove_file(&path).expect("the file");
    let output = output.expect("the program ends");
    assert_eq!(output.stdout, SESSION_SHOWN.as_bytes());
    assert_eq!(output.status.code(), Some(0));
}

/// One cause, one effect, every option, and a row with every word and a hold of one scan.
const EVERY_WORD: &str = "0001 0107 03e8 0001 0001 0036ee80 0001
    00000001 0000 0001 0001 0001 0001 0001 0001 0001 0001 0000";

const EVERY_WORD_SHOWN: &str = "1 cause, 1 effect, scan period 1000 ms\n\
    options: trip if Bad, force permit not required, several effects may be forced\n\
    effect 1: cause 1, delay 3600000 ms\n\
    1 row, 1 scan; words that are not listed are 0\n\
    row 1 at 16: hold 1 scan\n\
    \x20 cause values  0000  tripped 1\n\
    \x20 cause Bad     0001  cause 1\n\
    \x20 cause mask    0001  cause 1\n\
    \x20 require reset 0001  effect 1\n\
    \x20 reset permit  0001  effect 1\n\
    \x20 start permit  0001  effect 1\n\
    \x20 reset         0001  effect 1\n\
    \x20 force permit  0001  forces count\n\
    \x20 force trip    0001  effect 1\n";

#[test]
fn show_every_word() {
    let mut file = bytes_of_hex(EVERY_WORD);
    let expected = format!("40 bytes\n{EVERY_WORD_SHOWN}");
    assert_eq!(shown(&file), (expected, Some(0)));
    let last = file.len() - 1;
    file[last - 2] = 0;
    file[last] = 1;
    let expected = format!("40 bytes\n{EVERY_WORD_SHOWN}").replace("force trip  ", "force normal");
    assert_eq!(shown(&file), (expected, Some(0)));
}

/// What is right is shown first, then the row or the bytes that are not.
#[test]
fn show_a_refused_recording() {
    assert_eq!(
        shown(&[]),
        (
            "0 bytes\nrefused 1 at 0: the bytes end in the block count\n".to_string(),
            Some(1)
        )
    );
    let mut file = bytes_of_hex(SESSION);
    file.push(0xab);
    let expected = SESSION_SHOWN.replace("70 bytes", "71 bytes")
        + "bytes at 70: ab\nrefused 7 at 70: bytes follow the last row\n";
    assert_eq!(shown(&file), (expected, Some(1)));
    let mut file = bytes_of_hex(EVERY_WORD);
    file[19] = 0;
    file[35] = 2;
    let expected = format!("40 bytes\n{EVERY_WORD_SHOWN}")
        .replace("1 row, 1 scan; words that are not listed are 0\n", "")
        .replace("hold 1 scan", "hold 0 scans")
        .replace("0001  forces count", "0002  neither 0 nor 1");
    let refused = "refused 4 at 16: row 1: its hold is not 1 to 1,000,000\n";
    assert_eq!(shown(&file), (expected + refused, Some(1)));
}

#[test]
fn show_refused_settings() {
    let mut file = bytes_of_hex(SESSION);
    file[2] = 17;
    let expected = "70 bytes\n\
        bytes at 2: 110000640002000100000000000300\
        0000fa000200000003\n\
        refused 2 at 2: block: its cause count is not 1 to 16\n";
    assert_eq!(shown(&file), (expected.to_string(), Some(1)));
    let mut file = bytes_of_hex(SESSION);
    file.truncate(22);
    file[21] = 0;
    let (text, status) = shown(&file);
    assert!(text.starts_with("22 bytes\n2 causes, 2 effects"));
    assert!(text.ends_with(
        "delay 250 ms\nbytes at 20: 0000\n\
         refused 4 at 20: the row count is not 1 to 2,048\n"
    ));
    assert_eq!(status, Some(1));
}

/// 1,001 rows of 1,000,000 scans, one effect.
fn too_many_scans() -> Vec<u8> {
    let mut file = bytes_of_hex("0001 0100 0064 0001 0001 00000000 03e9");
    for _ in 0..1_001 {
        file.extend(bytes_of_hex("000f4240 0001"));
        file.extend([0; 18]);
    }
    file
}

/// They can be read, and not replayed.
#[test]
fn show_too_many_scans() {
    let (text, status) = shown(&too_many_scans());
    assert!(text.contains("\n1001 rows, 1001000000 scans;"));
    assert!(text.ends_with(
        "\nrow 1001 at 24016: hold 1000000 scans\n  cause values  0001  normal 1\n\
         its replay is refused 9 at 24016: row 1001: it ends after scan 1,000,000,000\n"
    ));
    assert_eq!(status, Some(1));
}

#[test]
fn show_endless_input() {
    let zero = File::open("/dev/zero").expect("the device of zeros");
    let output = program(&["show", "-"]).stdin(zero).output();
    let output = output.expect("the program ends");
    assert_eq!(output.status.code(), Some(1));
    assert!(output
        .stdout
        .starts_with(b"more than 49258 bytes\nbytes at 0: 0000"));
    assert!(output
        .stdout
        .ends_with(b"refused 2 at 0: the block count is not 1\n"));
}

/// The name of a kind is that kind, and no file.
#[test]
fn show_cases_of_a_kind() {
    for (kind, first) in [
        ("replay", "case 1\n  file: "),
        ("why", "case 1\n  file: "),
        ("reason", "case 1\n  settings: "),
    ] {
        let made = run(&["make", kind, "1", "2"], &[]).stdout;
        let output = run(&["show", kind], &made);
        assert_eq!(output.status.code(), Some(0));
        assert!(output.stdout.starts_with(first.as_bytes()));
    }
}

#[test]
fn show_reasons() {
    let absent = format!("{} {} 02", settings_and_state(), zeros(20));
    let active = format!("{} {} 01", settings_and_state(), zeros(20));
    let output = run(&["show", "reason"], &bytes_of_hex(&(active + &absent)));
    let text = String::from_utf8(output.stdout).expect("text");
    assert!(text.contains("\n  effect 1\n  reason: active 1\ncase 2\n"));
    assert!(text.ends_with("\n  effect 2\n  refused 3 at 0\n"));
    let output = run(
        &["show", "why"],
        &bytes_of_hex(&format!("00000046 {SESSION}")),
    );
    let text = String::from_utf8(output.stdout).expect("text");
    assert!(text.contains("\n    4 7 2 delayed tripped 1 delay ended\n"));
    assert!(text.ends_with("\n    2 tripped 1 active 1\n"));
}

#[test]
fn a_file_that_cannot_be_shown_is_named() {
    for (file, reason) in [
        ("no such file.rec", "No such file or directory"),
        (env!("CARGO_MANIFEST_DIR"), "Is a directory"),
    ] {
        let output = program(&["show", file]).output();
        let output = output.expect("the program ends");
        fails(&output);
        assert!(output.stdout.is_empty());
        let said = String::from_utf8(output.stderr).expect("text");
        assert!(said.starts_with(&format!("second: {file}: {reason}")));
    }
}

/// Exit status 2 and a message.
fn fails(output: &Output) {
    assert_eq!(output.status.code(), Some(2));
    assert!(!output.stderr.is_empty());
}

#[test]
fn bad_usage_fails() {
    for words in [
        &[][..],
        &["answer"],
        &["answer", "scans"],
        &["answer", "scan", "1"],
        &["make", "scan", "1"],
        &["make", "scan", "one", "1"],
        &["make", "scan", "1", "-1"],
        &["show"],
        &["bad"],
        &["bad", "writing"],
        &["bad", "scans"],
        &["fill", "4096", "1"],
        &["fill", "4095", "1", "1"],
        &["fill", "65537", "1", "1"],
        &["fill", "4096", "1", "1", "replay"],
        &["why", "reason"],
        &["now", "now"],
        &["reasons", "1"],
        &["help", "scan"],
        &["replay", "scan"],
    ] {
        let output = program(words).output().expect("the program ends");
        fails(&output);
        assert!(output.stdout.is_empty());
    }
}

#[test]
fn truncated_streams_fail() {
    for kind in [
        "scan",
        "held",
        "recording",
        "writing",
        "replay",
        "season",
        "reason",
        "why",
    ] {
        let made = run(&["make", kind, "1", "3"], &[]).stdout;
        assert_eq!(run(&["answer", kind], &made).status.code(), Some(0));
        let cut = &made[..made.len() - 1];
        fails(&run(&["answer", kind], cut));
        fails(&run(&["show", kind], cut));
        fails(&run(&["answer", kind], &made[..3]));
    }
}

#[test]
fn streams_outside_the_format_fail() {
    let room = format!("{} {} 0191", settings_and_state(), zeros(20));
    fails(&run(&["answer", "scan"], &bytes_of_hex(&room)));
    let state_code = format!(
        "{} {} 06 {}",
        zeros(101),
        zeros(6),
        zeros(241 - 101 - 6 - 1)
    );
    fails(&run(&["answer", "scan"], &bytes_of_hex(&state_code)));
    fails(&run(
        &["answer", "reason"],
        &bytes_of_hex(&state_code)[..240],
    ));
    let mut file = 49_263_u32.to_be_bytes().to_vec();
    file.resize(4 + 49_263, 0);
    fails(&run(&["answer", "recording"], &file));
    fails(&run(&["answer", "replay"], &file));
    fails(&run(&["answer", "why"], &file));
    // A season case holds a whole report, and no file above the largest.
    for length in [0, 903, 904 + 49_263] {
        let mut case = (length as u32).to_be_bytes().to_vec();
        case.resize(4 + length, 0);
        fails(&run(&["answer", "season"], &case));
    }
}

#[test]
fn season_line() {
    let case = format!("000003ce {} {SESSION}", zeros(904));
    let number = |number: u64| format!("{number:016x}");
    let effects = [5, 0, 0, 0, 3, 0, 1, 2, 0, 0, 0, 3, 3, 1].map(number);
    let expected = format!(
        "00 {} 02 {} {} {}",
        zeros(8),
        effects.concat(),
        zeros(98 * 8),
        number(5)
    );
    assert_eq!(answer("season", &case), line(&expected));
}

#[test]
fn failing_input_and_output_are_not_taken_for_data() {
    let folder = File::open(env!("CARGO_MANIFEST_DIR")).expect("a folder");
    for words in [&["answer", "scan"][..], &["replay"], &["why"], &["now"]] {
        let folder = folder.try_clone().expect("a folder");
        let output = program(words).stdin(folder).output();
        let output = output.expect("the program ends");
        fails(&output);
        assert!(output.stdout.is_empty());
    }
    let full = OpenOptions::new().write(true).open("/dev/full");
    let full = full.expect("the full device");
    let output = program(&["make", "scan", "1", "1"]).stdout(full).output();
    fails(&output.expect("the program ends"));
}

#[test]
fn seeds_repeat_and_differ() {
    for (kind, count) in [
        ("scan", "3000"),
        ("held", "2000"),
        ("recording", "1000"),
        ("writing", "600"),
        ("replay", "300"),
        ("season", "300"),
        ("reason", "600"),
        ("why", "450"),
    ] {
        let made = |seed| run(&["make", kind, seed, count], &[]).stdout;
        let one = made("1");
        assert_eq!(one, made("1"));
        assert_ne!(one, made("2"));
    }
    for more in [&[][..], &["why"]] {
        let filled = |seed| run(&[&["fill", "65536", seed, "6"], more].concat(), &[]).stdout;
        assert_eq!(filled("1"), filled("1"));
        assert_ne!(filled("1"), filled("2"));
    }
}
