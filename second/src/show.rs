//! Cases and answers for a person to read.

use crate::block::{Answer, Row, State, RECORD_BYTES};
use crate::cases::{
    answer_writing, call_run, hex, Kind, ReasonCase, RunCase, SeasonCase, Stream, WritingCase,
};
use crate::reasons::reason_after;
use crate::recording::{number16, number32, read};
use crate::replay::{replay, replay_with_reasons, Listing};
use crate::season::{add, Report, EFFECT_NUMBERS, EXERCISED};
use crate::settings::Settings;
use crate::why::now_text;

fn show_settings(settings: &Settings) -> String {
    let mut text = format!(
        "  settings: causes {} options {:03b} period {} effects {}\n",
        settings.causes, settings.options, settings.period, settings.effects
    );
    for (index, effect) in settings.slots.iter().enumerate() {
        if effect.association != 0 || effect.delay != 0 || index < usize::from(settings.effects) {
            text += &format!(
                "    effect {}: association {:04x} delay {}\n",
                index + 1,
                effect.association,
                effect.delay
            );
        }
    }
    text
}

fn show_state(title: &str, settings: &Settings, state: &State) -> String {
    let mut text = format!(
        "  {title}: scans done {} next sequence {}\n",
        state.scans_done, state.next_sequence
    );
    for (index, slot) in state.slots.iter().enumerate() {
        if *slot != Default::default() || index < usize::from(settings.effects) {
            text += &format!(
                "    effect {}: {} timer {} first-out {:04x}\n",
                index + 1,
                slot.phase.name(),
                slot.timer,
                slot.first_out
            );
        }
    }
    text
}

fn show_row(row: &Row) -> String {
    let words = &row.words;
    format!(
        "  row: hold {} values {:04x} Bad {:04x} mask {:04x} require reset {:04x} \
         reset permit {:04x} start permit {:04x} reset {:04x} force permit {} \
         force trip {:04x} force normal {:04x}\n",
        row.hold,
        words.values,
        words.bad,
        words.mask,
        words.require_reset,
        words.reset_permit,
        words.start_permit,
        words.reset,
        words.force_permit,
        words.force_trip,
        words.force_normal
    )
}

fn state_name(code: u8) -> &'static str {
    crate::block::Phase::from_code(code).map_or("?", |phase| phase.name())
}

fn show_record(record: &[u8]) -> String {
    format!(
        "    record: sequence {} scan {} effect {} {} to {} first-out {:04x}\n",
        number16(&record[0..2]),
        number32(&record[2..6]),
        record[6],
        state_name(record[7]),
        state_name(record[8]),
        number16(&record[10..12])
    )
}

fn show_answer(case: &RunCase, answer: &Answer, buffer: &[u8]) -> String {
    if answer.number != 0 {
        return format!("  refused {} at {}\n", answer.number, answer.place);
    }
    let mut text = show_state("after", &case.settings, &answer.state);
    text += &format!(
        "  effect word {:04x} latent word {:04x} records {} live {} exercised {}\n",
        answer.effect_word, answer.latent_word, answer.records, answer.live, answer.exercised
    );
    for record in buffer
        .chunks(RECORD_BYTES)
        .take(usize::from(answer.records))
    {
        text += &show_record(record);
    }
    text
}

fn show_run(kind: Kind, case: &RunCase) -> String {
    let (answer, buffer) = call_run(kind, case);
    show_settings(&case.settings)
        + &show_state("before", &case.settings, &case.state)
        + &show_row(&case.row)
        + &format!("  room: {} bytes\n", case.room)
        + &show_answer(case, &answer, &buffer)
}

/// The scan, the effect that is asked for, and the reason or the refusal.
fn show_reason(case: &ReasonCase) -> String {
    let row = Row {
        hold: 1,
        words: case.words,
    };
    let reason = match reason_after(&case.settings, &case.state, &case.words, case.effect) {
        Ok(reason) => format!("reason: {}", reason.words()),
        Err(number) => format!("refused {number} at 0"),
    };
    show_settings(&case.settings)
        + &show_state("before", &case.settings, &case.state)
        + &show_row(&row)
        + &format!("  effect {}\n  {reason}\n", case.effect)
}

/// At most this many bytes and rows of a file are shown.
const SHOWN_BYTES: usize = 600;
const SHOWN_ROWS: usize = 20;
/// At most this many lines of a listing are shown.
const SHOWN_LINES: usize = 60;

fn show_file(file: &[u8]) -> String {
    let shown = &file[..file.len().min(SHOWN_BYTES)];
    let more = if shown.len() < file.len() { "..." } else { "" };
    let mut text = format!("  file: {} bytes {}{more}\n", file.len(), hex(shown));
    match read(file) {
        Err(refusal) => text += &format!("  refused {} at {}\n", refusal.number, refusal.place),
        Ok(recording) => {
            text += &show_settings(&recording.settings);
            text += &format!(
                "  rows: {} first at {}\n",
                recording.rows.len(),
                recording.first_row
            );
            for row in recording.rows.iter().take(SHOWN_ROWS) {
                text += &show_row(row);
            }
        }
    }
    text
}

/// The file, and what its replay results in.
fn show_recording(file: &[u8]) -> String {
    let listing = replay(file);
    let replayed = match listing.refusal {
        Some(refusal) => format!("refused {} at {}", refusal.number, refusal.place),
        None => format!("{:?}", listing.totals),
    };
    show_file(file) + &format!("  replay: {replayed}\n")
}

/// The lines of a text, below its title.
fn show_lines(title: &str, text: &str) -> String {
    let lines: Vec<&str> = text.lines().collect();
    let mut shown = format!("  {title}:\n");
    for line in lines.iter().take(SHOWN_LINES) {
        shown += &format!("    {line}\n");
    }
    if lines.len() > SHOWN_LINES {
        shown += &format!("    ... ({} lines)\n", lines.len());
    }
    shown
}

/// The file, and the listing that it gives.
fn show_replay(file: &[u8], listing: &Listing) -> String {
    show_file(file) + &show_lines("listing", &listing.text)
}

/// The file, its listing with reasons, and its effects after the last scan.
fn show_why(file: &[u8]) -> String {
    let listing = replay_with_reasons(file);
    show_replay(file, &listing) + &show_lines("now", &now_text(&listing))
}

fn show_writing(case: &WritingCase) -> String {
    show_settings(&case.settings)
        + &format!("  row count {}\n", case.row_count)
        + &show_row(&case.row)
        + &format!("  room: {} bytes\n", case.room)
        + "  answer (opening, its buffer, row, its buffer):\n  "
        + &answer_writing(case)
}

/// A report; effects whose numbers are all 0 have no line.
fn show_report(title: &str, report: &Report) -> String {
    let mut text = format!("  {title}: exercised {}\n", report.numbers[EXERCISED]);
    let effects = report.numbers[..EXERCISED].chunks(EFFECT_NUMBERS);
    for (index, numbers) in effects.enumerate() {
        if numbers.iter().any(|number| *number != 0) {
            text += &format!("    effect {}: {numbers:?}\n", index + 1);
        }
    }
    text
}

/// The file, the report before, and the refusal or the report after.
fn show_season(case: &SeasonCase) -> String {
    let mut report = case.report;
    let answer = match add(&mut report, &case.file) {
        Ok(_) => show_report("report after", &report),
        Err(refusal) => format!(
            "  season: refused {} at {}\n",
            refusal.number, refusal.place
        ),
    };
    show_file(&case.file) + &show_report("report before", &case.report) + &answer
}

/// Shows the next case of a stream.
pub fn show_next(kind: Kind, stream: &mut Stream) -> Result<String, String> {
    Ok(match kind {
        Kind::Scan | Kind::Held => show_run(kind, &stream.run_case(kind)?),
        Kind::Recording => show_recording(stream.file()?),
        Kind::Writing => show_writing(&stream.writing_case()?),
        Kind::Replay => {
            let file = stream.file()?;
            show_replay(file, &replay(file))
        }
        Kind::Season => show_season(&stream.season_case()?),
        Kind::Reason => show_reason(&stream.reason_case()?),
        Kind::Why => show_why(stream.file()?),
    })
}
