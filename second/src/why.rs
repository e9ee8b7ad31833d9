//! What is told of reasons beside the listing: the text "now", which has all effects after the last
//! scan, and the bytes of the reasons (document 02, L4).

use crate::cases::hex;
use crate::reasons::Reason;
use crate::replay::{refused_line, Listing, Now};

pub const NOW_HEADER: &str = "effect state first reason\n";

fn now_line(now: &Now) -> String {
    format!(
        "{} {} {} {}\n",
        now.effect,
        now.slot.phase.name(),
        now.slot.first_out,
        now.reason.words()
    )
}

/// The text of a replay's end: a line for each effect after the last scan. A refused replay, by 9
/// too, has the refusal's line alone.
pub fn now_text(listing: &Listing) -> String {
    if let Some(refusal) = &listing.refusal {
        return refused_line(refusal);
    }
    let mut text = NOW_HEADER.to_string();
    for now in &listing.now {
        text += &now_line(now);
    }
    text
}

/// A line of the reasons' bytes.
fn bytes_line(reasons: impl Iterator<Item = Reason>) -> String {
    let bytes: Vec<u8> = reasons.flat_map(Reason::to_bytes).collect();
    hex(&bytes) + "\n"
}

/// The bytes of the records' reasons and of those after the last scan, a line each. A refused
/// replay has the refusal's line alone.
pub fn reason_lines(listing: &Listing) -> String {
    if let Some(refusal) = &listing.refusal {
        return refused_line(refusal);
    }
    bytes_line(listing.reasons.iter().copied())
        + &bytes_line(listing.now.iter().map(|now| now.reason))
}
