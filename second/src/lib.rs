//! The second program: the cause and effect matrix block of document 01, written as
//! plainly as it can be, to be compared with the proved one.
//!
//! Nothing here is clever on purpose. A held run steps its scans one by one and the
//! reader of a recording goes from section to section. Only the replay of a whole file and the
//! season totals pass over scans, effect by effect, since a file can hold 1,000,000,000 of them.

pub mod answers;
pub mod block;
pub mod cases;
pub mod make;
pub mod make_bad;
pub mod make_files;
pub mod make_filled;
pub mod make_pairs;
pub mod make_reasons;
pub mod make_replays;
pub mod make_runs;
pub mod make_season;
pub mod make_whys;
pub mod reasons;
pub mod recording;
pub mod replay;
pub mod season;
pub mod settings;
pub mod show;
pub mod show_file;
pub mod why;
pub mod words;
