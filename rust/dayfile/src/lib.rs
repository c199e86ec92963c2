//! Day files: 01, "Day file and printed day".
//!
//! A day file is a header and 12-byte records. This library reads and writes it, turns it into a
//! text of one step a line and back, shows what a day answers, by the baseline, its board and its bill, and draws
//! its diagram. It writes the order of a day's updates as a file, and says what is wrong with one from
//! elsewhere: 02, U13. It shows four days on one card: 02, U12.
//!
//! ```
//! let records = dayfile::read_text("update 0/0 Time bib 7 61000\nquery 0/0 bib 7\n")?;
//! let file = dayfile::write_file(&records).expect("two steps fit");
//! assert_eq!(dayfile::printed_day(&file), "steps 2\n0 0 0\n1 0 61000\n");
//! # Ok::<(), dayfile::TextError>(())
//! ```

#![forbid(unsafe_code)]

mod billed;
mod boarded;
mod coursed;
mod drawn;
mod file;
mod ordered;
mod printed;
mod record;
mod shown;
mod text;

pub use billed::billed_day;
pub use boarded::boarded_day;
pub use coursed::shown_courses;
pub use drawn::drawn_day;
pub use file::{read_file, write_file, BadFile, LONGEST, MOST_STEPS};
pub use ordered::{misfit, ordered_day, Misfit};
pub use printed::{answers, printed_day};
pub use record::{Record, StepByte};
pub use shown::shown_day;
pub use text::{read_text, write_text, TextError};
