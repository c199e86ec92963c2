//! The announcer's board after a day: 02, U10.

use std::fmt::Write;

use baseline::Standing;

use crate::printed::day_after;
use crate::record::Record;

/// A line for each bib that is struck or timed at box 0, by closed transactions only: bib, state, value.
pub fn boarded_day(records: &[Record]) -> String {
    let mut text = String::new();
    for (bib, standing) in baseline::standings(day_after(records).board()).enumerate() {
        let Standing { struck, value } = standing;
        let state = match (struck, value) {
            (true, _) => "struck",
            (false, 0) => continue,
            (false, _) => "timed",
        };
        // Writing to a string does not fail.
        let _ = writeln!(text, "{bib} {state} {value}");
    }
    text
}
