//! The printed day, as 01's program prints it.

use std::fmt::Write;

use baseline::Day;
use calls::{Answer, Code, State};

use crate::file::read_file;
use crate::record::Record;

/// The answer of each step, from a fresh table. A strange step gives 13, and the day goes on.
pub fn answers(records: &[Record]) -> Vec<Answer> {
    let mut day = Day::fresh();
    records.iter().map(|record| answer(&mut day, record)).collect()
}

/// The day after its steps.
pub(crate) fn day_after(records: &[Record]) -> Day {
    let mut day = Day::fresh();
    records.iter().for_each(|record| _ = answer(&mut day, record));
    day
}

fn answer(day: &mut Day, record: &Record) -> Answer {
    match record.call() {
        Some(call) => day.call(&call),
        None => Answer::refused(Code::UnknownStep),
    }
}

/// The value as it is printed: `struck` for that of a query that finds its bib struck.
pub(crate) fn value(answer: &Answer) -> String {
    match answer.state {
        State::Struck => "struck".to_string(),
        State::Neither | State::Timed => answer.value.to_string(),
    }
}

/// `bad file` alone, or `steps n` and a line for each record: index, code, value.
pub fn printed_day(bytes: &[u8]) -> String {
    let Ok(records) = read_file(bytes) else { return "bad file\n".to_string() };
    let mut text = format!("steps {}\n", records.len());
    for (index, answer) in answers(&records).iter().enumerate() {
        // Writing to a string does not fail.
        let _ = writeln!(text, "{index} {} {}", answer.code.number(), value(answer));
    }
    text
}
