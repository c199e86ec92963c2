//! Four days on one card: 02, U12.

use baseline::Federation;
use calls::{Answer, Code, CourseCall, COURSES};

use crate::record::Record;
use crate::shown::Shown;

/// A table of the steps of four days that share a card, one step of each in turn: course, index, step, code,
/// value, and for a refusal its name.
pub fn shown_courses(days: &[Vec<Record>; COURSES]) -> String {
    let longest = days.iter().map(Vec::len).max().unwrap_or(0);
    let mut federation = Federation::fresh();
    let mut shown = Vec::new();
    for index in 0..longest {
        for (course, day) in (0..).zip(days) {
            if let Some(record) = day.get(index) {
                let answer = answer(&mut federation, course, record);
                shown.push((course, Shown { index, step: record.to_string(), answer }));
            }
        }
    }
    let width = Shown::width(shown.iter().map(|(_, shown)| shown));
    let mut text = format!("course  {}\n", Shown::title(width));
    for (course, shown) in &shown {
        text += &format!("{course:>6}  {}\n", shown.line(width));
    }
    text
}

/// A strange step gives 13, and the day goes on.
fn answer(federation: &mut Federation, course: u8, record: &Record) -> Answer {
    match record.call() {
        Some(call) => federation.call(&CourseCall { course, call }),
        None => Answer::refused(Code::UnknownStep),
    }
}
