//! 02, U12, by the tool: four days on one card, as the literal replay has them.

use std::fs;
use std::path::PathBuf;

use calls::{Answer, Call, Code, CourseCall, State};
use dayfile::{read_file, read_text, shown_courses, write_file, Record};
use days::{days_of, Profile};

use super::samples::day_file;
use super::tool::{failure, output};

/// The courses of a federation day, each made fresh.
fn fresh() -> literal::Federation {
    let mut federation = literal::Federation::new();
    for course in 0..4 {
        federation.call(&CourseCall { course, call: Call::Fresh { single_main: false } });
    }
    federation
}

/// What is shown of four days, each step answered by the literal replay.
fn by_literal(days: &[Vec<Record>; 4]) -> String {
    let mut federation = fresh();
    let steps = days.iter().flatten().map(|record| record.to_string().len());
    let width = steps.max().unwrap_or(0).max(4);
    let mut text = format!("course  index  {:width$}  code       value\n", "step");
    for index in 0..days.iter().map(Vec::len).max().unwrap() {
        for (course, day) in (0..4).zip(days) {
            let Some(record) = day.get(index) else { continue };
            let answer = match record.call() {
                Some(call) => federation.call(&CourseCall { course, call }),
                None => Answer::refused(Code::UnknownStep),
            };
            let value = match answer.state {
                State::Struck => "struck".to_string(),
                _ => answer.value.to_string(),
            };
            let step = record.to_string();
            let code = answer.code.number();
            text += &format!("{course:>6}  {index:>5}  {step:width$}  {code:>4}  {value:>10}");
            if answer.code != Code::Accepted {
                text += &format!("  {}", answer.code.name());
            }
            text.push('\n');
        }
    }
    text
}

#[test]
fn random_days_in_turn() {
    let kinds = [(Profile::SMALL, 12), (Profile::STRIKES, 8), (Profile::STRANGE, 8)];
    let samples: Vec<_> = days_of(&kinds).collect();
    for four in samples.chunks_exact(4) {
        let days = [0, 1, 2, 3].map(|place: usize| read_file(&day_file(&four[place])).unwrap());
        assert_eq!(shown_courses(&days), by_literal(&days), "from {} on", four[0]);
    }
}

/// Course 0 finds the card full at its 3,145th update, since course 1 has 3,000; then course 2 has its 1,024
/// and no more. Course 3 has no step.
fn full_card() -> [Vec<Record>; 4] {
    let update = "update 0/0 Time bib 7 61000\n";
    let late = ["yield 0\n".repeat(3_200), update.repeat(1_025)].concat();
    let texts = [update.repeat(3_200), update.repeat(3_000), late, String::new()];
    texts.map(|text| read_text(&text).unwrap())
}

#[test]
fn a_course_meets_a_full_card() {
    let days = full_card();
    let shown = shown_courses(&days);
    assert!(shown == by_literal(&days));
    let twenties: Vec<&str> =
        shown.lines().filter(|line| line.ends_with("shared log full")).collect();
    assert_eq!(twenties.len(), 56 + 1);
    let first = "     0   3144  update 0/0 Time bib 7 61000    20           0  shared log full";
    assert_eq!(twenties[0], first);
    let last: Vec<&str> = shown.lines().rev().take(2).collect();
    assert_eq!(last[1], "     2   4223  update 0/0 Time bib 7 61000     0        1023");
    assert_eq!(
        last[0],
        "     2   4224  update 0/0 Time bib 7 61000    20           0  shared log full"
    );
}

/// Files of four days, which are removed in the end.
struct Files([PathBuf; 4]);

impl Files {
    fn of(days: &[Vec<Record>; 4]) -> Self {
        let path = |course: usize| {
            let file = format!("dayfile-test-{}-{course}.day", std::process::id());
            let path = std::env::temp_dir().join(file);
            fs::write(&path, write_file(&days[course]).unwrap()).unwrap();
            path
        };
        Files([0, 1, 2, 3].map(path))
    }

    fn names(&self) -> [&str; 4] {
        self.0.each_ref().map(|path| path.to_str().unwrap())
    }
}

impl Drop for Files {
    fn drop(&mut self) {
        self.0.iter().for_each(|path| _ = fs::remove_file(path));
    }
}

#[test]
fn four_files_by_name_and_by_input() {
    let texts = ["fork box 0\nfork box 1\n", "step 9\n", "", "query 0/0 bib 7\nyield 0\nyield 0\n"];
    let days = texts.map(|text| read_text(text).unwrap());
    let files = Files::of(&days);
    let [a, b, c, d] = files.names();
    let shown = "\
course  index  step             code       value
     0      0  fork box 0          0           1
     1      0  step 9             13           0  strange step
     3      0  query 0/0 bib 7     0           0
     0      1  fork box 1          0           2
     3      1  yield 0             0           0
     3      2  yield 0             0           0
";
    let by_name = output(&["courses", a, b, c, d], b"");
    assert_eq!(String::from_utf8(by_name).unwrap(), shown);
    let input = write_file(&days[3]).unwrap();
    assert_eq!(String::from_utf8(output(&["courses", a, b, c, "-"], &input)).unwrap(), shown);

    let twice = failure(&["courses", a, "-", "-", d], b"");
    let message = "dayfile: only one of the four days can come from standard input\n".to_string();
    assert_eq!(twice, (Some(1), String::new(), message));
    let (status, printed, message) = failure(&["courses", a, b, "no such file", d], b"");
    assert_eq!((status, printed.as_str()), (Some(1), ""));
    assert!(message.starts_with("dayfile: no such file: "), "{message}");
    let message = "dayfile: bad file: 0 bytes, and the header alone has 8\n".to_string();
    assert_eq!(failure(&["courses", "-", b, c, d], b""), (Some(1), String::new(), message));
}

#[test]
fn four_files_and_no_other_number() {
    for arguments in [&["courses"][..], &["courses", "a", "b", "c"]] {
        assert_eq!(failure(arguments, b"").0, Some(2), "{arguments:?}");
    }
    assert_eq!(failure(&["courses", "a", "b", "c", "d", "e"], b"").0, Some(2));
}
