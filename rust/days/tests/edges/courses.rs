//! 02, U12, "Four courses, one log": its edges, of both implementations.

use baseline::Federation;
use calls::{Call, CourseCall, Line};

use super::{fill, fork, join, ordinary, query, single_main, update, yields, STRIKE, TIME};

/// Both implementations, which give the same.
struct Courses {
    literal: literal::Federation,
    baseline: Federation,
}

impl Courses {
    fn new() -> Self {
        Courses { literal: literal::Federation::new(), baseline: Federation::new() }
    }

    /// All four made fresh, in another order than their numbers'.
    fn fresh() -> Self {
        let mut courses = Courses::new();
        for course in [2, 0, 3, 1] {
            courses.ask(course, ordinary(), 0, 0);
        }
        courses
    }

    /// Makes a call, and compares code and value of its answer.
    #[track_caller]
    fn ask(&mut self, course: u8, call: Call, code: u8, value: u32) {
        let call = CourseCall { course, call };
        let given = self.literal.call(&call);
        assert_eq!(self.baseline.call(&call), given, "`{call}`");
        assert_eq!((given.code.number(), given.value), (code, value), "`{call}`");
    }

    /// So many updates of a course that has none.
    #[track_caller]
    fn take(&mut self, course: u8, count: u32) {
        for first in (0..count).step_by(64) {
            self.ask(course, bundle(&vec![GOOD; 64.min(count - first) as usize]), 0, first);
        }
    }

    /// The boards are as worked out afresh.
    #[track_caller]
    fn boards_are_right(&self) {
        for course in 0..4 {
            let right = self.literal.day(course).unwrap().board();
            assert!(self.baseline.boards[usize::from(course)] == right, "course {course}");
        }
    }
}

const GOOD: (u8, u16) = (TIME, 7);
const BAD: (u8, u16) = (TIME, 1_000);

/// A bundle of tablet 0 on box 0, of these kinds and bibs.
fn bundle(entries: &[(u8, u16)]) -> Call {
    let record = |&(kind, bib)| Line { kind, client: 0, bib, v: 61_000, number: 0 }.to_bytes();
    Call::Bundle { client: 0, revision: 0, records: entries.iter().flat_map(record).collect() }
}

/// An update of tablet 0 on box 0.
fn time() -> Call {
    update(0, 0, TIME, 7, 61_000)
}

/// "(until then a fresh one too may meet 1 through another's buffer)"
#[test]
fn until_all_four_are_fresh() {
    let mut courses = Courses::new();
    for course in [1, 3, 0] {
        courses.ask(course, ordinary(), 0, 0);
        courses.ask(course, time(), 1, 0);
        courses.ask(course, fill(0), 1, 0);
    }
    courses.ask(2, single_main(), 0, 0);
    for course in 0..4 {
        courses.ask(course, time(), 0, 0);
    }
    for course in [4, 5, 128, 255] {
        courses.ask(course, time(), 1, 0);
        courses.ask(course, ordinary(), 1, 0);
    }
}

/// "if afterwards the sum .. would pass 8,192": 8,192 itself is held.
#[test]
fn the_card_is_filled_to_its_last_place() {
    let mut courses = Courses::fresh();
    for (course, count) in [(0, 2_048), (1, 2_048), (2, 2_047), (3, 2_048)] {
        courses.take(course, count);
    }
    courses.ask(2, time(), 0, 2_047);
    for course in 0..4 {
        courses.ask(course, update(1, 0, TIME, 7, 1), if course == 2 { 7 } else { 20 }, 0);
        courses.ask(course, update(0, 0, TIME, 7, 1), 20, 0);
    }
    courses.ask(2, yields(0), 0, 0);
    courses.boards_are_right();
}

/// 20 comes last: every other check of an update is made before it.
#[test]
fn twenty_comes_last() {
    let mut courses = Courses::fresh();
    courses.ask(1, fork(0), 0, 1);
    courses.ask(1, fork(0), 0, 2);
    courses.ask(1, join(0, 2), 0, 0);
    courses.ask(1, query(2, 1, 7), 0, 0);
    courses.ask(1, yields(2), 0, 0);
    courses.take(0, 4_096);
    courses.take(1, 2_048);
    courses.ask(1, query(1, 0, 7), 0, 61_000);
    for (client, revision, kind, bib, code) in [
        (16, 0, TIME, 7, 2),
        (0, 3, TIME, 7, 3),
        (0, 2, TIME, 7, 4),
        (1, 0, TIME, 1_000, 5),
        (1, 0, 0, 7, 5),
        (1, 1, TIME, 7, 6),
        (0, 0, TIME, 7, 7),
        (2, 1, TIME, 7, 20),
        (1, 0, TIME, 7, 20),
        (1, 0, STRIKE, 7, 20),
    ] {
        courses.ask(1, update(client, revision, kind, bib, 1), code, 0);
    }
    courses.ask(1, yields(1), 0, 0);
    courses.ask(1, update(2, 0, TIME, 7, 1), 8, 0);
    // The log of course 0 is full too.
    courses.ask(0, time(), 9, 0);
    courses.ask(0, bundle(&[GOOD]), 9, 0);
    courses.ask(0, bundle(&[BAD]), 5, 0);
    // What enters no update goes on.
    courses.ask(1, query(0, 0, 7), 0, 61_000);
    courses.ask(1, fill(0), 0, 2_048);
    courses.ask(1, yields(0), 0, 0);
    courses.ask(1, fork(0), 0, 3);
}

/// "For bundles it counts per update": a 20 of entry 3 comes before a 5 of entry 4, and a 5 of the same entry
/// before its 20.
#[test]
fn bundles_count_per_update() {
    let mut courses = Courses::fresh();
    courses.take(3, 4_096);
    courses.take(0, 2_046);
    for (entries, code) in [
        (vec![GOOD; 3], 20),
        (vec![GOOD; 64], 20),
        (vec![GOOD, GOOD, BAD], 5),
        (vec![GOOD, BAD, GOOD, GOOD], 5),
        (vec![GOOD, GOOD, GOOD, BAD], 20),
        (vec![BAD, GOOD, GOOD, GOOD], 5),
    ] {
        courses.ask(0, bundle(&entries), code, 0);
        courses.ask(0, fill(0), 0, 2_046);
    }
    courses.ask(0, bundle(&[GOOD; 2]), 0, 2_046);
    courses.ask(0, bundle(&[GOOD]), 20, 0);
    courses.boards_are_right();
}

/// Each course has 1,024, whatever the others took; and with bundles no more.
#[test]
fn each_has_1024() {
    let mut courses = Courses::fresh();
    courses.take(2, 4_096);
    courses.take(3, 2_048);
    for course in [0, 1] {
        courses.take(course, 1_023);
        courses.ask(course, bundle(&[GOOD; 2]), 20, 0);
        courses.ask(course, time(), 0, 1_023);
        courses.ask(course, time(), 20, 0);
        courses.ask(course, bundle(&[GOOD]), 20, 0);
        courses.ask(course, bundle(&[BAD]), 5, 0);
    }
    // "Making one table fresh gives its updates back": what it had above 1,024.
    courses.ask(3, single_main(), 0, 0);
    courses.ask(0, bundle(&[GOOD; 64]), 0, 1_024);
    courses.ask(3, bundle(&[GOOD; 64]), 0, 0);
    // To make one fresh that had less gives nothing back.
    courses.ask(0, fill(0), 0, 1_088);
    courses.ask(3, ordinary(), 0, 0);
    for first in (1_024..1_984).step_by(64) {
        courses.ask(1, bundle(&[GOOD; 64]), 0, first);
    }
    courses.ask(1, bundle(&[GOOD; 64]), 20, 0);
    courses.ask(3, fill(0), 0, 0);
    courses.boards_are_right();
}

/// "Each course has its own board, lent to its calls only."
#[test]
fn each_has_its_board() {
    let mut courses = Courses::fresh();
    for (course, bib) in (0..4).zip(7..) {
        courses.ask(course, bundle(&[(TIME, bib)]), 0, 0);
    }
    courses.boards_are_right();
    courses.ask(2, ordinary(), 0, 0);
    courses.boards_are_right();
    let shown = |board: &Vec<u8>| board.iter().filter(|&&byte| byte != 0).count();
    assert_eq!(courses.baseline.boards.each_ref().map(shown), [2, 2, 0, 2]);
}

/// A wrong board is found before what the update would meet, and after 1 and 14.
#[test]
fn nineteen_comes_before_20() {
    let mut courses = Courses::fresh();
    courses.take(0, 4_096);
    courses.take(1, 2_048);
    let on = |call: Call| Call::OnBoard { length: 4_999, call: Box::new(call) };
    courses.ask(1, on(bundle(&[GOOD])), 19, 0);
    courses.ask(1, on(bundle(&[])), 14, 0);
    courses.ask(4, on(bundle(&[])), 1, 0);
    courses.ask(1, on(ordinary()), 19, 0);
    courses.ask(1, bundle(&[GOOD]), 20, 0);
    courses.ask(1, ordinary(), 0, 0);
    courses.ask(1, bundle(&[GOOD]), 0, 0);
}
