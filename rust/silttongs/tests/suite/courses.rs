//! 02, U12, on the library: random federation days against four literal replays, and the rules of four
//! courses one by one.

use baseline::Federation;
use calls::{order_file, Answer, Call, Code, CourseCall, BOARD, BUNDLE, COURSES};
use days::{
    card_days_of, fault_of_agreement, fault_of_claims, must_pass, CardProfile, CardStep, Judged,
};
use silttongs::{Board, Course, Day, Entry, Kind, Refusal, Table, BYTES};

use super::given::{course_library, first_difference, sheet};

/// What the library answers, as the baseline does; it must leave what the baseline leaves, of all four tables
/// and boards, and the sheet behind the lines as it was.
pub(crate) fn judged(lent: &mut Federation, call: &CourseCall) -> Result<Answer, String> {
    judged_beside(&mut lent.clone(), lent, call)
}

/// The same, with a copy for the baseline.
fn judged_beside(
    right: &mut Federation,
    lent: &mut Federation,
    call: &CourseCall,
) -> Result<Answer, String> {
    let expected = right.call(call);
    let given = course_library(lent, call);
    for course in 0..COURSES {
        let table = (&lent.tables[course], &right.tables[course], "table");
        let board = (&lent.boards[course], &right.boards[course], "board");
        for (a, b, what) in [table, board] {
            if let Some(at) = first_difference(a, b) {
                let (found, right) = (a.get(at), b.get(at));
                return Err(format!("byte {at} of {what} {course} is {found:?}, not {right:?}"));
            }
        }
    }
    let lines = 12 * given.answer.value as usize;
    let before = sheet(&call.call);
    if !before.is_empty() && given.sheet[lines..] != before[lines..] {
        return Err("the sheet is changed behind its lines".to_string());
    }
    let answer = given.with_lines();
    match answer == expected {
        true => Ok(answer),
        false => Err(format!("gives {answer}, baseline {expected}")),
    }
}

fn answered(lent: &mut Federation, call: &CourseCall) -> Answer {
    course_library(lent, call).with_lines()
}

#[test]
fn federation_days_as_by_four_literal_replays() {
    let kinds = [
        (CardProfile::OPEN, 150),
        (CardProfile::FULL, 50),
        (CardProfile::FULL_TABLE, 40),
        (CardProfile::UNDAMAGED, 12),
    ];
    must_pass(card_days_of(&kinds), |steps| {
        let (mut copy, mut done) = (None, steps.iter());
        Judged::new(steps).fault(|lent, call| {
            // One copy for the whole day: what is not a call is done to both.
            let right = copy.get_or_insert_with(|| lent.clone());
            for step in done.by_ref() {
                match step {
                    CardStep::Broken(damage) | CardStep::Scratched(damage) => damage.put(right),
                    CardStep::Made(_) => break,
                }
            }
            judged_beside(right, lent, call)
        })
    });
}

#[test]
fn courses_have_what_02_asks_to_show() {
    let kinds = [(CardProfile::OPEN, 30), (CardProfile::FULL_TABLE, 10)];
    must_pass(card_days_of(&kinds), |steps| fault_of_claims(steps, answered));
    let undamaged = [(CardProfile::UNDAMAGED, 6)];
    must_pass(card_days_of(&undamaged), |steps| fault_of_agreement(steps, answered));
}

/// Four courses and their boards.
struct Courses {
    federation: silttongs::Federation<Vec<u8>, Vec<u8>>,
}

impl Courses {
    /// All four made fresh.
    fn fresh() -> Self {
        let boards = [(); COURSES].map(|()| Board::from_bytes(vec![0x5a; BOARD]));
        let tables = [(); COURSES].map(|()| vec![0xa5; BYTES]);
        let mut courses = Courses { federation: silttongs::Federation::from_bytes(tables, boards) };
        for course in Course::ALL {
            assert_eq!(courses.renew(course), Ok(()));
        }
        courses
    }

    fn renew(&mut self, course: Course) -> Result<(), Refusal> {
        self.federation.fresh(course, Day::Ordinary)
    }

    fn bundle(&mut self, course: Course, entries: &[Entry]) -> Result<u32, Refusal> {
        self.federation.bundle_entries(course, 0, 0, entries)
    }

    fn update(&mut self, course: Course) -> Result<u32, Refusal> {
        self.federation.update(course, 0, 0, Kind::Time, 7, 61_000)
    }

    /// So many updates, which are all taken.
    fn take(&mut self, course: Course, count: usize) {
        let all = vec![GOOD; count];
        for entries in all.chunks(BUNDLE) {
            assert!(self.bundle(course, entries).is_ok());
        }
    }
}

const GOOD: Entry = Entry { kind: 1, bib: 7, v: 61_000 };
const BAD: Entry = Entry { kind: 1, bib: 1_000, v: 61_000 };

/// 4,096 and 2,048 updates, and 1,024 for the other two, are all that the card holds.
#[test]
fn each_course_has_its_1024() {
    for [a, b, c, d] in [[0, 1, 2, 3], [3, 2, 1, 0], [1, 0, 3, 2], [2, 3, 0, 1]] {
        let [a, b, c, d] = [a, b, c, d].map(|place: usize| Course::ALL[place]);
        let mut courses = Courses::fresh();
        courses.take(a, 4_096);
        courses.take(b, 2_048);
        assert_eq!(courses.update(a), Err(Refusal::LogFull));
        assert_eq!(courses.update(b), Err(Refusal::SharedLogFull));
        courses.take(c, 1_023);
        assert_eq!(courses.update(b), Err(Refusal::SharedLogFull));
        assert_eq!(courses.update(c), Ok(1_023));
        assert_eq!(courses.update(c), Err(Refusal::SharedLogFull));
        courses.take(d, 1_024);
        assert_eq!(courses.update(d), Err(Refusal::SharedLogFull));
        // "Making one table fresh gives its updates back."
        assert_eq!(courses.renew(b), Ok(()));
        courses.take(d, 1_024);
        assert_eq!(courses.update(d), Err(Refusal::SharedLogFull));
        assert_eq!(courses.update(c), Err(Refusal::SharedLogFull));
        assert_eq!(courses.update(b), Ok(0));
    }
}

/// Course 1 has room for three updates more. A refused bundle leaves every byte.
#[test]
fn the_codes_of_a_bundle_come_entry_by_entry() {
    let [full, own, ..] = Course::ALL;
    let mut courses = Courses::fresh();
    courses.take(full, 4_096);
    courses.take(own, 2_045);
    let before = courses.federation.clone();
    let refused = [
        (vec![GOOD; 4], Refusal::SharedLogFull),
        (vec![GOOD; 64], Refusal::SharedLogFull),
        (vec![GOOD, GOOD, GOOD, BAD], Refusal::BadEntry),
        (vec![GOOD, GOOD, BAD, GOOD, GOOD], Refusal::BadEntry),
        (vec![GOOD, GOOD, GOOD, GOOD, BAD], Refusal::SharedLogFull),
        (vec![], Refusal::WrongBundle),
    ];
    for (entries, refusal) in refused {
        assert_eq!(courses.bundle(own, &entries), Err(refusal), "{entries:?}");
        assert!(courses.federation == before, "{entries:?}");
    }
    assert_eq!(courses.bundle(own, &[GOOD; 3]), Ok(2_045));
    assert_eq!(courses.bundle(own, &[GOOD]), Err(Refusal::SharedLogFull));
    assert_eq!(courses.bundle(own, &[BAD]), Err(Refusal::BadEntry));
    // The table of course 0 is full too, and 9 comes first.
    assert_eq!(courses.bundle(full, &[GOOD]), Err(Refusal::LogFull));
}

/// Each of the fifteen calls but fresh, with arguments that a fresh table takes or refuses late.
fn calls() -> Vec<Call> {
    vec![
        Call::Update { client: 0, revision: 0, kind: 1, bib: 7, v: 1 },
        Call::Query { client: 0, revision: 0, bib: 7 },
        Call::Yield { client: 0 },
        Call::Fork { revision: 0 },
        Call::Join { joiner: 0, joinee: 1 },
        Call::List { revision: 0, room: 24 },
        Call::Fill { revision: 0 },
        Call::Bundle { client: 0, revision: 0, records: [1; 24].to_vec() },
        Call::Preview { joiner: 0, joinee: 1, bib: 7 },
        Call::Sync { revision: 1 },
        Call::Mark { revision: 0, name: b"JURY".to_vec() },
        Call::Drop { name: b"JURY".to_vec() },
        Call::Verify { order: order_file(&[]) },
        Call::Bill { member: true },
        // 1 comes before 14, 17, 18, 19 and 21.
        Call::Bundle { client: 0, revision: 0, records: Vec::new() },
        Call::Mark { revision: 0, name: Vec::new() },
        Call::Drop { name: Vec::new() },
        Call::Verify { order: Vec::new() },
        Call::OnBoard { length: 4_999, call: Box::new(Call::Yield { client: 0 }) },
    ]
}

const FRESH: Call = Call::Fresh { single_main: true };

/// "another number gives 1"
#[test]
fn only_0_to_3_are_courses() {
    assert_eq!([0, 1, 2, 3].map(Course::new), Course::ALL.map(Ok));
    for number in 4..=u8::MAX {
        assert_eq!(Course::new(number), Err(Refusal::NoTable));
    }
}

/// "as does any of the four buffers that meets 1's condition (for fresh: its own length only)"
#[test]
fn any_of_four_buffers_may_be_no_table() {
    for bad in 0..COURSES {
        let wrong_cell = |table: &mut Vec<u8>| table[39_826] = 0;
        let wrong_length = |table: &mut Vec<u8>| table.truncate(BYTES - 1);
        for spoil in [wrong_cell as fn(&mut Vec<u8>), wrong_length] {
            let mut lent = Federation::fresh();
            spoil(&mut lent.tables[bad]);
            let before = lent.clone();
            for course in 0..COURSES as u8 {
                for call in calls() {
                    let call = CourseCall { course, call };
                    let right = Answer::refused(Code::NoTable);
                    assert_eq!(answered(&mut lent, &call), right, "`{call}`, {bad} is no table");
                }
            }
            assert!(lent == before, "{bad} is no table");
            let whole = before.tables[bad].len() == BYTES;
            for course in 0..COURSES {
                let call = CourseCall { course: course as u8, call: FRESH };
                let taken = judged(&mut lent, &call) == Ok(Answer::accepted(0));
                assert_eq!(taken, course != bad || whole, "`{call}`, {bad} is no table");
            }
        }
    }
}

/// What nothing reads of the other tables may be anything: rows of boxes that are not out, entries behind the
/// last, and the bytes kept free.
#[test]
fn what_nothing_reads_of_the_others_is_not_looked_at() {
    let mut lent = Federation::fresh();
    for table in &mut lent.tables[1..] {
        table[..32_256].fill(0xff);
        table[40_089..40_952].fill(0xa5);
        table[40_960..].fill(0x5a);
    }
    for call in calls() {
        let (call, mut alone) = (CourseCall { course: 0, call }, Federation::fresh());
        let given = judged(&mut lent.clone(), &call).unwrap();
        assert_eq!(given, answered(&mut alone, &call), "`{call}`");
        assert_ne!(given.code, Code::NoTable, "`{call}`");
    }
}

/// A course alone is a table: the same calls, by the methods of either, leave the same bytes.
#[test]
fn a_course_is_a_table() -> Result<(), Refusal> {
    let mut courses = Courses::fresh();
    let course = Course::ALL[2];
    let mut board = Board::from_bytes(vec![0; BOARD]);
    let mut table = Table::fresh(vec![0; BYTES], &mut board, Day::Ordinary)?;

    assert_eq!(
        courses.bundle(course, &[GOOD; 2]),
        table.bundle_entries(&mut board, 0, 0, &[GOOD; 2])
    );
    assert_eq!(courses.federation.mark(course, 0, "JURY"), table.mark(0, "JURY"));
    let marks: Vec<_> = courses.federation.marks(course)?.collect();
    assert!(table.marks()?.eq(marks.iter().copied()));
    assert_eq!(marks.len(), 1);
    assert_eq!(courses.federation.marks(Course::ALL[0])?.count(), 0);
    assert_eq!(courses.federation.bytes()[2], table.bytes());
    assert_eq!(courses.federation.board(course).bytes(), board.bytes());
    // Read where they lie.
    let boards =
        Course::ALL.map(|course| Board::from_bytes(courses.federation.board(course).bytes()));
    let read = silttongs::Federation::from_bytes(courses.federation.bytes(), boards);
    assert_eq!(read.fill(course, 0), table.fill(0));
    Ok(())
}
