//! Four buffers that no day made, and boards of any bytes: every call on a course returns, gives what the
//! baseline gives and leaves what it leaves, and has code 1 exactly if docs/CELLS.md says so of one of the four.

use std::collections::BTreeMap;

use baseline::Federation;
use calls::{Answer, Call, Code, CourseCall, COURSES};
use days::{seeds, tally, Rng};
use silttongs::BYTES;

use super::cells::{cells, is_table, Cell};
use super::courses::judged;
use super::given::{course_library, fresh_bytes};
use super::random::{any_board, any_call, damaged, names, taken, UPDATES};

/// How many times four damaged buffers are tried, and how many calls are made on them.
const BUFFERS: u64 = 300;
const CALLS: usize = 16;

/// Most have all cells in range; many have so many updates that the card is full, or more than full as on no
/// day; a few have a wrong length.
fn any_courses(cells: &[Cell], rng: &mut Rng) -> Federation {
    let mut lent = Federation::new();
    for (table, board) in lent.tables.iter_mut().zip(&mut lent.boards) {
        (*table, *board) = (damaged(cells, rng), any_board(rng));
        if !is_table(cells, table) && rng.percent(80) {
            *table = fresh_bytes();
        }
        let any = rng.below(4_097) as u16;
        let updates = rng.pick(&[0, 1_023, 1_024, 2_048, 2_560, 4_095, 4_096, any]);
        if rng.percent(60) {
            table[UPDATES..UPDATES + 2].copy_from_slice(&updates.to_le_bytes());
        }
        if rng.percent(2) {
            table.resize(rng.pick(&[0, 40_960, BYTES - 1, BYTES + 1]), 0);
        }
    }
    lent
}

/// A call of a course, many of them updates and bundles on the main revision; in a few cases the number is
/// none of a course.
fn any_course_call(rng: &mut Rng, lent: &Federation) -> CourseCall {
    let own = rng.below(COURSES);
    let (names, taken) = (names(&lent.tables[own]), taken(&lent.tables[own]));
    let mut call = any_call(rng, &names, taken);
    if let Call::Update { revision, .. } | Call::Bundle { revision, .. } = &mut call {
        *revision = rng.pick(&[0, 0, 0, *revision]);
    }
    if rng.percent(3) {
        call = Call::Fresh { single_main: rng.percent(50) };
    }
    let strange = 4 + rng.below(252) as u8;
    CourseCall { course: if rng.percent(2) { strange } else { own as u8 }, call }
}

/// Whether code 1 is right.
fn is_one(cells: &[Cell], lent: &Federation, CourseCall { course, call }: &CourseCall) -> bool {
    match lent.tables.get(usize::from(*course)) {
        None => true,
        Some(own) if call.name() == "fresh" => own.len() != BYTES,
        Some(_) => !lent.tables.iter().all(|table| is_table(cells, table)),
    }
}

/// What is wrong with a call, in words; else its code.
fn fault(cells: &[Cell], lent: &mut Federation, call: &CourseCall) -> Result<Code, String> {
    let before = lent.clone();
    let answer = judged(lent, call)?;
    let code = answer.code;
    if (code == Code::NoTable) != is_one(cells, &before, call) {
        return Err(format!("gives {answer}, against docs/CELLS.md"));
    }
    if code != Code::Accepted && (answer != Answer::refused(code) || *lent != before) {
        return Err(format!("gives {answer}, but changes something"));
    }
    let others = (0..COURSES).filter(|&other| other != usize::from(call.course));
    for other in others {
        if lent.tables[other] != before.tables[other] {
            return Err(format!("gives {answer} and changes course {other}"));
        }
    }
    let mut again = before;
    if course_library(&mut again, call).with_lines() != answer || again != *lent {
        return Err("a second run differs".to_string());
    }
    Ok(code)
}

#[test]
fn random_calls_on_four_damaged_buffers() {
    let cells = cells();
    let mut codes: BTreeMap<Code, usize> = BTreeMap::new();
    for seed in seeds(BUFFERS) {
        let mut rng = Rng::new(seed);
        let mut lent = any_courses(&cells, &mut rng);
        for step in 0..CALLS {
            let call = any_course_call(&mut rng, &lent);
            match fault(&cells, &mut lent, &call) {
                Ok(code) => *codes.entry(code).or_default() += 1,
                Err(fault) => panic!("seed {seed}, call {step}, `{call}`: {fault}"),
            }
        }
        tally::count("damaged buffers", "of four tables", COURSES as u64);
    }
    tally::tell();
    // 13 is given by the program alone.
    let numbers: Vec<u8> = codes.keys().map(|code| code.number()).collect();
    assert!(numbers.iter().copied().eq((0..=12).chain(14..=21)), "{codes:?}");
    assert!(codes[&Code::SharedLogFull] >= 30, "{codes:?}");
    assert!(codes[&Code::Accepted] >= 100, "{codes:?}");
}
