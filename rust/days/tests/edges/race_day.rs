//! 01, "Edges of a race day", and the listing. The edge of a file without steps is one of
//! `dayfile/tests/suite/files.rs`.

use calls::{Line, SHEET};

use super::{
    answers, day, fork, join, list, query, update, yields, Row, EARLIEST, PENALTY, STRIKE, TIME,
};

/// "The day above: query at index 10 gives 65000, not 60000."
#[test]
fn e1_the_order_is_not_that_of_the_numbers() {
    day(&[
        (update(0, 0, TIME, 7, 61000), 0, 0),
        (yields(0), 0, 0),
        (fork(0), 0, 1),
        (update(1, 1, PENALTY, 7, 5000), 0, 1),
        (fork(1), 7, 0),
        (yields(1), 0, 0),
        (update(0, 0, TIME, 7, 60000), 0, 2),
        (yields(0), 0, 0),
        (query(0, 1, 7), 8, 0),
        (join(0, 1), 0, 1),
        (query(1, 0, 7), 0, 65000),
        (update(0, 1, STRIKE, 7, 0), 4, 0),
    ]);
}

/// "Box 0 sends 1, 1 sends 2: join 0 with 2 gives 11, and so does join 2 with 1; after join 0 with
/// 1, join 0 with 2 is taken."
#[test]
fn e2_no_revision_takes_over_its_forker() {
    day(&[
        (fork(0), 0, 1),
        (fork(1), 0, 2),
        (join(0, 2), 11, 0),
        (join(2, 1), 11, 0),
        (join(0, 1), 0, 0),
        (join(0, 2), 0, 0),
    ]);
}

/// "Box 0 sends 1, then 2: join 1 with 2 gives 11, and after it join 2 with 1 is taken."
#[test]
fn e3_the_later_fork_saw_the_earlier_one() {
    day(&[(fork(0), 0, 1), (fork(0), 0, 2), (join(1, 2), 11, 0), (join(2, 1), 0, 0)]);
}

/// "Join 0 with 0: 11, but 7 while box 0 is busy."
#[test]
fn e4_a_join_with_itself() {
    day(&[(join(0, 0), 11, 0), (query(3, 0, 7), 0, 0), (join(0, 0), 7, 0)]);
}

/// "Penalty 4,294,967,295 on value 1 gives 0."
#[test]
fn e5_a_penalty_wraps() {
    day(&[
        (update(0, 0, TIME, 7, 1), 0, 0),
        (update(0, 0, PENALTY, 7, 4_294_967_295), 0, 1),
        (query(0, 0, 7), 0, 0),
    ]);
}

/// "Earliest: 0 and 9 give 9; 9 and 0 give 9; 9 and 9 give 9."
#[test]
fn e6_earliest() {
    for (first, second) in [(0, 9), (9, 0), (9, 9)] {
        day(&[
            (update(0, 0, EARLIEST, 7, first), 0, 0),
            (update(0, 0, EARLIEST, 7, second), 0, 1),
            (query(0, 0, 7), 0, 9),
        ]);
    }
}

/// "Two yields in a row: both taken."
#[test]
fn e7_two_yields_in_a_row() {
    day(&[(update(2, 0, TIME, 5, 8), 0, 0), (yields(2), 0, 0), (yields(2), 0, 0)]);
    day(&[(yields(15), 0, 0), (yields(15), 0, 0), (yields(16), 2, 0)]);
}

/// "A join of a box without updates gains 0."
#[test]
fn e8_a_join_without_updates_gains_nothing() {
    day(&[
        (update(0, 0, TIME, 5, 8), 0, 0),
        (yields(0), 0, 0),
        (fork(0), 0, 1),
        (join(0, 1), 0, 0),
    ]);
}

/// "Bib 999 is taken; 1,000 gives 5."
#[test]
fn e9_the_last_bib() {
    day(&[
        (update(0, 0, TIME, 999, 8), 0, 0),
        (update(0, 0, TIME, 1000, 8), 5, 0),
        (query(0, 0, 999), 0, 8),
        (query(0, 0, 1000), 5, 0),
    ]);
}

/// "Update 4,096 is taken, the next gives 9, and joins still work." The log is one for all
/// revisions.
#[test]
fn the_log_is_full_after_4096_updates_of_all_revisions() {
    let mut rows = vec![(fork(0), 0, 1), (fork(0), 0, 2)];
    for number in 0..4_096 {
        let client = (number % 3) as u8;
        let kind = if number == 0 { TIME } else { PENALTY };
        rows.push((update(client, client, kind, 7, 1), 0, number));
    }
    rows.extend([(0, 0), (1, 1), (2, 2)].map(|(c, r)| (update(c, r, TIME, 7, 1), 9, 0)));
    rows.extend([0, 1, 2].map(|client| (yields(client), 0, 0)));
    rows.extend([
        (update(3, 0, STRIKE, 7, 0), 9, 0),
        (update(1, 0, STRIKE, 7, 0), 8, 0),
        (query(0, 0, 7), 0, 1_366),
        (yields(0), 0, 0),
        (join(0, 1), 0, 1_365),
        (update(3, 0, STRIKE, 7, 0), 9, 0),
        (join(0, 2), 0, 1_365),
        (query(0, 0, 7), 0, 4_096),
        (list(0, 0), 7, 0),
        (yields(0), 0, 0),
        (list(0, SHEET - 1), 12, 0),
        (list(0, SHEET), 0, 4_096),
    ]);
    day(&rows);
}

/// "The 63rd fork gives box 63, the next gives 10." 02, U7: once one of the 64 is handed in, a fork is
/// taken again.
#[test]
fn sixty_three_forks() {
    let mut rows: Vec<Row> = Vec::new();
    for number in 1..=63 {
        let forker = if number % 5 == 0 { number - 1 } else { 0 };
        rows.push((fork(forker), 0, u32::from(number)));
    }
    rows.extend([
        (fork(0), 10, 0),
        (fork(63), 10, 0),
        (fork(64), 3, 0),
        (join(0, 63), 0, 0),
        (fork(63), 4, 0),
        (fork(0), 0, 63),
        (fork(63), 10, 0),
        (query(0, 0, 0), 0, 0),
        (fork(0), 7, 0),
    ]);
    day(&rows);
}

#[test]
fn an_empty_listing_needs_no_room() {
    day(&[(list(0, 0), 0, 0), (list(1, 0), 3, 0)]);
}

#[test]
fn a_listing_is_in_the_order_of_the_effects() {
    let calls = [
        update(4, 0, TIME, 7, 61000),
        yields(4),
        fork(0),
        update(1, 1, STRIKE, 999, 5),
        yields(1),
        update(0, 0, EARLIEST, 7, u32::MAX),
        yields(0),
        join(0, 1),
        list(0, 36),
    ];
    let answer = answers(&calls).pop().unwrap();
    let line = |kind, client, bib, v, number| Line { kind, client, bib, v, number };
    let lines =
        [line(TIME, 4, 7, 61000, 0), line(EARLIEST, 0, 7, u32::MAX, 2), line(STRIKE, 1, 999, 5, 1)];
    assert_eq!((answer.code.number(), answer.value), (0, 3));
    assert_eq!(answer.lines, lines);
}
