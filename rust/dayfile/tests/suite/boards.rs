//! 02, U10, by the tool: the board after a day, as the literal replay works it out.

use calls::State;
use dayfile::{boarded_day, read_file, read_text, Record};
use days::{chains_of_joins, days_of, late_days, seeds, Profile};
use literal::Day;

use super::samples::day_file;
use super::tool::{failure, output, FILE};

/// Bib, state and value of the bibs that are not neither, bib by bib: the closed updates of box 0 alone.
fn by_literal(records: &[Record]) -> String {
    let mut day = Day::fresh();
    records.iter().filter_map(|record| record.call()).for_each(|call| _ = day.call(&call));
    let closed = day.closed();
    let line = |bib: u16| {
        let updates = closed.iter().map(|&number| day.updates()[number]);
        let standing = updates
            .filter(|update| update.bib == bib)
            .fold(literal::Standing::FRESH, |standing, update| update.applied_to(standing));
        match standing.state() {
            State::Neither => String::new(),
            State::Timed => format!("{bib} timed {}\n", standing.value()),
            State::Struck => format!("{bib} struck 0\n"),
        }
    };
    (0..1_000).map(line).collect()
}

#[test]
fn boards_of_random_days() {
    let kinds = [
        (Profile::SMALL, 60),
        (Profile::MIXED, 20),
        (Profile::STRIKES, 40),
        (Profile::SMALL_REUSED, 4),
    ];
    let (mut timed, mut struck) = (0, 0);
    for sample in days_of(&kinds).chain(chains_of_joins(seeds(5))).chain(late_days()) {
        let records = read_file(&day_file(&sample)).unwrap();
        let board = boarded_day(&records);
        assert_eq!(board, by_literal(&records), "{sample}");
        timed += board.matches(" timed ").count();
        struck += board.matches(" struck 0").count();
    }
    assert!(timed >= 100 && struck >= 100, "{timed} timed, {struck} struck");
}

#[test]
fn the_board_of_the_example() {
    assert_eq!(output(&["board"], FILE), b"7 timed 65000\n");
}

/// Tablet 2's transaction is open, and box 1 is not handed in.
#[test]
fn what_is_open_or_elsewhere_is_not_shown() {
    let text = "\
update 0/0 Time bib 12 61000
update 0/0 Strike bib 3
update 0/0 Time bib 999 4294967295
yield 0
fork box 0
update 1/1 Strike bib 12
yield 1
update 2/0 Strike bib 12
update 2/0 Time bib 5 9
";
    let file = output(&["pack"], text.as_bytes());
    assert_eq!(output(&["board"], &file), b"3 struck 0\n12 timed 61000\n999 timed 4294967295\n");
    assert_eq!(boarded_day(&read_text(text).unwrap()).lines().count(), 3);
}

#[test]
fn no_board_of_a_bad_file() {
    let message = "dayfile: bad file: 0 bytes, and the header alone has 8\n".to_string();
    assert_eq!(failure(&["board"], b""), (Some(1), String::new(), message));
    assert_eq!(output(&["board"], &[0, 0, 0, 0, 8, 0, 0, 0]), b"");
}
