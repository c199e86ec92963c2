//! 02, U10, "The announcer's board": its edges, and what a wrong board would show.

use calls::{Call, Line};

use super::{
    day, fork, join, mark, ordinary, query, single_main, sync, update, yields, Row, EARLIEST,
    PENALTY, STRIKE, TIME,
};

/// A bundle of one entry.
fn bundle(client: u8, revision: u8, kind: u8, bib: u16, v: u32) -> Call {
    let records = Line { kind, client, bib, v, number: 0 }.to_bytes().to_vec();
    Call::Bundle { client, revision, records }
}

/// A call with a board of so many bytes.
fn on_board(length: usize, call: Call) -> Call {
    Call::OnBoard { length, call: Box::new(call) }
}

/// Makes the calls, and then the boards of both implementations have these entries, and 0 elsewhere.
#[track_caller]
fn shows(calls: &[Call], entries: &[(usize, [u8; 5])]) {
    let (mut literal, mut baseline) = (literal::Day::fresh(), baseline::Day::fresh());
    for call in calls {
        assert_eq!(literal.call(call), baseline.call(call), "`{call}`");
    }
    let mut board = vec![0; 5_000];
    for (bib, entry) in entries {
        board[5 * bib..5 * bib + 5].copy_from_slice(entry);
    }
    assert!(literal.board() == board, "by the literal replay");
    assert!(baseline.board() == board, "by the baseline");
}

/// "1 if struck and else 0, then the value in 4 bytes, least significant first"
#[test]
fn an_entry_has_five_bytes() {
    let calls = [
        update(0, 0, TIME, 0, 0x0102_0304),
        update(0, 0, STRIKE, 1, 9),
        update(0, 0, TIME, 999, u32::MAX),
        update(0, 0, TIME, 2, 0),
        yields(0),
    ];
    shows(&calls, &[(0, [0, 4, 3, 2, 1]), (1, [1, 0, 0, 0, 0]), (999, [0, 255, 255, 255, 255])]);
}

/// "It shows box 0 by closed transactions only": an update alone brings nothing, and neither do queries.
#[test]
fn what_is_open_is_not_shown() {
    shows(&[update(0, 0, TIME, 7, 5)], &[]);
    shows(&[update(0, 0, TIME, 7, 5), query(0, 0, 7)], &[]);
    shows(&[update(0, 0, TIME, 7, 5), yields(1)], &[]);
    shows(
        &[update(0, 0, TIME, 7, 5), yields(0), update(1, 0, STRIKE, 7, 0)],
        &[(7, [0, 5, 0, 0, 0])],
    );
}

/// A yield, a bundle, a join on another box bring nothing; a join into box 0 brings all that it gains.
#[test]
fn what_is_on_another_box_is_not_shown() {
    let mut calls = vec![fork(0), fork(1), update(0, 1, TIME, 7, 5), yields(0)];
    shows(&calls, &[]);
    calls.push(bundle(1, 2, TIME, 8, 6));
    shows(&calls, &[]);
    calls.push(join(1, 2));
    shows(&calls, &[]);
    calls.push(join(0, 1));
    shows(&calls, &[(7, [0, 5, 0, 0, 0]), (8, [0, 6, 0, 0, 0])]);
}

/// "a bundle on box 0 brings all of the transaction it closes, also what was entered singly before"
#[test]
fn a_bundle_brings_its_transaction() {
    let calls = [update(0, 0, TIME, 7, 60), update(0, 0, TIME, 8, 9), bundle(0, 0, PENALTY, 7, 5)];
    shows(&calls, &[(7, [0, 65, 0, 0, 0]), (8, [0, 9, 0, 0, 0])]);
}

/// The gain stands behind what box 0 has, whatever the numbers: E1 on the board. A sync brings it once.
#[test]
fn a_gain_stands_behind() {
    let late =
        [fork(0), update(1, 1, PENALTY, 7, 5), yields(1), update(0, 0, TIME, 7, 60), yields(0)];
    let right = [(7, [0, 65, 0, 0, 0])];
    shows(&[&late[..], &[join(0, 1)]].concat(), &right);
    shows(&[&late[..], &[sync(1)]].concat(), &right);
    shows(&[&[single_main()], &late[..], &[sync(1), sync(2)]].concat(), &right);
}

/// Updates that a box inherited are not brought again.
#[test]
fn what_was_there_is_not_brought_again() {
    let calls = [
        bundle(0, 0, TIME, 7, 60),
        bundle(0, 0, PENALTY, 7, 5),
        fork(0),
        bundle(1, 1, PENALTY, 7, 1),
        join(0, 1),
    ];
    shows(&calls, &[(7, [0, 66, 0, 0, 0])]);
}

/// 02, U2: a struck bib stays struck on the board too, with value 0, until a Time.
#[test]
fn a_struck_bib_stays_struck() {
    let mut calls = vec![bundle(0, 0, TIME, 7, 60), bundle(0, 0, STRIKE, 7, 9)];
    shows(&calls, &[(7, [1, 0, 0, 0, 0])]);
    calls.extend([bundle(0, 0, EARLIEST, 7, 3), bundle(0, 0, PENALTY, 7, 4)]);
    shows(&calls, &[(7, [1, 0, 0, 0, 0])]);
    calls.push(bundle(0, 0, TIME, 7, 8));
    shows(&calls, &[(7, [0, 8, 0, 0, 0])]);
}

/// "Fresh clears it", a day of either choice; a mark and a fork leave it.
#[test]
fn a_fresh_day_has_an_empty_board() {
    let calls = [bundle(0, 0, TIME, 7, 60), mark(0, "NOON"), fork(0)];
    shows(&calls, &[(7, [0, 60, 0, 0, 0])]);
    for fresh in [ordinary(), single_main()] {
        shows(&[&calls[..], &[fresh]].concat(), &[]);
    }
}

/// 19 is "checked right after 1, for a bundle after 14": before 2 and 3. Only 5,000 bytes are a board.
#[test]
fn a_board_of_another_length_is_refused() {
    let empty = Call::Bundle { client: 16, revision: 64, records: Vec::new() };
    for length in [0, 1, 4_999, 5_001, 10_000] {
        let rows: [Row; 7] = [
            (on_board(length, yields(16)), 19, 0),
            (on_board(length, join(64, 64)), 19, 0),
            (on_board(length, sync(64)), 19, 0),
            (on_board(length, bundle(16, 64, 0, 1_000, 0)), 19, 0),
            (on_board(length, empty.clone()), 14, 0),
            (on_board(length, single_main()), 19, 0),
            // That fresh was refused, and the day is an ordinary one.
            (mark(0, "NOON"), 0, 1),
        ];
        day(&rows);
    }
    day(&[(on_board(5_000, yields(16)), 2, 0), (on_board(5_000, join(64, 0)), 3, 0)]);
}

/// A refusal leaves the open transaction open, and the board as it was.
#[test]
fn a_refused_yield_brings_nothing() {
    let calls = [update(0, 0, TIME, 7, 5), on_board(4_999, yields(0))];
    shows(&calls, &[]);
    shows(&[&calls[..], &[yields(0)]].concat(), &[(7, [0, 5, 0, 0, 0])]);
}
