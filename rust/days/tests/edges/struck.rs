//! 02, U2 and U3: how a bib stands after a strike, and that a penalty needs a time.

use calls::{Answer, Call, Code, State};

use super::{
    answers, fork, join, late_update, query, update, yields, EARLIEST, PENALTY, STRIKE, TIME,
};

/// Enters updates of bib 7, and compares what a query then answers.
fn stands(updates: &[(u8, u32)], state: State, value: u32) {
    let entered = updates.iter().map(|&(kind, v)| update(0, 0, kind, 7, v));
    let calls: Vec<Call> = entered.chain([query(0, 0, 7)]).collect();
    assert_eq!(answers(&calls).last(), Some(&Answer::found(state, value)), "{updates:?}");
}

/// 02, U2: "a bib is struck or, if not, timed exactly if its value isn't 0".
#[test]
fn a_bib_is_struck_timed_or_neither() {
    stands(&[], State::Neither, 0);
    stands(&[(TIME, 61000)], State::Timed, 61000);
    stands(&[(TIME, 0)], State::Neither, 0);
    stands(&[(EARLIEST, 0)], State::Neither, 0);
    stands(&[(TIME, 1), (PENALTY, 5)], State::Timed, 6);
    stands(&[(TIME, 1), (PENALTY, u32::MAX)], State::Neither, 0);
    stands(&[(STRIKE, 9)], State::Struck, 0);
    stands(&[(TIME, 61000), (STRIKE, 0)], State::Struck, 0);
}

/// "Strike makes it struck; Earliest and Penalty leave it so".
#[test]
fn strike_then_earliest() {
    stands(&[(STRIKE, 0), (EARLIEST, 60000)], State::Struck, 0);
    stands(&[(TIME, 61000), (STRIKE, 0), (EARLIEST, 60000)], State::Struck, 0);
    stands(&[(STRIKE, 0), (EARLIEST, 0)], State::Struck, 0);
}

#[test]
fn strike_then_penalty() {
    stands(&[(STRIKE, 0), (PENALTY, 5000)], State::Struck, 0);
    stands(&[(TIME, 61000), (STRIKE, 0), (PENALTY, 5000)], State::Struck, 0);
    stands(&[(STRIKE, 0), (PENALTY, 0)], State::Struck, 0);
    stands(&[(STRIKE, 0), (PENALTY, 5000), (EARLIEST, 1), (STRIKE, 2)], State::Struck, 0);
}

/// "only Time lifts it"; nothing is left of what was entered before it.
#[test]
fn strike_then_time() {
    stands(&[(STRIKE, 0), (TIME, 60000)], State::Timed, 60000);
    stands(&[(TIME, 50000), (STRIKE, 0), (TIME, 60000)], State::Timed, 60000);
    stands(&[(STRIKE, 0), (PENALTY, 5000), (TIME, 60000)], State::Timed, 60000);
    stands(&[(STRIKE, 0), (EARLIEST, 1), (TIME, 9), (EARLIEST, 8)], State::Timed, 8);
    stands(&[(STRIKE, 0), (TIME, 60000), (STRIKE, 0)], State::Struck, 0);
}

/// A Time with v = 0 lifts a strike too: the bib is then neither.
#[test]
fn strike_then_time_0() {
    stands(&[(STRIKE, 0), (TIME, 0)], State::Neither, 0);
    stands(&[(TIME, 61000), (STRIKE, 0), (TIME, 0)], State::Neither, 0);
    stands(&[(STRIKE, 0), (TIME, 0), (EARLIEST, 9)], State::Timed, 9);
    stands(&[(STRIKE, 0), (TIME, 0), (PENALTY, 5)], State::Neither, 0);
}

/// 02, U3: "Penalty 5000, then Earliest 60000, gives 60000, and after the Penalty alone the query
/// gives 0". After a wrap to 0 a further Penalty has no effect.
#[test]
fn no_penalty_without_a_time() {
    stands(&[(PENALTY, 5000)], State::Neither, 0);
    stands(&[(PENALTY, 5000), (EARLIEST, 60000)], State::Timed, 60000);
    stands(&[(PENALTY, 5000), (EARLIEST, 60000), (PENALTY, 5000)], State::Timed, 65000);
    stands(&[(TIME, 1), (PENALTY, u32::MAX), (PENALTY, 5)], State::Neither, 0);
    stands(&[(TIME, 7), (PENALTY, 0)], State::Timed, 7);
}

/// "Referees strike a bib, then a late box brings an Earliest entry": the rider is not back. A Time
/// that a late box brings lifts the strike.
#[test]
fn a_strike_and_a_late_box() {
    for (kind, state, value) in
        [(EARLIEST, State::Struck, 0), (PENALTY, State::Struck, 0), (TIME, State::Timed, 60000)]
    {
        let first = [update(0, 0, TIME, 7, 61000), yields(0)];
        let late = late_update((kind, 60000), (STRIKE, 0));
        let calls = [&first[..], &late, &[join(0, 1), query(2, 0, 7)]].concat();
        assert_eq!(answers(&calls).pop(), Some(Answer::found(state, value)), "kind {kind}");
    }
}

/// "a refused one neither", of a struck bib too.
#[test]
fn a_refused_query_of_a_struck_bib_answers_neither() {
    let refused = [
        (query(16, 0, 7), Code::UnknownClient),
        (query(0, 2, 7), Code::NeverGiven),
        (query(0, 1, 7), Code::OpenElsewhere),
        (query(1, 0, 7), Code::InUse),
        (query(0, 0, 1007), Code::BadEntry),
    ];
    let mut calls = vec![fork(0), update(0, 0, STRIKE, 7, 0)];
    calls.extend(refused.iter().map(|(call, _)| call.clone()));
    calls.extend([query(0, 0, 7), yields(0), query(0, 1, 7), join(0, 1), query(0, 1, 7)]);
    let answers = answers(&calls);
    for (answer, (call, code)) in answers[2..].iter().zip(refused) {
        assert_eq!(*answer, Answer::refused(code), "{call}");
        assert_eq!((answer.state, answer.value), (State::Neither, 0), "{call}");
    }
    let rest = [
        Answer::found(State::Struck, 0),
        Answer::accepted(0),
        Answer::refused(Code::Stale),
        Answer::accepted(0),
        Answer::refused(Code::Joined),
    ];
    assert_eq!(answers[7..], rest);
}
