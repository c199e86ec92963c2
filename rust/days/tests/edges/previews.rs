//! 02, U6, "Look before taking over": its edges, and what a wrong preview would tell.

use calls::{Answer, Call, Code, State};

use super::{
    answers, day, fork, join, late_update, list, preview, query, update, yields, EARLIEST, PENALTY,
    STRIKE, TIME,
};

/// Makes the calls of one day and then a preview, which the join and a query by tablet 15 bear out.
#[track_caller]
fn shows(name: &str, calls: &[Call], pair: (u8, u8), bib: u16, right: (State, u32, u32)) {
    let (joiner, joinee) = pair;
    let look = [preview(joiner, joinee, bib), join(joiner, joinee), query(15, joiner, bib)];
    let mut answers = answers(&[calls, &look].concat()).split_off(calls.len());
    let (state, value, gain) = right;
    assert_eq!(answers.remove(0), Answer::previewed(state, value, gain), "{name}: preview");
    assert_eq!(answers.remove(0), Answer::accepted(gain), "{name}: join");
    assert_eq!(answers.remove(0), Answer::found(state, value), "{name}: query");
}

/// 01's example: the joiner's 60000 first, then the joinee's penalty, although that was entered
/// before it.
#[test]
fn the_joiners_updates_come_first() {
    let first = [update(0, 0, TIME, 7, 61000), yields(0)];
    let calls = [&first[..], &late_update((PENALTY, 5000), (TIME, 60000))].concat();
    shows("E1", &calls, (0, 1), 7, (State::Timed, 65000, 1));
    shows("another bib", &calls, (0, 1), 8, (State::Neither, 0, 1));
}

/// What the joinee inherited is not applied again, and is no gain.
#[test]
fn inherited_updates_count_once() {
    let calls = [
        update(0, 0, TIME, 7, 1000),
        update(0, 0, PENALTY, 7, 10),
        yields(0),
        fork(0),
        update(1, 1, PENALTY, 7, 5),
        yields(1),
    ];
    shows("penalties", &calls, (0, 1), 7, (State::Timed, 1015, 1));
    shows("no update", &calls[..4], (0, 1), 7, (State::Timed, 1010, 0));
    let corrected = [&calls[..4], &[update(0, 0, TIME, 7, 3), yields(0)]].concat();
    shows("corrected", &corrected, (0, 1), 7, (State::Timed, 3, 0));
}

/// The gain is told whatever the bib's state is.
#[test]
fn the_gain_is_told_in_every_state() {
    let brought = |kind, v| {
        let updates = [update(0, 1, TIME, 9, 1), update(0, 1, kind, 7, v)];
        [&[fork(0)][..], &updates, &[yields(0)]].concat()
    };
    shows("neither", &brought(PENALTY, 5), (0, 1), 7, (State::Neither, 0, 2));
    shows("neither, not entered", &brought(TIME, 5), (0, 1), 8, (State::Neither, 0, 2));
    shows("timed", &brought(EARLIEST, 5), (0, 1), 7, (State::Timed, 5, 2));
    shows("struck", &brought(STRIKE, 5), (0, 1), 7, (State::Struck, 0, 2));
}

/// 02, U2 and U3 at the seam: a strike on the joiner stands, a penalty finds its time there.
#[test]
fn strikes_and_penalties_across_the_join() {
    let cases = [
        ("strike, Earliest", (STRIKE, 0), (EARLIEST, 9), (State::Struck, 0, 1)),
        ("strike, Time", (STRIKE, 0), (TIME, 9), (State::Timed, 9, 1)),
        ("strike, Time 0", (STRIKE, 0), (TIME, 0), (State::Neither, 0, 1)),
        ("time, Penalty", (TIME, 8), (PENALTY, 9), (State::Timed, 17, 1)),
        ("wrap", (TIME, 1), (PENALTY, u32::MAX), (State::Neither, 0, 1)),
        ("nothing, Penalty", (TIME, 0), (PENALTY, 9), (State::Neither, 0, 1)),
    ];
    for (name, since, late, right) in cases {
        shows(name, &late_update(late, since), (0, 1), 7, right);
    }
}

/// Joins inside the joinee are brought over. What the joiner never saw of revision 0 is not.
#[test]
fn joins_within_the_joinee() {
    let calls = [
        fork(0),
        fork(1),
        update(2, 2, TIME, 7, 100),
        yields(2),
        join(1, 2),
        update(3, 1, PENALTY, 7, 1),
        yields(3),
        update(0, 0, STRIKE, 7, 0),
        yields(0),
    ];
    shows("joined within", &calls, (0, 1), 7, (State::Timed, 101, 2));
    let siblings = [
        fork(0),
        update(1, 1, EARLIEST, 7, 50),
        yields(1),
        fork(0),
        update(2, 2, EARLIEST, 7, 40),
        yields(2),
        update(0, 0, TIME, 7, 1),
        yields(0),
    ];
    shows("box 2 takes over box 1", &siblings, (2, 1), 7, (State::Timed, 40, 1));
}

/// A day on which box 1 was joined, box 2 is busy and box 3, idle, has a strike.
fn busy_day() -> [Call; 9] {
    [
        fork(0),
        fork(0),
        fork(0),
        update(0, 1, TIME, 7, 5),
        yields(0),
        join(0, 1),
        update(2, 2, TIME, 7, 6),
        update(3, 3, STRIKE, 7, 6),
        yields(3),
    ]
}

/// "Refusals are those of the join, .. with state neither and gain 0", whatever the bib is.
#[test]
fn refusals_are_those_of_the_join() {
    let cases = [
        (1, 9, Code::NeverGiven),
        (9, 1, Code::NeverGiven),
        (64, 0, Code::NeverGiven),
        (0, 255, Code::NeverGiven),
        (2, 1, Code::Joined),
        (1, 2, Code::Joined),
        (1, 1, Code::Joined),
        (2, 0, Code::InUse),
        (0, 2, Code::InUse),
        (2, 2, Code::InUse),
        (0, 0, Code::NotJoinable),
        (3, 0, Code::NotJoinable),
        (3, 3, Code::NotJoinable),
    ];
    for (joiner, joinee, code) in cases {
        for bib in [7, 999, 1000, 1007, 65535] {
            let look = [preview(joiner, joinee, bib), join(joiner, joinee)];
            let answers = answers(&[&busy_day()[..], &look].concat()).split_off(9);
            let refused = Answer::refused(code);
            assert_eq!(answers, [refused.clone(), refused], "{joiner} {joinee} {bib}");
        }
    }
}

/// "then 5 for the bib"
#[test]
fn a_bad_bib_is_found_last() {
    let cases = [
        (7, Answer::previewed(State::Struck, 0, 1)),
        (999, Answer::previewed(State::Neither, 0, 1)),
        (1000, Answer::refused(Code::BadEntry)),
        (1007, Answer::refused(Code::BadEntry)),
    ];
    for (bib, answer) in cases {
        let calls = [&busy_day()[..], &[preview(0, 3, bib)]].concat();
        assert_eq!(answers(&calls).pop(), Some(answer), "bib {bib}");
    }
}

/// A preview is no event and changes nothing: any number of them, of refused pairs too, and the day
/// goes on as without them.
#[test]
fn a_preview_is_no_event() {
    day(&[
        (update(0, 0, TIME, 7, 5), 0, 0),
        (yields(0), 0, 0),
        (fork(0), 0, 1),
        (update(1, 1, PENALTY, 7, 2), 0, 1),
        (preview(0, 1, 7), 7, 0),
        (yields(1), 0, 0),
        (preview(0, 1, 7), 0, 7),
        (preview(0, 1, 7), 0, 7),
        (preview(1, 0, 7), 11, 0),
        (preview(0, 1, 1000), 5, 0),
        (query(2, 0, 7), 0, 5),
        (query(3, 1, 7), 0, 7),
        (yields(2), 0, 0),
        (yields(3), 0, 0),
        (list(0, 12), 0, 1),
        (fork(1), 0, 2),
        (join(0, 1), 0, 1),
        (preview(0, 1, 7), 4, 0),
    ]);
}

/// A full log on a box that is not the main one.
#[test]
fn a_preview_of_a_full_log() {
    let mut calls = vec![fork(0), update(0, 0, TIME, 7, 1), yields(0)];
    calls.extend((0..4_095).map(|_| update(1, 1, PENALTY, 7, 2)));
    calls.push(yields(1));
    shows("full log", &calls, (0, 1), 7, (State::Timed, 8_191, 4_095));
}
