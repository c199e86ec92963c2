//! 02, U1: the fills of small days.

use calls::Call;

use super::{answers, day, fill, fork, join, query, update, yields, PENALTY, TIME};

/// Makes the calls of one day, then fills: of each revision the code, its own updates and the total.
#[track_caller]
fn fills(name: &str, calls: &[Call], expected: &[(u8, u8, u32, u32)]) {
    let fills = expected.iter().map(|&(revision, ..)| fill(revision));
    let all: Vec<Call> = calls.iter().cloned().chain(fills).collect();
    let answers = answers(&all);
    for (answer, &(revision, code, own, total)) in answers[calls.len()..].iter().zip(expected) {
        let given = (answer.code.number(), answer.value, answer.total);
        assert_eq!(given, (code, own, total), "{name}: box {revision}");
    }
}

/// 02, U1. What was inherited does not count, what was joined does, through others too; and a
/// revision is told while its transaction is open.
#[test]
fn a_fill_tells_own_updates_and_the_total() {
    let time = |client, revision| update(client, revision, TIME, 7, 1);
    let mut calls = Vec::new();
    fills("fresh", &calls, &[(0, 0, 0, 0), (1, 3, 0, 0), (63, 3, 0, 0), (64, 3, 0, 0)]);
    calls.extend([time(0, 0), time(0, 0)]);
    fills("busy", &calls, &[(0, 0, 2, 2), (1, 3, 0, 0)]);
    calls.extend([yields(0), fork(0), fork(1)]);
    fills("inherited", &calls, &[(0, 0, 2, 2), (1, 0, 0, 2), (2, 0, 0, 2), (3, 3, 0, 0)]);
    calls.extend([time(1, 1), yields(1), time(2, 2), time(2, 2), time(2, 2), query(2, 2, 7)]);
    fills("each its own", &calls, &[(0, 0, 2, 6), (1, 0, 1, 6), (2, 0, 3, 6)]);
    calls.extend([yields(2), join(1, 2)]);
    fills("joined", &calls, &[(0, 0, 2, 6), (1, 0, 4, 6), (2, 4, 0, 0)]);
    calls.push(join(0, 1));
    fills("through another", &calls, &[(0, 0, 6, 6), (1, 4, 0, 0), (2, 4, 0, 0), (255, 3, 0, 0)]);
}

/// The numbers at their largest: a full log on one revision that is not the main one, then joined.
#[test]
fn fills_of_a_full_log() {
    let mut calls = vec![fork(0)];
    calls.extend((0..4_097).map(|v| update(0, 1, PENALTY, 7, v)));
    fills("full log", &calls, &[(0, 0, 0, 4_096), (1, 0, 4_096, 4_096)]);
    calls.extend([yields(0), join(0, 1)]);
    fills("full log, joined", &calls, &[(0, 0, 4_096, 4_096), (1, 4, 0, 0)]);
}

/// A fill is no event: forks, joins and other clients go on right after it.
#[test]
fn a_fill_is_no_event() {
    day(&[
        (fill(0), 0, 0),
        (fork(0), 0, 1),
        (fill(1), 0, 0),
        (update(0, 0, TIME, 7, 1), 0, 0),
        (fill(0), 0, 1),
        (yields(0), 0, 0),
        (fill(0), 0, 1),
        (query(1, 0, 7), 0, 1),
        (yields(1), 0, 0),
        (fill(0), 0, 1),
        (join(0, 1), 0, 0),
        (fill(1), 4, 0),
    ]);
}
