//! The readings of docs/DECISIONS.md: which code comes first, and what a query and a refusal leave.

use super::{busy_revisions, day, fork, join, list, query, refused_after, update, yields, TIME};

/// Readings 1 and 2: the lowest number that applies to either box.
#[test]
fn a_join_takes_the_lowest_code_of_either_revision() {
    let start =
        [(fork(0), 0, 1), (fork(0), 0, 2), (join(0, 1), 0, 0), (update(0, 2, TIME, 1, 1), 0, 0)];
    for (joiner, joinee, code) in [(1, 9, 3), (9, 1, 3), (2, 1, 4), (1, 2, 4), (2, 0, 7), (0, 2, 7)]
    {
        refused_after(&start, join(joiner, joinee), code);
    }
}

/// Each check of an update and of a query ends the call before the ones after it: mending the
/// lowest fault each time brings out the next code.
#[test]
fn codes_come_in_ascending_order() {
    let ask = |call, code| refused_after(&busy_revisions(), call, code);
    ask(update(16, 64, 0, 1000, 0), 2);
    ask(update(2, 64, 0, 1000, 0), 3);
    ask(update(2, 3, 0, 1000, 0), 4);
    ask(update(2, 1, 0, 999, 0), 5);
    ask(update(2, 1, 5, 999, 0), 5);
    ask(update(2, 1, TIME, 1000, 0), 5);
    ask(update(2, 1, TIME, 999, 0), 6);
    ask(update(3, 1, TIME, 999, 0), 7);
    ask(update(4, 1, TIME, 999, 0), 7);
    ask(query(16, 64, 1000), 2);
    ask(query(2, 4, 1000), 3);
    ask(query(2, 3, 1000), 4);
    ask(query(2, 1, 1000), 5);
    ask(query(2, 1, 999), 6);
    ask(query(3, 1, 999), 7);
    ask(query(4, 1, 999), 7);
}

/// Readings 2 and 3: a query ties its client as an update does, and a stale client gets 8.
#[test]
fn a_query_is_an_event() {
    day(&[
        (fork(0), 0, 1),
        (query(0, 0, 7), 0, 0),
        (update(1, 0, TIME, 7, 1), 7, 0),
        (update(0, 1, TIME, 7, 1), 6, 0),
        (fork(0), 7, 0),
        (list(0, 0), 7, 0),
        (yields(0), 0, 0),
        (query(0, 1, 7), 8, 0),
        (update(0, 1, TIME, 7, 1), 8, 0),
        (query(0, 0, 7), 0, 0),
        (yields(0), 0, 0),
        (fork(0), 0, 2),
        (query(0, 2, 7), 0, 0),
    ]);
}

/// A refused call leaves nothing behind: no last event, no open transaction, no number.
#[test]
fn a_refused_call_changes_nothing() {
    day(&[
        (fork(0), 0, 1),
        (update(0, 0, 9, 7, 1), 5, 0),
        (query(0, 0, 1000), 5, 0),
        (update(0, 1, TIME, 7, 1), 0, 0),
        (update(1, 1, TIME, 7, 1), 7, 0),
        (update(1, 0, TIME, 7, 1), 0, 1),
    ]);
}
