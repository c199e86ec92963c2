//! 02, U8, "Single-main days": what is off the line, in which order that is found, what a sync does on
//! either kind of day, and how long a choice lasts.

use calls::{Call, Line, State};

use super::{
    answers, day, fill, fork, join, list, ordinary, preview, query, refused_after, single_main,
    sync, update, yields, Row, PENALTY, STRIKE, TIME,
};

/// A single-main day with boxes 1, 2 and 3.
fn three() -> [Row; 4] {
    [(single_main(), 0, 0), (fork(0), 0, 1), (fork(0), 0, 2), (fork(0), 0, 3)]
}

/// Then box 3 is handed in, and box 2 is busy.
fn busy() -> Vec<Row> {
    [&three()[..], &[(join(0, 3), 0, 0), (update(2, 2, TIME, 7, 1), 0, 0)]].concat()
}

/// "15 off the line, for a fork of another box than 0 or a join into one on such a day".
#[test]
fn boxes_come_from_box_0_and_go_back_to_it() {
    let taken = [(fork(0), 0, 4), (join(0, 2), 0, 0), (preview(0, 1, 7), 0, 0), (join(0, 4), 0, 0)];
    day(&[&three()[..], &taken].concat());
    for call in [fork(1), fork(3), join(1, 2), join(2, 1), join(1, 1), join(1, 0), preview(3, 2, 7)]
    {
        refused_after(&three(), call, 15);
    }
}

/// "checked after 4": 3 and 4 for either box come first, all else later.
#[test]
fn after_3_and_4_and_before_the_others() {
    let ask = |call, code| refused_after(&busy(), call, code);
    ask(fork(4), 3);
    ask(fork(64), 3);
    ask(fork(3), 4);
    ask(fork(2), 15);
    ask(join(4, 3), 3);
    ask(join(1, 4), 3);
    ask(join(3, 1), 4);
    ask(join(1, 3), 4);
    ask(join(2, 1), 15);
    ask(join(1, 2), 15);
    ask(join(2, 2), 15);
    ask(join(0, 2), 7);
    ask(join(0, 0), 11);
    ask(preview(1, 4, 1000), 3);
    ask(preview(1, 3, 1000), 4);
    ask(preview(1, 2, 1000), 15);
    ask(preview(2, 0, 7), 15);
    ask(preview(0, 2, 1000), 7);
    ask(preview(0, 0, 1000), 11);
    ask(preview(0, 1, 1000), 5);
}

/// With 64 boxes out, a fork off the line gives 15, not 10.
#[test]
fn before_10() {
    let mut rows = vec![(single_main(), 0, 0)];
    rows.extend((1..64).map(|number| (fork(0), 0, number)));
    rows.extend([(fork(0), 10, 0), (fork(1), 15, 0), (fork(63), 15, 0), (fork(64), 3, 0)]);
    day(&rows);
}

/// Other calls know no line.
#[test]
fn the_other_calls_on_a_single_main_day() {
    let rows = [
        (update(1, 1, TIME, 7, 50), 0, 0),
        (query(1, 1, 7), 0, 50),
        (fill(1), 0, 1),
        (yields(1), 0, 0),
        (list(1, 12), 0, 1),
        (list(2, 0), 0, 0),
    ];
    day(&[&three()[..], &rows].concat());
}

/// The choice lasts until the next fresh, which may make another.
#[test]
fn a_choice_lasts_for_its_day() {
    day(&[
        (fork(0), 0, 1),
        (fork(1), 0, 2),
        (single_main(), 0, 0),
        (fork(1), 3, 0),
        (fork(0), 0, 1),
        (fork(1), 15, 0),
        (query(0, 1, 7), 0, 0),
        (yields(0), 0, 0),
        (fork(1), 15, 0),
        (single_main(), 0, 0),
        (fork(0), 0, 1),
        (fork(1), 15, 0),
        (ordinary(), 0, 0),
        (fork(0), 0, 1),
        (fork(1), 0, 2),
        (preview(1, 2, 7), 0, 0),
        (join(1, 2), 0, 0),
    ]);
}

/// "names a box and joins it into box 0, then forks box 0; it is one step, answers the new number". The
/// new box has what box 0 had, and behind it what the old one took.
#[test]
fn a_sync_is_the_join_and_the_fork() {
    let line = |kind, client, v, number| Line { kind, client, bib: 7, v, number };
    for fresh in [ordinary(), single_main()] {
        let calls = [
            fresh,
            update(0, 0, TIME, 7, 61000),
            yields(0),
            fork(0),
            update(1, 1, PENALTY, 7, 5000),
            yields(1),
            update(0, 0, TIME, 7, 60000),
            yields(0),
            sync(1),
            fill(1),
            fill(2),
            list(2, 36),
            query(1, 2, 7),
        ];
        let given = answers(&calls).split_off(8);
        let codes: Vec<u8> = given.iter().map(|answer| answer.code.number()).collect();
        assert_eq!(codes, [0, 4, 0, 0, 0]);
        assert_eq!((given[0].value, given[2].value, given[2].total), (2, 0, 3));
        let listed = [line(TIME, 0, 61000, 0), line(TIME, 0, 60000, 2), line(PENALTY, 1, 5000, 1)];
        assert_eq!(given[3].lines, listed);
        assert_eq!((given[4].state, given[4].value), (State::Timed, 65000));
    }
}

/// "has join's refusals for joiner 0": 3, 4, 7 for either box, 11; never 15.
#[test]
fn the_refusals_of_a_sync() {
    let ask = |call: Call, code| refused_after(&busy(), call, code);
    ask(sync(4), 3);
    ask(sync(64), 3);
    ask(sync(255), 3);
    ask(sync(3), 4);
    ask(sync(2), 7);
    ask(sync(0), 11);
    let main_busy = [&busy()[..], &[(query(1, 0, 7), 0, 0)]].concat();
    for (revision, code) in [(4, 3), (3, 4), (1, 7), (0, 7)] {
        refused_after(&main_busy, sync(revision), code);
    }
    // On an ordinary day, box 0 has not seen the fork of a box that another sent.
    refused_after(&[(fork(0), 0, 1), (fork(1), 0, 2)], sync(2), 11);
    day(&[(fork(0), 0, 1), (fork(1), 0, 2), (sync(1), 0, 3), (sync(2), 0, 4), (sync(3), 0, 5)]);
}

/// A refused one changes nothing: the box is out, and no number is used.
#[test]
fn a_refused_sync_changes_nothing() {
    let rows = [
        (sync(2), 7, 0),
        (fill(2), 0, 1),
        (fill(0), 0, 0),
        (sync(0), 11, 0),
        (sync(3), 4, 0),
        (yields(2), 0, 0),
        (sync(2), 0, 4),
        (sync(2), 4, 0),
        (fill(0), 0, 1),
        (fork(0), 0, 5),
    ];
    day(&[&busy()[..], &rows].concat());
}

/// The fork takes a never-used number while there is one, whatever was handed in.
#[test]
fn never_used_numbers_come_first() {
    let mut rows = vec![(single_main(), 0, 0), (fork(0), 0, 1)];
    rows.extend((2..64).map(|number| (sync(number - 1), 0, u32::from(number))));
    // Two are out; the numbers handed in are 1 to 62.
    rows.extend([(sync(63), 0, 1), (fork(0), 0, 2), (sync(2), 0, 3), (sync(1), 0, 4)]);
    day(&rows);
}

/// The joinee is handed in before the fork takes a number: with 64 out it answers the number that it
/// was given, and never 10.
#[test]
fn with_64_out_it_answers_the_number_it_was_given() {
    for fresh in [ordinary(), single_main()] {
        let mut rows = vec![(fresh, 0, 0)];
        rows.extend((1..64).map(|number| (fork(0), 0, number)));
        rows.extend([(fork(0), 10, 0), (update(5, 40, STRIKE, 7, 0), 0, 0), (yields(5), 0, 0)]);
        rows.extend([(sync(40), 0, 40), (fill(40), 0, 0), (list(40, 12), 0, 1), (fork(0), 10, 0)]);
        rows.extend([(sync(40), 0, 40), (sync(63), 0, 63), (list(1, 0), 0, 0), (fork(0), 10, 0)]);
        // Another number was handed in longer ago.
        rows.extend([(join(0, 9), 0, 0), (sync(5), 0, 9), (sync(9), 0, 5), (fork(0), 0, 9)]);
        day(&rows);
    }
}

/// 01: a tablet may start where a path leads from its last event. On the box of the sync it may go on.
#[test]
fn a_tablet_goes_on_with_the_new_box() {
    let rows = [
        (update(1, 1, TIME, 7, 50), 0, 0),
        (yields(1), 0, 0),
        (query(2, 2, 7), 0, 0),
        (yields(2), 0, 0),
        (sync(1), 0, 4),
        (query(1, 4, 7), 0, 50),
        (yields(1), 0, 0),
        (query(1, 3, 7), 8, 0),
        (query(2, 4, 7), 8, 0),
        (sync(2), 0, 5),
        (query(2, 5, 7), 0, 50),
    ];
    day(&[&three()[..], &rows].concat());
}

/// "anything yielded on a box before its taken sync is visible to every box that starts with that sync
/// or after it"; to one that was out before, only once it is synced.
#[test]
fn what_was_synced_is_visible_to_boxes_that_start_later() {
    let rows = [
        (update(1, 1, TIME, 7, 50), 0, 0),
        (update(1, 1, TIME, 8, 60), 0, 1),
        (yields(1), 0, 0),
        (sync(1), 0, 4),
        (fork(0), 0, 5),
        (sync(3), 0, 6),
        (list(4, 24), 0, 2),
        (list(5, 24), 0, 2),
        (list(6, 24), 0, 2),
        (list(2, 24), 0, 0),
        (sync(2), 0, 7),
        (list(7, 24), 0, 2),
    ];
    day(&[&three()[..], &rows].concat());
}
