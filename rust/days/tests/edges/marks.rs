//! 02, U9, "Marked states": what a marked box can be asked and what it refuses, its name and its number,
//! and that coming back rewinds nothing.

use calls::{Call, Line};

use super::{
    answers, day, drop_mark, fill, fork, join, list, mark, ordinary, preview, query, refused_after,
    single_main, sync, update, yields, Row, PENALTY, STRIKE, TIME,
};

/// Bib 7 has a time on box 0, which is marked: box 1. Then it has a penalty.
fn protest() -> [Row; 5] {
    [
        (update(0, 0, TIME, 7, 60000), 0, 0),
        (yields(0), 0, 0),
        (mark(0, "JURY"), 0, 1),
        (update(0, 0, PENALTY, 7, 5000), 0, 1),
        (yields(0), 0, 0),
    ]
}

/// Boxes 1, 2 and 3, of which 3 is handed in, and a mark, 4. Box 2 is busy with client 2, and client 3
/// has caught up with box 0 alone.
fn busy() -> [Row; 8] {
    [
        (fork(0), 0, 1),
        (fork(0), 0, 2),
        (fork(0), 0, 3),
        (join(0, 3), 0, 0),
        (mark(0, "JURY"), 0, 4),
        (update(2, 2, TIME, 7, 1), 0, 0),
        (query(3, 0, 7), 0, 0),
        (yields(3), 0, 0),
    ]
}

#[track_caller]
fn after_protest(rows: &[Row]) {
    day(&[&protest()[..], rows].concat());
}

/// One good record.
fn bundle(client: u8, revision: u8, bib: u16) -> Call {
    let line = Line { kind: TIME, client: 0, bib, v: 1, number: 0 };
    Call::Bundle { client, revision, records: line.to_bytes().to_vec() }
}

/// "Coming back means forking it, so nothing is rewound": box 0 goes on, and the box that came back has
/// what was there when it was marked.
#[test]
fn coming_back_means_forking_it() {
    after_protest(&[
        (list(1, 100), 0, 1),
        (fork(1), 0, 2),
        (list(2, 100), 0, 1),
        (query(1, 2, 7), 0, 60000),
        (update(1, 2, STRIKE, 7, 0), 0, 2),
        (yields(1), 0, 0),
        (query(0, 0, 7), 0, 65000),
        (yields(0), 0, 0),
        (list(0, 100), 0, 2),
        (list(1, 100), 0, 1),
        (list(2, 100), 0, 2),
        (fork(1), 0, 3),
        (query(4, 3, 7), 0, 60000),
    ]);
    let calls: Vec<Call> = protest().map(|row| row.0).into();
    let given = answers(&[&calls[..], &[fork(1), list(0, 100), list(2, 100)]].concat());
    let line = |kind, v, number| Line { kind, client: 0, bib: 7, v, number };
    assert_eq!(given[6].lines, [line(TIME, 60000, 0), line(PENALTY, 5000, 1)]);
    assert_eq!(given[7].lines, [line(TIME, 60000, 0)]);
}

/// "it can then be listed and forked but not written, queried or joined, in either role"
#[test]
fn what_a_marked_box_refuses() {
    let rows = [&protest()[..], &[(fork(0), 0, 2)]].concat();
    let time = update(0, 1, TIME, 7, 1);
    for call in [time, query(0, 1, 7), query(5, 1, 7), bundle(0, 1, 7), sync(1)] {
        refused_after(&rows, call, 16);
    }
    for (a, b) in [(0, 1), (1, 0), (2, 1), (1, 2), (1, 1)] {
        refused_after(&rows, join(a, b), 16);
        refused_after(&rows, preview(a, b, 7), 16);
    }
    let taken = [(list(1, 12), 0, 1), (fill(1), 0, 0), (fork(1), 0, 3), (mark(1, "NEXT"), 0, 4)];
    day(&[&rows[..], &taken].concat());
    refused_after(&rows, list(1, 11), 12);
}

/// "16 marked box, checked right after 15": after 2, 3, 4 and 14, before 5, 6, 7, 8 and 11.
#[test]
fn the_order_of_16() {
    let ask = |call, code| refused_after(&busy(), call, code);
    ask(update(16, 4, 0, 1000, 0), 2);
    ask(update(2, 64, 0, 1000, 0), 3);
    ask(update(2, 3, 0, 1000, 0), 4);
    ask(update(2, 4, 0, 1000, 0), 16);
    ask(update(3, 4, TIME, 7, 0), 16);
    ask(query(16, 4, 1000), 2);
    ask(query(2, 4, 1000), 16);
    ask(query(3, 4, 7), 16);
    ask(Call::Bundle { client: 16, revision: 4, records: vec![] }, 14);
    ask(bundle(16, 4, 1000), 2);
    ask(bundle(2, 4, 1000), 16);
    for (joiner, joinee, code) in [
        (4, 64, 3),
        (64, 4, 3),
        (4, 3, 4),
        (3, 4, 4),
        (4, 2, 16),
        (2, 4, 16),
        (4, 0, 16),
        (0, 2, 7),
    ] {
        ask(join(joiner, joinee), code);
        ask(preview(joiner, joinee, 1000), code);
    }
    ask(sync(4), 16);
    let main_busy = [&busy()[..], &[(query(3, 0, 7), 0, 0)]].concat();
    refused_after(&main_busy, sync(4), 16);
    refused_after(&main_busy, join(0, 4), 16);
}

/// A marked box with a full log gives 16, not 9.
#[test]
fn before_9() {
    let line = Line { kind: TIME, client: 0, bib: 7, v: 1, number: 0 };
    let records = line.to_bytes().repeat(64);
    let bundle = |revision| Call::Bundle { client: 0, revision, records: records.clone() };
    let mut rows = vec![(mark(0, "JURY"), 0, 1)];
    rows.extend((0..64).map(|n| (bundle(0), 0, 64 * n)));
    rows.extend([(update(0, 0, TIME, 7, 1), 9, 0), (update(1, 1, TIME, 7, 1), 16, 0)]);
    rows.extend([(bundle(1), 16, 0), (list(1, 0), 0, 0), (fork(1), 0, 2)]);
    rows.extend([(update(1, 2, TIME, 7, 1), 9, 0)]);
    day(&rows);
}

/// "Mark has fork's refusals and value", and then 17.
#[test]
fn the_order_of_a_marks_checks() {
    let ask = |call, code| refused_after(&busy(), call, code);
    ask(mark(5, "JURY"), 3);
    ask(mark(64, ""), 3);
    ask(mark(3, "JURY"), 4);
    ask(mark(2, "JURY"), 7);
    ask(mark(2, "jury"), 7);
    ask(mark(0, "JURY"), 17);
    ask(mark(4, "JURY"), 17);
    let mut rows: Vec<Row> = (1..64).map(|number| (fork(0), 0, number)).collect();
    rows.extend([(mark(0, "four"), 10, 0), (mark(5, "FOUR"), 10, 0), (query(0, 5, 7), 0, 0)]);
    rows.extend([(mark(5, "FOUR"), 7, 0), (join(0, 9), 0, 0), (mark(0, "four"), 17, 0)]);
    rows.extend([(mark(0, "FOUR"), 0, 9), (mark(0, "FIVE"), 10, 0), (fork(9), 10, 0)]);
    day(&rows);
}

/// "a name of four letters A to Z"
#[test]
fn good_and_bad_names() {
    for good in ["AAAA", "ZZZZ", "AZAZ", "JURY"] {
        day(&[(mark(0, good), 0, 1), (drop_mark(good), 0, 0)]);
    }
    let bad: [&[u8]; 14] = [
        b"",
        b"J",
        b"JUR",
        b"JURYS",
        b"JURYJURY",
        b"jury",
        b"JURy",
        b"JU Y",
        b"@URY",
        b"JUR[",
        b"JUR\0",
        b"\xffURY",
        "J\u{dc}RY".as_bytes(),
        b"J1RY",
    ];
    for name in bad {
        refused_after(&[], mark(0, name), 17);
        refused_after(&[(mark(0, "JURY"), 0, 1)], drop_mark(name), 18);
    }
}

/// "17 bad name, for a mark: not four letters, or in use". A dropped name is free, and so is one that a
/// refused mark had.
#[test]
fn a_name_in_use() {
    after_protest(&[
        (mark(0, "JURY"), 17, 0),
        (mark(1, "JURY"), 17, 0),
        (mark(0, "JURX"), 0, 2),
        (mark(0, "KURY"), 0, 3),
        (drop_mark("JURY"), 0, 0),
        (mark(0, "JURY"), 0, 4),
        (mark(0, "JURY"), 17, 0),
        (list(4, 24), 0, 2),
        (query(0, 0, 7), 0, 65000),
        (mark(0, "LATE"), 7, 0),
        (yields(0), 0, 0),
        (drop_mark("LATE"), 18, 0),
        (mark(0, "LATE"), 0, 5),
    ]);
}

/// "18 no such mark, for a drop": of a name that no mark bears, or no mark any more.
#[test]
fn drops_of_no_mark() {
    refused_after(&[], drop_mark("JURY"), 18);
    after_protest(&[
        (drop_mark("JURX"), 18, 0),
        (drop_mark("JURY"), 0, 0),
        (drop_mark("JURY"), 18, 0),
        (ordinary(), 0, 0),
        (mark(0, "JURY"), 0, 1),
        (ordinary(), 0, 0),
        (drop_mark("JURY"), 18, 0),
        (mark(0, "JURY"), 0, 1),
    ]);
}

/// "frees its number as a hand-in does, so that it gives 4 until used again"
#[test]
fn a_dropped_number_gives_4() {
    let rows = [&protest()[..], &[(drop_mark("JURY"), 0, 0)]].concat();
    let time = update(0, 1, TIME, 7, 1);
    for call in [time, query(0, 1, 7), fork(1), list(1, 0), fill(1), sync(1), mark(1, "NEXT")] {
        refused_after(&rows, call, 4);
    }
    for (a, b) in [(0, 1), (1, 0), (1, 1)] {
        refused_after(&rows, join(a, b), 4);
        refused_after(&rows, preview(a, b, 7), 4);
    }
}

/// Joins, syncs and drops stand in one order. "At most 64 boxes out, marked ones included."
#[test]
fn one_order_of_joins_syncs_and_drops() {
    let mut rows: Vec<Row> = (1..62).map(|number| (fork(0), 0, number)).collect();
    rows.extend([(mark(0, "AAAA"), 0, 62), (mark(62, "BBBB"), 0, 63), (fork(0), 10, 0)]);
    rows.extend([(mark(0, "CCCC"), 10, 0), (join(0, 40), 0, 0), (drop_mark("BBBB"), 0, 0)]);
    rows.extend([(join(0, 7), 0, 0), (drop_mark("AAAA"), 0, 0), (fork(0), 0, 40)]);
    // The sync hands 5 in behind 62, and takes 63.
    rows.extend([(sync(5), 0, 63), (mark(0, "AAAA"), 0, 7), (fork(0), 0, 62), (fork(7), 0, 5)]);
    rows.extend([(fork(0), 10, 0), (drop_mark("AAAA"), 0, 0), (mark(5, "AAAA"), 0, 7)]);
    rows.extend([(fork(0), 10, 0), (list(7, 0), 0, 0), (fork(7), 10, 0)]);
    day(&rows);
}

/// While never-used numbers are left, a dropped one waits.
#[test]
fn never_used_numbers_come_first() {
    let mut rows = vec![(mark(0, "AAAA"), 0, 1), (drop_mark("AAAA"), 0, 0), (fork(0), 0, 2)];
    rows.extend((3..64).map(|number| (fork(0), 0, number)));
    rows.extend([(mark(0, "AAAA"), 0, 1), (fork(0), 10, 0)]);
    day(&rows);
}

/// "Single-main days have no marks: mark gives 15", after 3 and 4. So a drop gives 18.
#[test]
fn single_main_days_have_no_marks() {
    let rows = [
        (single_main(), 0, 0),
        (fork(0), 0, 1),
        (fork(0), 0, 2),
        (join(0, 2), 0, 0),
        (query(1, 1, 7), 0, 0),
        (query(0, 0, 7), 0, 0),
    ];
    let ask = |call, code| refused_after(&rows, call, code);
    ask(mark(3, "JURY"), 3);
    ask(mark(2, "JURY"), 4);
    ask(mark(0, "JURY"), 15);
    ask(mark(1, "JURY"), 15);
    ask(mark(0, "jury"), 15);
    ask(drop_mark("JURY"), 18);
    ask(drop_mark(""), 18);
    let next = [(mark(0, "JURY"), 15, 0), (ordinary(), 0, 0), (mark(0, "JURY"), 0, 1)];
    day(&[&rows[..], &next].concat());
}

/// Nobody joins into a marked box; so box 0 never sees the fork of one that came back, dropped or not.
/// Boxes that come later from the same mark do.
#[test]
fn what_comes_of_a_mark_stays_apart() {
    after_protest(&[
        (fork(1), 0, 2),
        (fork(1), 0, 3),
        (fork(2), 0, 4),
        (fork(0), 0, 5),
        (update(1, 2, PENALTY, 7, 1), 0, 2),
        (yields(1), 0, 0),
        (join(0, 2), 11, 0),
        (sync(3), 11, 0),
        (preview(0, 4, 7), 11, 0),
        (join(5, 2), 11, 0),
        // E3: the later one has seen the fork of the earlier.
        (join(2, 3), 11, 0),
        (preview(3, 2, 7), 0, 60001),
        (join(3, 2), 0, 1),
        (join(3, 4), 0, 0),
        (drop_mark("JURY"), 0, 0),
        (join(0, 3), 11, 0),
        (query(1, 3, 7), 0, 60001),
    ]);
}

/// A mark of a mark, and of a box that came back; what they were marked from may be dropped.
#[test]
fn marks_of_marks() {
    after_protest(&[
        (mark(1, "SAME"), 0, 2),
        (drop_mark("JURY"), 0, 0),
        (list(2, 12), 0, 1),
        (fork(2), 0, 3),
        (update(0, 3, STRIKE, 7, 0), 8, 0),
        (update(1, 3, STRIKE, 7, 0), 0, 2),
        (mark(3, "LATE"), 7, 0),
        (yields(1), 0, 0),
        (mark(3, "LATE"), 0, 4),
        (list(4, 24), 0, 2),
        (list(2, 24), 0, 1),
    ]);
}

/// A box is handed in, and its mark stays: what it shows is in it.
#[test]
fn a_mark_outlives_its_box() {
    day(&[
        (fork(0), 0, 1),
        (update(0, 1, TIME, 7, 5), 0, 0),
        (yields(0), 0, 0),
        (mark(1, "JURY"), 0, 2),
        (update(0, 1, TIME, 8, 5), 0, 1),
        (yields(0), 0, 0),
        (join(0, 1), 0, 2),
        (list(2, 12), 0, 1),
        (fill(2), 0, 0),
        (fork(2), 0, 3),
        (query(1, 3, 7), 0, 5),
        (query(1, 3, 8), 0, 0),
        (list(0, 24), 0, 2),
    ]);
}

/// 01: a tablet may start where a path leads from its last event. Before the mark it does, after it not.
#[test]
fn who_may_start_on_a_box_that_came_back() {
    after_protest(&[
        (query(1, 0, 7), 0, 65000),
        (yields(1), 0, 0),
        (fork(1), 0, 2),
        (query(0, 2, 7), 8, 0),
        (query(1, 2, 7), 8, 0),
        (query(2, 2, 7), 0, 60000),
        (yields(2), 0, 0),
        (query(2, 0, 7), 8, 0),
        (fork(2), 0, 3),
        (query(2, 3, 7), 0, 60000),
    ]);
}
