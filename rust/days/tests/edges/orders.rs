//! 02, U13, "Line-ups from other makers": its edges.

use calls::order_file;

use super::{
    day, drop_mark, fork, join, mark, update, verify, verify_file, yields, Row, PENALTY, TIME,
};

/// Box 0 lists updates 0 and 2, box 1 lists 0 and 1; clients 0 and 1 have transactions open there.
fn two_boxes() -> Vec<Row> {
    vec![
        (update(0, 0, TIME, 7, 61000), 0, 0),
        (yields(0), 0, 0),
        (fork(0), 0, 1),
        (update(1, 1, PENALTY, 7, 5000), 0, 1),
        (update(0, 0, TIME, 7, 60000), 0, 2),
    ]
}

#[track_caller]
fn said_after(rows: &[Row], orders: &[(&[u16], u32)]) {
    let verified = orders.iter().map(|&(numbers, value)| (verify(numbers), 0, value));
    day(&[rows, &verified.collect::<Vec<Row>>()].concat());
}

#[test]
fn without_updates_the_empty_list_fits() {
    said_after(&[], &[(&[], 1), (&[0], 0)]);
    said_after(&[(fork(0), 0, 1)], &[(&[], 1)]);
    said_after(&two_boxes()[..1], &[(&[], 0), (&[0], 1)]);
}

/// "The order in which it was found is of no interest": updates that no box lists together stand either
/// way. Busy boxes count, with what their open transactions entered.
#[test]
fn listed_updates_stand_in_listed_order() {
    let orders: [(&[u16], u32); 6] = [
        (&[0, 1, 2], 1),
        (&[0, 2, 1], 1),
        (&[1, 0, 2], 0),
        (&[1, 2, 0], 0),
        (&[2, 0, 1], 0),
        (&[2, 1, 0], 0),
    ];
    said_after(&two_boxes(), &orders);
}

/// "every update taken today exactly once, no other number"
#[test]
fn each_update_once_and_no_other() {
    let orders: [(&[u16], u32); 6] = [
        (&[0, 1, 1], 0),
        (&[0, 0, 1, 2], 0),
        (&[0, 1], 0),
        (&[0, 1, 2, 3], 0),
        (&[0, 1, 3], 0),
        (&[0, 1, 65535], 0),
    ];
    said_after(&two_boxes(), &orders);
}

/// After the join box 0 lists 0, 2, 1, and box 1 is out no more.
#[test]
fn a_join_settles_the_order() {
    let joined = [(yields(0), 0, 0), (yields(1), 0, 0), (join(0, 1), 0, 1)];
    let rows = [&two_boxes()[..], &joined].concat();
    said_after(&rows, &[(&[0, 1, 2], 0), (&[0, 2, 1], 1), (&[2, 0, 1], 0)]);
}

/// A marked box is out.
#[test]
fn marks_are_boxes_out() {
    let rows = [
        (update(0, 0, TIME, 7, 1), 0, 0),
        (update(0, 0, TIME, 7, 2), 0, 1),
        (yields(0), 0, 0),
        (mark(0, "JURY"), 0, 1),
    ];
    said_after(&rows, &[(&[0, 1], 1), (&[1, 0], 0)]);
    said_after(&[&rows[..], &[(drop_mark("JURY"), 0, 0)]].concat(), &[(&[0, 1], 1), (&[1, 0], 0)]);
}

/// 21: "if the length or the offset is under 8, or offset + 2 times the count isn't the length"
#[test]
fn bad_lists() {
    let good = order_file(&[0]);
    let headed = |count: u32, offset: u32, rest: &[u8]| {
        verify_file([&count.to_le_bytes()[..], &offset.to_le_bytes(), rest].concat())
    };
    day(&[
        (update(0, 0, TIME, 7, 1), 0, 0),
        (verify_file(vec![]), 21, 0),
        (verify_file(good[..7].to_vec()), 21, 0),
        (verify_file(good[..8].to_vec()), 21, 0),
        (verify_file(good[..9].to_vec()), 21, 0),
        (verify_file([&good[..], &[0]].concat()), 21, 0),
        (headed(0, 7, &[]), 21, 0),
        (headed(0, 0, &[]), 21, 0),
        (headed(0, 9, &[]), 21, 0),
        (headed(0, u32::MAX, &[]), 21, 0),
        (headed(u32::MAX, 8, &[0, 0]), 21, 0),
        // 2^31 + 1 times 2 is 2 modulo 2^32.
        (headed(1 << 31 | 1, 8, &[0, 0]), 21, 0),
        (headed(0, 8, &[]), 0, 0),
        (headed(1, 8, &[0, 0]), 0, 1),
        (headed(1, 8, &[1, 0]), 0, 0),
        // The low byte first.
        (headed(1, 8, &[0, 1]), 0, 0),
        // Bytes between header and numbers aren't looked at.
        (headed(1, 11, &[9, 9, 9, 0, 0]), 0, 1),
    ]);
}
