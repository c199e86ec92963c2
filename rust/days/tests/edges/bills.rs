//! 02, U14, "The rental bill": its edges.

use calls::Call;

use super::{day, drop_mark, fork, join, mark, ordinary, sync, update, Row, TIME};

fn bill(member: bool) -> Call {
    Call::Bill { member }
}

/// So many forks of box 0, which give the numbers from 1 on.
fn forks(count: u8) -> Vec<Row> {
    (1..=count).map(|number| (fork(0), 0, u32::from(number))).collect()
}

/// So many updates on box 0.
fn updates(count: u32) -> Vec<Row> {
    (0..count).map(|v| (update(0, 0, TIME, 7, v), 0, v)).collect()
}

/// "Eight boxes and 1,201 updates cost a member 2,878 cents; three boxes and 250 updates cost 2,000."
#[test]
fn the_examples() {
    let [eight, three] = [[(bill(true), 0, 2_878)], [(bill(false), 0, 2_000)]];
    day(&[&forks(7)[..], &updates(1_201), &eight].concat());
    day(&[&forks(2)[..], &updates(250), &three].concat());
}

/// 350 a box, 45 for each hundred that was started, and 2,000 at least, after the discount.
#[test]
fn hundreds_and_the_least() {
    let first = [(bill(false), 0, 2_000), (bill(true), 0, 2_000)];
    let hundred = [(bill(false), 0, 2_145)];
    let next =
        [(update(0, 0, TIME, 7, 1), 0, 100), (bill(false), 0, 2_190), (bill(true), 0, 2_000)];
    let boxes = [(bill(false), 0, 2_100)];
    day(&[&first[..], &forks(5), &boxes, &updates(100), &hundred, &next].concat());
}

/// A mark and a refused fork start no box, a fork of the mark and a sync do; a box handed in was started,
/// and a fresh begins anew.
#[test]
fn what_starts_a_box() {
    let rows = [
        (bill(false), 0, 2_450),
        (bill(true), 0, 2_083),
        (mark(0, "PAST"), 0, 7),
        (bill(false), 0, 2_450),
        (fork(9), 3, 0),
        (bill(false), 0, 2_450),
        (fork(7), 0, 8),
        (bill(false), 0, 2_800),
        (sync(1), 0, 9),
        (bill(false), 0, 3_150),
        (sync(1), 4, 0),
        (join(0, 2), 0, 0),
        (drop_mark("PAST"), 0, 0),
        (bill(false), 0, 3_150),
        (bill(true), 0, 2_678),
        (ordinary(), 0, 0),
        (bill(false), 0, 2_000),
    ];
    day(&[&forks(6)[..], &rows].concat());
}
