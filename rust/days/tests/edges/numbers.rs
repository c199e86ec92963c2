//! 02, U7, "Sixty-four out, not sixty-four ever": which number a fork takes, when it is refused, and
//! what a number means that was borne before.

use calls::{Call, Code, Line, State};

use super::{
    answers, day, fill, fork, join, list, preview, query, refused_after, update, yields, Row,
    EARLIEST, PENALTY, STRIKE, TIME,
};

/// All 63 forks of the main revision: 64 are out.
fn sixty_four() -> Vec<Row> {
    (1..64).map(|number| (fork(0), 0, number)).collect()
}

/// A day that begins with 64 revisions out.
#[track_caller]
fn after_64(rows: &[Row]) {
    day(&[&sixty_four()[..], rows].concat());
}

/// "a never-used number while there is one", whatever lies handed in.
#[test]
fn never_used_numbers_come_first() {
    let mut rows = vec![(fork(0), 0, 1), (join(0, 1), 0, 0), (fork(0), 0, 2), (fork(2), 0, 3)];
    rows.extend([(join(2, 3), 0, 0), (join(0, 2), 0, 0)]);
    rows.extend((4..64).map(|number| (fork(0), 0, number)));
    rows.extend([(fork(0), 0, 1), (fork(1), 0, 3), (fork(63), 0, 2), (fork(0), 10, 0)]);
    day(&rows);
}

/// "else the number handed in longest ago", not the smallest, nor the one handed in last.
#[test]
fn then_the_number_handed_in_longest_ago() {
    after_64(&[
        (join(0, 40), 0, 0),
        (join(0, 7), 0, 0),
        (join(0, 22), 0, 0),
        (fork(0), 0, 40),
        (join(0, 1), 0, 0),
        (fork(40), 0, 7),
        (fork(7), 0, 22),
        (fork(0), 0, 1),
        (fork(0), 10, 0),
    ]);
}

/// The order is that of the latest hand-in of each number.
#[test]
fn the_latest_hand_in_of_a_number_counts() {
    after_64(&[
        (join(0, 5), 0, 0),
        (join(0, 9), 0, 0),
        (fork(0), 0, 5),
        (join(0, 5), 0, 0),
        (join(0, 3), 0, 0),
        (fork(0), 0, 9),
        (fork(0), 0, 5),
        (fork(0), 0, 3),
        (fork(0), 10, 0),
    ]);
}

/// "Code 10 is given exactly if 64 boxes are out": at the 64th fork, and again whenever 64 are out. A
/// refused fork takes no number.
#[test]
fn ten_while_64_are_out() {
    after_64(&[
        (fork(0), 10, 0),
        (fork(31), 10, 0),
        (join(0, 31), 0, 0),
        (fork(31), 4, 0),
        (query(0, 0, 7), 0, 0),
        (fork(0), 7, 0),
        (yields(0), 0, 0),
        (fork(64), 3, 0),
        (fork(0), 0, 31),
        (fork(0), 10, 0),
        (query(0, 0, 7), 0, 0),
        (fork(0), 7, 0),
        (yields(0), 0, 0),
        (join(0, 2), 0, 0),
        (join(0, 1), 0, 0),
        (fork(31), 0, 2),
        (fork(2), 0, 1),
        (fork(1), 10, 0),
    ]);
}

/// 200 forks with a few out, and none is refused.
#[test]
fn two_hundred_forks() {
    let mut rows = Vec::new();
    for number in (1..64).cycle().take(200) {
        rows.extend([(fork(0), 0, u32::from(number)), (join(0, number), 0, 0)]);
    }
    day(&rows);
}

/// "A number means the latest box that bore it": 4 once that was handed in, and not before.
#[test]
fn handed_in_means_the_latest_bearer() {
    let once = [&sixty_four()[..], &[(join(0, 1), 0, 0)]].concat();
    let again = [&once[..], &[(fork(0), 0, 1)]].concat();
    let time = update(0, 1, TIME, 7, 1);
    for call in [time.clone(), query(0, 1, 7), fork(1), join(0, 1), list(1, 0), fill(1)] {
        refused_after(&once, call, 4);
    }
    let taken = [
        (fill(1), 0, 0),
        (list(1, 0), 0, 0),
        (fork(1), 10, 0),
        (preview(0, 1, 7), 0, 0),
        (query(0, 1, 7), 0, 0),
        (time, 0, 0),
        (yields(0), 0, 0),
        (join(0, 1), 0, 1),
        (list(1, 0), 4, 0),
    ];
    day(&[&again[..], &taken].concat());
}

/// What an earlier bearer entered is no update of its number's own any more, is inherited where it
/// was taken over, and is counted once.
#[test]
fn updates_of_an_earlier_bearer() {
    after_64(&[
        (update(0, 1, TIME, 7, 50), 0, 0),
        (update(0, 1, TIME, 8, 60), 0, 1),
        (yields(0), 0, 0),
        (fill(1), 0, 2),
        // Box 2 saw its fork, and takes it over: the main revision has nothing of it yet.
        (join(2, 1), 0, 2),
        (fork(0), 0, 1),
        (fill(1), 0, 0),
        (list(1, 100), 0, 0),
        (update(1, 1, PENALTY, 7, 5), 0, 2),
        (yields(1), 0, 0),
        (fill(1), 0, 1),
        (preview(0, 1, 7), 0, 0),
        (join(0, 2), 0, 2),
        (preview(0, 1, 7), 0, 55),
        (list(1, 100), 0, 1),
        (fork(1), 0, 2),
        (list(2, 100), 0, 1),
        (join(0, 1), 0, 1),
        (query(1, 0, 7), 0, 55),
        (yields(1), 0, 0),
        (fork(0), 0, 1),
        (list(1, 100), 0, 3),
        (fill(1), 0, 0),
        (fill(0), 0, 3),
        (query(1, 1, 7), 0, 55),
    ]);
}

/// E3 on reused numbers: who had seen the fork of an earlier bearer has not seen that of the new one,
/// and the new one has seen all that its forker had.
#[test]
fn the_join_rule_goes_by_the_new_bearer() {
    after_64(&[
        (join(1, 2), 11, 0),
        (preview(2, 1, 7), 0, 0),
        (join(0, 1), 0, 0),
        (fork(0), 0, 1),
        // Box 2 was forked after the earlier box 1, and before this one.
        (join(2, 1), 11, 0),
        (preview(2, 1, 7), 11, 0),
        (join(63, 1), 11, 0),
        (join(1, 2), 0, 0),
        (fork(1), 0, 2),
        // E2: no revision takes over its forker, and none one that it has not seen.
        (join(2, 1), 11, 0),
        (join(0, 2), 11, 0),
        (join(0, 1), 0, 0),
        (join(0, 2), 0, 0),
    ]);
}

/// What the earlier bearer had seen, the new one has not.
#[test]
fn the_new_bearer_has_seen_what_its_forker_has() {
    after_64(&[
        (join(0, 63), 0, 0),
        (fork(5), 0, 63),
        // The earlier box 63 had seen 62 forks, box 5 had seen four.
        (join(63, 6), 11, 0),
        (join(63, 62), 11, 0),
        (join(63, 4), 0, 0),
        (join(63, 5), 11, 0),
        (join(5, 63), 0, 0),
    ]);
}

/// "what the earlier bearer did stays in the diagram, and a tablet's last event may be there".
#[test]
fn a_clients_last_event_on_an_earlier_bearer() {
    after_64(&[
        (update(3, 1, TIME, 7, 1), 0, 0),
        (yields(3), 0, 0),
        (query(4, 1, 7), 0, 1),
        (yields(4), 0, 0),
        (join(2, 1), 0, 1),
        (fork(0), 0, 1),
        // Both had caught up with the earlier box 1; now they have with box 2 alone.
        (query(3, 1, 7), 8, 0),
        (update(4, 1, STRIKE, 7, 0), 8, 0),
        (query(3, 0, 7), 8, 0),
        (query(4, 2, 7), 0, 1),
        (yields(4), 0, 0),
        (join(0, 2), 0, 1),
        (query(3, 1, 7), 8, 0),
        (query(3, 0, 7), 0, 1),
        (yields(3), 0, 0),
        (fork(0), 0, 2),
        (query(4, 2, 7), 0, 1),
        (query(3, 2, 7), 7, 0),
        (yields(4), 0, 0),
        (query(3, 2, 7), 0, 1),
        (yields(3), 0, 0),
        (query(5, 1, 7), 0, 0),
    ]);
}

/// A revision in use is not handed in, so that no open transaction is on an earlier bearer.
#[test]
fn no_open_transaction_is_on_an_earlier_bearer() {
    after_64(&[
        (update(3, 1, TIME, 7, 1), 0, 0),
        (join(0, 1), 7, 0),
        (fork(0), 10, 0),
        (yields(3), 0, 0),
        (join(0, 1), 0, 1),
        (fork(0), 0, 1),
        (query(4, 1, 7), 0, 1),
        (update(3, 1, TIME, 7, 1), 7, 0),
        (yields(4), 0, 0),
        (update(3, 1, TIME, 7, 2), 0, 1),
    ]);
}

/// E1 on a number that was borne before, in a bundle; the listing has the joiner's updates first.
#[test]
fn a_bundle_and_a_listing_on_a_reused_number() {
    let line = |kind, client, bib, v, number| Line { kind, client, bib, v, number };
    let records = [line(PENALTY, 9, 7, 5000, 9), line(EARLIEST, 9, 8, 3, 9)];
    let bundle = |client, revision| {
        let records = records.iter().flat_map(|record| record.to_bytes()).collect();
        Call::Bundle { client, revision, records }
    };
    let calls = [
        update(0, 1, TIME, 7, 61000),
        yields(0),
        join(0, 1),
        bundle(1, 1),
        fork(0),
        bundle(1, 1),
        update(2, 0, TIME, 7, 60000),
        yields(2),
        preview(0, 1, 7),
        join(0, 1),
        list(0, 48),
    ];
    let start = sixty_four().into_iter().map(|row| row.0);
    let given = answers(&start.chain(calls).collect::<Vec<_>>()).split_off(63);
    let codes: Vec<u8> = given.iter().map(|answer| answer.code.number()).collect();
    assert_eq!(codes, [0, 0, 0, 4, 0, 0, 0, 0, 0, 0, 0]);
    assert_eq!((given[5].value, given[5].code), (1, Code::Accepted));
    assert_eq!((given[8].state, given[8].value, given[8].gain), (State::Timed, 65000, 2));
    let listed = [
        line(TIME, 0, 7, 61000, 0),
        line(TIME, 2, 7, 60000, 3),
        line(PENALTY, 1, 7, 5000, 1),
        line(EARLIEST, 1, 8, 3, 2),
    ];
    assert_eq!(given[10].lines, listed);
}
