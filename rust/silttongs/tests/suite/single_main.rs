//! 02, U8, "Single-main days", on the library: the choice given to fresh, what is off the line, and the
//! call sync.

#![allow(unsafe_code)]

use silttongs::{Day, Fill, Kind, Refusal, Standing, Table, BOARD, BYTES};

use super::{fresh, fresh_for, Lent};

extern "C" {
    fn silttongs_fresh(
        table: *mut u8,
        length: usize,
        board: *mut u8,
        board_length: usize,
        single_main: u8,
    ) -> u64;
}

/// A single-main day with boxes 1, 2 and 3.
fn three() -> Lent {
    let mut table = fresh_for(Day::SingleMain);
    assert_eq!([(); 3].map(|()| table.fork(0)), [Ok(1), Ok(2), Ok(3)]);
    table
}

/// Then box 3 is handed in, and box 2 is busy.
fn busy() -> Lent {
    let mut table = three();
    assert_eq!(table.join(0, 3), Ok(0));
    assert_eq!(table.update(2, 2, Kind::Time, 7, 50), Ok(0));
    table
}

/// include/silttongs.h: any byte but 0 is a yes.
#[test]
fn the_choice_as_a_byte() {
    for byte in 0..=u8::MAX {
        let (mut t, mut board) = (vec![0x5a; BYTES], vec![0xa5; BOARD]);
        let (at, length) = (board.as_mut_ptr(), board.len());
        // SAFETY: the slices are lent to the call alone, which takes any bytes and any numbers.
        assert_eq!(unsafe { silttongs_fresh(t.as_mut_ptr(), t.len(), at, length, byte) }, 0);
        let day = if byte == 0 { Day::Ordinary } else { Day::SingleMain };
        assert!(t == fresh_for(day).table.into_bytes(), "{byte}");
    }
}

/// The tables of the two choices differ in one byte.
#[test]
fn the_choice_is_a_cell() {
    let [ordinary, single] =
        [Day::Ordinary, Day::SingleMain].map(|d| fresh_for(d).table.into_bytes());
    let differ: Vec<usize> = (0..BYTES).filter(|&at| ordinary[at] != single[at]).collect();
    assert_eq!(differ, [40_084]);
    assert_eq!((ordinary[40_084], single[40_084]), (0, 1));
    assert_eq!(Day::default(), Day::Ordinary);
}

/// "15 off the line, for a fork of another box than 0 or a join into one on such a day; checked after
/// 4." A refusal changes no byte.
#[test]
fn what_is_off_the_line() {
    let table = busy();
    let forks = [(64, Refusal::NeverGiven), (3, Refusal::Joined), (2, Refusal::OffTheLine)];
    for (revision, refusal) in forks {
        let mut copy = table.clone();
        assert_eq!(copy.fork(revision), Err(refusal), "fork {revision}");
        assert!(copy == table, "fork {revision}");
    }
    let joins = [
        (1, 4, Refusal::NeverGiven),
        (4, 1, Refusal::NeverGiven),
        (1, 3, Refusal::Joined),
        (3, 1, Refusal::Joined),
        (1, 2, Refusal::OffTheLine),
        (2, 1, Refusal::OffTheLine),
        (1, 0, Refusal::OffTheLine),
        (2, 2, Refusal::OffTheLine),
        (0, 2, Refusal::InUse),
        (0, 0, Refusal::NotJoinable),
    ];
    for (joiner, joinee, refusal) in joins {
        let mut copy = table.clone();
        assert_eq!(copy.join(joiner, joinee), Err(refusal), "join {joiner} {joinee}");
        // 5 comes last.
        assert_eq!(copy.preview(joiner, joinee, 1_000), Err(refusal), "{joiner} {joinee}");
        assert!(copy == table, "join {joiner} {joinee}");
    }
    assert_eq!(table.clone().fork(0), Ok(4));
    assert_eq!(table.clone().join(0, 1), Ok(0));
}

/// 15 comes before 10.
#[test]
fn with_64_boxes_out() {
    let mut table = three();
    assert!((4..64).all(|number| table.fork(0) == Ok(number)));
    assert_eq!(table.fork(0), Err(Refusal::NoneLeft));
    assert_eq!(table.fork(5), Err(Refusal::OffTheLine));
    // A sync hands in first: it gives the number that it was given.
    assert_eq!((table.sync(5), table.sync(63), table.sync(5)), (Ok(5), Ok(63), Ok(5)));
    assert_eq!(table.fork(0), Err(Refusal::NoneLeft));
    // Another was handed in longer ago.
    assert_eq!((table.join(0, 9), table.sync(5), table.sync(9)), (Ok(0), Ok(9), Ok(5)));
}

/// A fresh that is refused leaves the day and its choice; one that is taken has its own.
#[test]
fn a_choice_lasts_until_the_next_fresh() {
    let Lent { table, mut board } = three();
    let mut bytes = table.into_bytes();
    bytes.push(0);
    let before = bytes.clone();
    let long = Table::fresh(&mut bytes[..], &mut board, Day::Ordinary);
    assert_eq!(long.err(), Some(Refusal::NoTable));
    assert!(bytes == before);
    bytes.pop();
    assert_eq!(Table::from_bytes(&mut bytes[..]).fork(1), Err(Refusal::OffTheLine));
    let mut table = Table::fresh(&mut bytes[..], &mut board, Day::Ordinary).unwrap();
    assert_eq!((table.fork(0), table.fork(1)), (Ok(1), Ok(2)));
    assert_eq!(table.join(&mut board, 1, 2), Ok(0));
    let mut table = Table::fresh(&mut bytes[..], &mut board, Day::SingleMain).unwrap();
    assert_eq!((table.fork(0), table.fork(1)), (Ok(1), Err(Refusal::OffTheLine)));
}

/// "joins it into box 0, then forks box 0; it is one step, answers the new number": every byte is as by
/// the two calls, on either kind of day.
#[test]
fn a_sync_is_the_join_and_the_fork() {
    for day in [Day::Ordinary, Day::SingleMain] {
        let mut table = fresh_for(day);
        table.update(0, 0, Kind::Time, 7, 60_000).unwrap();
        table.yield_(0).unwrap();
        table.fork(0).unwrap();
        table.update(1, 1, Kind::Penalty, 7, 5_000).unwrap();
        table.yield_(1).unwrap();
        let mut apart = table.clone();
        assert_eq!((apart.join(0, 1), apart.fork(0)), (Ok(1), Ok(2)));
        assert_eq!(table.sync(1), Ok(2));
        assert!(table == apart, "{day:?}");
        assert_eq!(table.fill(2), Ok(Fill { own: 0, total: 2 }));
        assert_eq!(table.query(1, 2, 7), Ok(Standing::Timed(65_000)));
        assert_eq!(table.fill(1), Err(Refusal::Joined));
    }
}

/// "has join's refusals for joiner 0"; a refused one changes no byte.
#[test]
fn the_refusals_of_a_sync() {
    let refused = |table: &Lent, revision, refusal| {
        let mut copy = table.clone();
        assert_eq!(copy.sync(revision), Err(refusal), "sync {revision}");
        assert!(copy == *table, "sync {revision}: {refusal:?}");
        assert_eq!(copy.join(0, revision), Err(refusal), "join 0 {revision}");
    };
    let mut table = busy();
    refused(&table, 4, Refusal::NeverGiven);
    refused(&table, 255, Refusal::NeverGiven);
    refused(&table, 3, Refusal::Joined);
    refused(&table, 2, Refusal::InUse);
    refused(&table, 0, Refusal::NotJoinable);
    table.query(1, 0, 7).unwrap();
    refused(&table, 1, Refusal::InUse);
    refused(&table, 0, Refusal::InUse);
    // On an ordinary day, box 0 has not seen the fork of a box that another sent.
    let mut table = fresh();
    assert_eq!((table.fork(0), table.fork(1)), (Ok(1), Ok(2)));
    refused(&table, 2, Refusal::NotJoinable);
    assert_eq!((table.sync(1), table.sync(2)), (Ok(3), Ok(4)));
}

/// "anything yielded on a box before its taken sync is visible to every box that starts with that sync
/// or after it"
#[test]
fn what_was_synced_is_visible_to_boxes_that_start_later() {
    let mut table = three();
    table.update(1, 1, Kind::Time, 7, 50).unwrap();
    table.yield_(1).unwrap();
    assert_eq!((table.sync(1), table.fork(0), table.sync(3)), (Ok(4), Ok(5), Ok(6)));
    let listed = |table: &Lent, revision| table.list(revision, &mut [0; 12]);
    assert_eq!([4, 5, 6].map(|revision| listed(&table, revision)), [Ok(1); 3]);
    assert_eq!(listed(&table, 2), Ok(0));
    assert_eq!(table.sync(2), Ok(7));
    assert_eq!(listed(&table, 7), Ok(1));
    // The tablet goes on with the box that its sync gave.
    assert_eq!(table.query(1, 4, 7), Ok(Standing::Timed(50)));
}
