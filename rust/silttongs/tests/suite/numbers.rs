//! 02, U7, "Sixty-four out, not sixty-four ever", on the library.

use silttongs::{Fill, Kind, Refusal, Standing};

use super::{fresh, Lent};

/// All 63 forks of box 0.
fn sixty_four() -> Lent {
    let mut table = fresh();
    assert!((1..64).all(|number| table.fork(0) == Ok(number)));
    table
}

/// "A fork now takes a never-used number while there is one, else the number handed in longest ago."
#[test]
fn the_number_of_a_fork() {
    let mut table = fresh();
    assert_eq!((table.fork(0), table.fork(1)), (Ok(1), Ok(2)));
    assert_eq!((table.join(1, 2), table.join(0, 1)), (Ok(0), Ok(0)));
    assert!((3..64).all(|number| table.fork(0) == Ok(number)));
    assert_eq!((table.fork(0), table.fork(2)), (Ok(2), Ok(1)));
    assert_eq!(table.fork(0), Err(Refusal::NoneLeft));
    // The latest hand-in of a number counts.
    for joinee in [40, 7] {
        assert_eq!(table.join(0, joinee), Ok(0));
    }
    assert_eq!(table.fork(0), Ok(40));
    for joinee in [40, 3] {
        assert_eq!(table.join(0, joinee), Ok(0));
    }
    assert_eq!([(); 3].map(|()| table.fork(0)), [Ok(7), Ok(40), Ok(3)]);
    assert_eq!(table.fork(0), Err(Refusal::NoneLeft));
}

/// "Code 10 is given exactly if 64 boxes are out." A refused fork takes no number and changes no byte.
#[test]
fn a_refused_fork_changes_nothing() {
    let mut table = sixty_four();
    table.join(0, 9).unwrap();
    table.join(0, 5).unwrap();
    table.query(0, 0, 7).unwrap();
    let mut refused = |forker, refusal| {
        let before = table.bytes().to_vec();
        assert_eq!(table.fork(forker), Err(refusal));
        assert!(table.bytes() == before, "{refusal:?}");
        table.yield_(0).unwrap();
    };
    refused(0, Refusal::InUse);
    refused(9, Refusal::Joined);
    refused(64, Refusal::NeverGiven);
    assert_eq!((table.fork(0), table.fork(0)), (Ok(9), Ok(5)));
    let before = table.bytes().to_vec();
    assert_eq!(table.fork(9), Err(Refusal::NoneLeft));
    assert!(table.bytes() == before);
}

/// The new bearer has no update of its own, inherits by its forker alone, and no one may join it, or
/// start on it, on account of the earlier one.
#[test]
fn nothing_is_left_of_an_earlier_bearer() {
    let mut table = sixty_four();
    table.update(3, 1, Kind::Time, 7, 50).unwrap();
    table.yield_(3).unwrap();
    assert_eq!(table.join(2, 1), Ok(1));
    assert_eq!(table.fill(1), Err(Refusal::Joined));
    assert_eq!(table.fork(0), Ok(1));
    assert_eq!(table.fill(1), Ok(Fill { own: 0, total: 1 }));
    assert_eq!(table.list(1, &mut [0; 12]), Ok(0));
    assert_eq!(table.query(3, 1, 7), Err(Refusal::Stale));
    assert_eq!(table.join(2, 1), Err(Refusal::NotJoinable));
    assert_eq!(table.query(4, 1, 7), Ok(Standing::Neither));
    table.yield_(4).unwrap();
    // What the earlier box 1 took comes to box 0, and behind that to the next box of number 2.
    assert_eq!(table.join(0, 2), Ok(1));
    assert_eq!(table.list(1, &mut [0; 12]), Ok(0));
    assert_eq!(table.fork(0), Ok(2));
    assert_eq!(table.query(3, 2, 7), Ok(Standing::Timed(50)));
    assert_eq!(table.query(3, 1, 7), Err(Refusal::OpenElsewhere));
}

/// A row of inherited updates that an earlier bearer had is not in use for a box sent off from box 0.
#[test]
fn the_row_of_an_earlier_bearer_is_not_in_use() {
    let mut table = sixty_four();
    table.update(3, 1, Kind::Time, 7, 50).unwrap();
    table.yield_(3).unwrap();
    table.join(0, 63).unwrap();
    assert_eq!(table.fork(1), Ok(63));
    assert_eq!(table.list(63, &mut [0; 12]), Ok(1));
    table.join(1, 63).unwrap();
    assert_eq!(table.fork(0), Ok(63));
    table.join(0, 1).unwrap();
    assert_eq!(table.list(63, &mut [0; 12]), Ok(0));
    assert_eq!(table.list(0, &mut [0; 12]), Ok(1));
}
