//! 02, U6, of the static library: "Look before taking over".

use calls::{BIBS, CLIENTS, REVISIONS};
use silttongs::Kind::{Earliest, Penalty, Strike, Time};
use silttongs::Standing::{Neither, Struck, Timed};
use silttongs::{Kind, Preview, Refusal, Standing, Table};

use super::{fresh, Lent};

/// Compares a preview, leaves every byte, and finds the same by a join and a query on a copy.
fn shows(table: &Lent, joiner: u8, joinee: u8, bib: u16, standing: Standing, gain: u32) {
    let mut copy = table.clone();
    assert_eq!(table.preview(joiner, joinee, bib), Ok(Preview { standing, gain }));
    assert!(copy == *table, "the table is only read");
    assert_eq!(copy.join(joiner, joinee), Ok(gain));
    assert_eq!(copy.query(CLIENTS - 1, joiner, bib), Ok(standing));
}

/// A box with an update of bib 7, and then one of the box that sent it.
fn late(late: (Kind, u32), first: (Kind, u32)) -> Result<Lent, Refusal> {
    let mut table = fresh();
    table.fork(0)?;
    table.update(1, 1, late.0, 7, late.1)?;
    table.yield_(1)?;
    table.update(0, 0, first.0, 7, first.1)?;
    table.yield_(0)?;
    Ok(table)
}

#[test]
fn the_joiners_updates_come_first() -> Result<(), Refusal> {
    shows(&late((Penalty, 5_000), (Time, 60_000))?, 0, 1, 7, Timed(65_000), 1);
    shows(&late((Time, 61_000), (Time, 60_000))?, 0, 1, 7, Timed(61_000), 1);
    shows(&late((Earliest, 9), (Strike, 0))?, 0, 1, 7, Struck, 1);
    shows(&late((Time, 9), (Strike, 0))?, 0, 1, 7, Timed(9), 1);
    shows(&late((Strike, 9), (Time, 8))?, 0, 1, 7, Struck, 1);
    Ok(())
}

/// The gain is told whatever the bib's state is.
#[test]
fn the_gain_of_a_bib_that_is_neither() -> Result<(), Refusal> {
    shows(&late((Penalty, 5), (Time, 0))?, 0, 1, 7, Neither, 1);
    shows(&late((Time, 5), (Time, 6))?, 0, 1, 8, Neither, 1);
    let mut table = fresh();
    table.fork(0)?;
    shows(&table, 0, 1, 7, Neither, 0);
    Ok(())
}

/// What the joinee inherited is neither applied again nor gained; joins inside it are.
#[test]
fn inherited_and_joined_updates() -> Result<(), Refusal> {
    let mut table = fresh();
    table.update(0, 0, Time, 7, 1_000)?;
    table.update(0, 0, Penalty, 7, 10)?;
    table.yield_(0)?;
    table.fork(0)?;
    table.fork(1)?;
    shows(&table, 0, 1, 7, Timed(1_010), 0);
    table.update(2, 2, Penalty, 7, 5)?;
    table.yield_(2)?;
    shows(&table, 1, 2, 7, Timed(1_015), 1);
    table.join(1, 2)?;
    table.update(3, 1, Penalty, 7, 3)?;
    table.yield_(3)?;
    shows(&table, 0, 1, 7, Timed(1_018), 2);
    Ok(())
}

/// "Refusals are those of the join, then 5 for the bib": the wrapper panics at a refusal with a state or
/// a gain.
#[test]
fn refusals_are_those_of_the_join_and_then_5() -> Result<(), Refusal> {
    let mut table = fresh();
    (0..3).try_for_each(|_| table.fork(0).map(|_| ()))?;
    table.update(1, 1, Strike, 7, 5)?;
    table.yield_(1)?;
    table.join(0, 1)?;
    table.update(2, 2, Time, 7, 6)?;
    table.update(3, 3, Time, 7, 6)?;
    table.yield_(3)?;
    let before = table.clone();
    for bib in [7, BIBS, u16::MAX] {
        let cases = [
            (1, 9, Refusal::NeverGiven),
            (REVISIONS, 1, Refusal::NeverGiven),
            (2, 1, Refusal::Joined),
            (1, 2, Refusal::Joined),
            (0, 2, Refusal::InUse),
            (2, 0, Refusal::InUse),
            (0, 0, Refusal::NotJoinable),
            (3, 0, Refusal::NotJoinable),
        ];
        for (joiner, joinee, refusal) in cases {
            assert_eq!(table.preview(joiner, joinee, bib), Err(refusal), "{joiner} {joinee} {bib}");
            assert_eq!(table.clone().join(joiner, joinee), Err(refusal), "{joiner} {joinee}");
        }
    }
    assert_eq!(table.preview(0, 3, BIBS), Err(Refusal::BadEntry));
    assert_eq!(table.preview(0, 3, BIBS - 1), Ok(Preview { standing: Neither, gain: 1 }));
    assert!(table == before);
    Ok(())
}

/// A table on bytes that are lent to be read alone.
#[test]
fn a_preview_reads_alone() -> Result<(), Refusal> {
    let bytes = late((Time, 5), (Time, 6))?.table.into_bytes();
    let preview = Table::from_bytes(&bytes[..]).preview(0, 1, 7);
    assert_eq!(preview, Ok(Preview { standing: Timed(5), gain: 1 }));
    assert_eq!(Table::from_bytes(&bytes[1..]).preview(0, 1, BIBS), Err(Refusal::NoTable));
    Ok(())
}
