//! 02, U14, of the static library: the rental bill.

use silttongs::{Kind, Refusal, Table, BYTES};

use super::fresh;
use super::random::STARTED;

/// "Eight boxes and 1,201 updates cost a member 2,878 cents; three boxes and 250 updates cost 2,000."
#[test]
fn the_examples_of_02() -> Result<(), Refusal> {
    for (boxes, updates, [member, other]) in [(8, 1_201, [2_878, 3_385]), (3, 250, [2_000; 2])] {
        let mut table = fresh();
        for _ in 1..boxes {
            table.fork(0)?;
        }
        for v in 0..updates {
            table.update(0, 0, Kind::Time, 7, v)?;
        }
        let before = table.clone();
        assert_eq!([table.bill(true)?, table.bill(false)?], [member, other]);
        assert!(table == before, "the table is only read");
        assert_eq!(Table::from_bytes(table.bytes()).bill(true), Ok(member));
    }
    Ok(())
}

/// Marks and refusals start no box; a fork of a mark does, and so does a sync.
#[test]
fn what_starts_a_box() -> Result<(), Refusal> {
    let mut table = fresh();
    for _ in 0..6 {
        table.fork(0)?;
    }
    assert_eq!([table.bill(false)?, table.bill(true)?], [2_450, 2_083]);
    let mark = table.mark(0, "JURY")?;
    assert_eq!(table.fork(60), Err(Refusal::NeverGiven));
    assert_eq!(table.bill(false), Ok(2_450));
    table.fork(mark)?;
    assert_eq!(table.bill(false), Ok(2_800));
    table.sync(1)?;
    assert_eq!(table.sync(1), Err(Refusal::Joined));
    table.join(0, 2)?;
    table.drop("JURY")?;
    assert_eq!(table.bill(false), Ok(3_150));
    Ok(())
}

/// "the count stops at 65,535 and stays there": 65,600 boxes, with numbers used again.
#[test]
fn the_count_stops() -> Result<(), Refusal> {
    let mut table = fresh();
    let mut revision = table.fork(0)?;
    for boxes in 2..65_600 {
        if boxes >= 65_530 {
            assert_eq!(table.bill(false), Ok(350 * boxes.min(65_535)), "{boxes} boxes");
        }
        revision = table.sync(revision)?;
    }
    assert_eq!(table.bytes()[STARTED..STARTED + 2], [0xff; 2]);
    assert_eq!(table.bill(true), Ok(22_937_250 - 3_440_587));
    Ok(())
}

/// Whatever the cells are, the sum fits.
#[test]
fn the_largest_bill() -> Result<(), Refusal> {
    let mut bytes = fresh().bytes().to_vec();
    bytes[STARTED..STARTED + 2].fill(0xff);
    // 4,096 updates.
    bytes[39_824..39_826].copy_from_slice(&[0, 16]);
    assert_eq!(Table::from_bytes(&bytes[..]).bill(false), Ok(22_937_250 + 45 * 41));
    bytes[STARTED..STARTED + 2].fill(0);
    assert_eq!(Table::from_bytes(&bytes[..]).bill(false), Ok(2_000));
    assert_eq!(Table::from_bytes(&bytes[..BYTES - 1]).bill(false), Err(Refusal::NoTable));
    Ok(())
}
