//! 02, U13, of the static library: "Line-ups from other makers".

use calls::{order_file, UPDATES};
use silttongs::{Kind, Refusal, Table, BYTES};

use super::random::STATE;
use super::{fresh, Lent};

/// The state of a box that was handed in: docs/CELLS.md.
const HANDED_IN: u8 = 2;

/// Box 0 lists updates 0 and 2, box 1, which is busy, 0 and 1.
fn two_boxes() -> Result<Lent, Refusal> {
    let mut table = fresh();
    table.update(0, 0, Kind::Time, 7, 61_000)?;
    table.yield_(0)?;
    table.fork(0)?;
    table.update(1, 1, Kind::Penalty, 7, 5_000)?;
    table.update(0, 0, Kind::Time, 7, 60_000)?;
    table.yield_(0)?;
    Ok(table)
}

#[test]
fn yes_exactly_if_it_fits() -> Result<(), Refusal> {
    let table = two_boxes()?;
    let before = table.clone();
    let orders: [(&[u16], bool); 10] = [
        (&[0, 1, 2], true),
        (&[0, 2, 1], true),
        (&[1, 0, 2], false),
        (&[2, 0, 1], false),
        (&[0, 1, 1], false),
        (&[0, 1], false),
        (&[0, 1, 2, 3], false),
        (&[0, 1, 3], false),
        (&[0, 1, 2, 2], false),
        (&[], false),
    ];
    for (numbers, fits) in orders {
        assert_eq!(table.verify(&order_file(numbers)), Ok(fits), "{numbers:?}");
    }
    assert!(table == before, "the table is only read");
    assert_eq!(Table::from_bytes(table.bytes()).verify(&order_file(&[0, 1, 2])), Ok(true));
    Ok(())
}

/// 21 "checked after 1"; the sum is made in 64 bits, and a gap is not looked at.
#[test]
fn bad_lists() -> Result<(), Refusal> {
    let table = two_boxes()?;
    let good = order_file(&[0, 1, 2]);
    for length in 0..good.len() {
        assert_eq!(table.verify(&good[..length]), Err(Refusal::BadList), "{length} bytes");
    }
    let headed = |count: u32, offset: u32, rest: &[u8]| {
        [&count.to_le_bytes()[..], &offset.to_le_bytes(), rest].concat()
    };
    let numbers = &good[8..];
    let bad = [
        headed(3, 8, &good[7..]),
        headed(2, 8, numbers),
        headed(4, 8, numbers),
        headed(3, 7, &numbers[1..]),
        headed(3, 9, numbers),
        headed(0, 0, &[]),
        headed(1 << 31 | 3, 8, numbers),
        headed(0, 7, &[]),
        headed(0, u32::MAX, &[]),
        headed(u32::MAX, 10, numbers),
    ];
    for file in bad {
        assert_eq!(table.verify(&file), Err(Refusal::BadList), "{file:?}");
        let short = Table::from_bytes(&table.bytes()[1..]);
        assert_eq!(short.verify(&file), Err(Refusal::NoTable), "{file:?}");
    }
    let gap = [&[0xff; 300][..], numbers].concat();
    assert_eq!(table.verify(&headed(3, 308, &gap)), Ok(true));
    Ok(())
}

/// A mark is a box out. On a day what it lists is listed by others too; here it is the only one.
#[test]
fn a_marked_box_counts() -> Result<(), Refusal> {
    let mut table = fresh();
    table.fork(0)?;
    table.update(0, 1, Kind::Time, 7, 1)?;
    table.update(0, 1, Kind::Time, 7, 2)?;
    table.yield_(0)?;
    table.mark(1, "JURY")?;
    let mut bytes = table.table.into_bytes();
    bytes[STATE + 1] = HANDED_IN;
    let said = |bytes: &[u8]| Table::from_bytes(bytes).verify(&order_file(&[1, 0]));
    assert_eq!(said(&bytes), Ok(false));
    bytes[STATE + 2] = HANDED_IN;
    assert_eq!(said(&bytes), Ok(true));
    Ok(())
}

/// A full log, and 64 boxes that each list all of it.
#[test]
fn sixty_four_boxes_and_4096_updates() -> Result<(), Refusal> {
    let mut table = fresh();
    for v in 0..UPDATES as u32 {
        table.update(0, 0, Kind::Time, 7, v)?;
    }
    table.yield_(0)?;
    (1..64).try_for_each(|_| table.fork(0).map(|_| ()))?;
    let mut numbers: Vec<u16> = (0..UPDATES as u16).collect();
    assert_eq!(table.verify(&order_file(&numbers)), Ok(true));
    numbers.swap(4_094, 4_095);
    assert_eq!(table.verify(&order_file(&numbers)), Ok(false));
    assert_eq!(table.bytes().len(), BYTES);
    Ok(())
}
