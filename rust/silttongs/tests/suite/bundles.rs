//! 02, U4, of the static library: "A whole bundle from a tablet", as records and as entries.

use calls::{Line, BIBS, CLIENTS, REVISIONS, UPDATES};
use silttongs::Kind::{Penalty, Strike, Time};
use silttongs::{lines, Entry, Fill, Refusal, Standing, Table, BUNDLE, BYTES, SHEET};

use super::{fresh, Lent};

fn records(entries: &[Entry]) -> Vec<u8> {
    entries.iter().flat_map(|entry| entry.to_bytes()).collect()
}

/// Both forms on copies of a table: the same answer and the same bytes.
fn sent(table: &mut Lent, client: u8, revision: u8, entries: &[Entry]) -> Result<u32, Refusal> {
    let mut other = table.clone();
    let answer = table.bundle(client, revision, &records(entries));
    assert_eq!(other.bundle_entries(client, revision, entries), answer, "{entries:?}");
    assert!(other == *table, "{entries:?}: the bytes differ");
    answer
}

#[test]
fn a_bundle_is_its_updates_and_a_yield() -> Result<(), Refusal> {
    let entries =
        [Entry::new(Time, 7, 61_000), Entry::new(Penalty, 7, 5_000), Entry::new(Strike, 8, 9)];
    let [mut table, mut singly] = [fresh(), fresh()];
    for table in [&mut table, &mut singly] {
        table.fork(0)?;
        table.update(1, 1, Time, 8, 4)?;
    }
    assert_eq!(sent(&mut table, 1, 1, &entries), Ok(1));
    for entry in entries {
        singly.update(1, 1, entry.kind, entry.bib, entry.v)?;
    }
    singly.yield_(1)?;
    assert!(table == singly);
    assert_eq!(table.query(2, 1, 7), Ok(Standing::Timed(66_000)));
    assert_eq!(table.query(2, 1, 8), Ok(Standing::Struck));
    Ok(())
}

/// A refusal after some entries leaves every byte, and gives the code of the earliest.
#[test]
fn all_or_nothing() -> Result<(), Refusal> {
    let good = Entry::new(Time, 7, 1);
    let bad = [Entry::new(0, 7, 1), Entry::new(5, 7, 1), Entry::new(Strike, BIBS, 1)];
    for (bad, place) in bad.into_iter().zip([1, 40, BUNDLE - 1]) {
        let mut table = fresh();
        table.update(0, 0, Time, 9, 1)?;
        let before = table.clone();
        let mut entries = [good; BUNDLE];
        entries[place] = bad;
        assert_eq!(sent(&mut table, 0, 0, &entries), Err(Refusal::BadEntry), "{bad:?}");
        assert_eq!(sent(&mut table, 1, 0, &entries), Err(Refusal::InUse), "{bad:?}");
        assert_eq!(sent(&mut table, CLIENTS, 0, &entries), Err(Refusal::UnknownClient), "{bad:?}");
        assert_eq!(sent(&mut table, 0, 1, &entries), Err(Refusal::NeverGiven), "{bad:?}");
        assert!(table == before);
    }
    Ok(())
}

#[test]
fn the_count_of_a_bundle() {
    let entry = Entry::new(Time, 7, 1);
    for count in 0..=2 * BUNDLE + 2 {
        let mut table = fresh();
        let right = if (1..=BUNDLE).contains(&count) { Ok(0) } else { Err(Refusal::WrongBundle) };
        assert_eq!(sent(&mut table, 0, 0, &vec![entry; count]), right, "{count}");
        let taken = if right.is_ok() { count as u16 } else { 0 };
        assert_eq!(table.fill(0), Ok(Fill { own: taken, total: taken }), "{count}");
    }
    let bytes = records(&[entry; BUNDLE + 2]);
    for length in (0..bytes.len()).filter(|length| !length.is_multiple_of(Entry::BYTES)) {
        let mut table = fresh();
        assert_eq!(table.bundle(0, 0, &bytes[..length]), Err(Refusal::WrongBundle), "{length}");
        assert!(table == fresh(), "{length} bytes");
    }
}

/// 1 before 14, and 14 before 2 and 3.
#[test]
fn a_wrong_bundle_is_checked_right_after_the_table() {
    let none = [Entry::new(0, BIBS, 1); BUNDLE + 1];
    for entries in [&none[..0], &none] {
        assert_eq!(sent(&mut fresh(), CLIENTS, REVISIONS, entries), Err(Refusal::WrongBundle));
        let mut no_table = Lent { table: Table::from_bytes(vec![0; BYTES]), ..fresh() };
        assert_eq!(sent(&mut no_table, CLIENTS, REVISIONS, entries), Err(Refusal::NoTable));
    }
}

/// The log runs full within a bundle: 9 of an entry before 5 of a later one, and the other way round.
#[test]
fn a_log_that_runs_full() -> Result<(), Refusal> {
    let (good, bad) = (Entry::new(Time, 7, 1), Entry::new(Time, BIBS, 1));
    let mut table = fresh();
    let full = UPDATES as u32;
    for first in (0..full - BUNDLE as u32).step_by(BUNDLE) {
        assert_eq!(sent(&mut table, 0, 0, &[good; BUNDLE]), Ok(first));
    }
    assert_eq!(sent(&mut table, 0, 0, &[good; BUNDLE - 2]), Ok(full - BUNDLE as u32));
    assert_eq!(sent(&mut table, 0, 0, &[good, good, good, bad]), Err(Refusal::LogFull));
    assert_eq!(sent(&mut table, 0, 0, &[good, good, bad, good]), Err(Refusal::BadEntry));
    assert_eq!(sent(&mut table, 0, 0, &[good; 3]), Err(Refusal::LogFull));
    assert_eq!(sent(&mut table, 0, 0, &[good; 2]), Ok(full - 2));
    assert_eq!(sent(&mut table, 0, 0, &[good]), Err(Refusal::LogFull));
    assert_eq!(table.fill(0), Ok(Fill { own: full as u16, total: full as u16 }));
    Ok(())
}

/// The tablet that sends it and the numbers of the day are listed, whatever the records have.
#[test]
fn tablet_and_number_of_a_record_are_not_looked_at() -> Result<(), Refusal> {
    let mut table = fresh();
    let record = |client, number| Line { kind: 1, client, bib: 7, v: 1, number }.to_bytes();
    table.bundle(15, 0, &[record(3, 9), record(255, u32::MAX)].concat())?;
    let mut sheet = vec![0; SHEET];
    let count = table.list(0, &mut sheet)?;
    let listed: Vec<(u8, u32)> = lines(&sheet, count).map(|l| (l.client, l.number)).collect();
    assert_eq!(listed, [(15, 0), (15, 1)]);
    Ok(())
}
