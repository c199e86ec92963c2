//! 02, U9, "Marked states", on the library: what a marked box refuses, its name and its number, and the
//! marks that the wrapper reads from the cells.

use silttongs::{lines, Day, Fill, Kind, Line, Mark, Name, Refusal, Standing, Table, BYTES, SHEET};

use super::random::STARTED;
use super::{fresh, fresh_for, Lent};

/// Where some cells lie: docs/CELLS.md.
const STATE: usize = 39_040;
const NAMES: usize = 39_828;

/// Boxes 1, 2 and 3, of which 3 is handed in, and a mark, 4; box 2 is busy with tablet 2, and bib 7 has a
/// time on box 0, entered before the mark, by tablet 0.
fn busy() -> Lent {
    let mut table = fresh();
    assert_eq!(table.update(0, 0, Kind::Time, 7, 60_000), Ok(0));
    table.yield_(0).unwrap();
    assert_eq!([(); 3].map(|()| table.fork(0)), [Ok(1), Ok(2), Ok(3)]);
    assert_eq!((table.join(0, 3), table.mark(0, "JURY")), (Ok(0), Ok(4)));
    table.update(2, 2, Kind::Time, 7, 1).unwrap();
    table
}

/// The updates that a box lists, by number.
fn listed(table: &Lent, revision: u8) -> Vec<u32> {
    let mut sheet = vec![0; SHEET];
    let count = table.list(revision, &mut sheet).unwrap();
    lines(&sheet, count).map(|Line { number, .. }| number).collect()
}

/// A call that is refused, and changes no byte.
#[track_caller]
fn refused<T: std::fmt::Debug + PartialEq>(
    table: &Lent,
    refusal: Refusal,
    call: impl Fn(&mut Lent) -> Result<T, Refusal>,
) {
    let mut copy = table.clone();
    assert_eq!(call(&mut copy), Err(refusal));
    assert!(copy == *table, "{refusal:?} changes a byte");
}

/// "it can then be listed and forked but not written, queried or joined, in either role"; "16 marked box,
/// checked right after 15".
#[test]
fn what_a_marked_box_refuses() {
    let table = busy();
    let marked = Refusal::Marked;
    refused(&table, Refusal::UnknownClient, |t| t.update(16, 4, 0, 1_000, 0));
    refused(&table, marked, |t| t.update(0, 4, Kind::Time, 7, 1));
    refused(&table, marked, |t| t.update(2, 4, 0, 1_000, 1));
    refused(&table, Refusal::UnknownClient, |t| t.query(16, 4, 1_000));
    refused(&table, marked, |t| t.query(2, 4, 1_000));
    refused(&table, Refusal::WrongBundle, |t| t.bundle(0, 4, &[]));
    refused(&table, marked, |t| t.bundle(0, 4, &[0; 12]));
    refused(&table, marked, |t| t.sync(4));
    let pairs =
        [(4, 5, Refusal::NeverGiven), (3, 4, Refusal::Joined), (4, 2, marked), (2, 4, marked)];
    for (joiner, joinee, refusal) in pairs.into_iter().chain([(4, 0, marked), (4, 4, marked)]) {
        refused(&table, refusal, |t| t.join(joiner, joinee));
        refused(&table, refusal, |t| t.preview(joiner, joinee, 1_000));
    }
    let mut taken = table.clone();
    assert_eq!(taken.fill(4), Ok(Fill { own: 0, total: 2 }));
    assert_eq!((taken.list(4, &mut [0; 12]), taken.fork(4)), (Ok(1), Ok(5)));
    assert_eq!(taken.mark(4, "NEXT"), Ok(6));
}

/// "Mark has fork's refusals and value", then 17. A taken one leaves what a fork leaves, but for the
/// state, the name and the count of boxes started.
#[test]
fn a_mark_is_a_fork_with_a_name() {
    let table = busy();
    for (revision, refusal) in [
        (5, Refusal::NeverGiven),
        (64, Refusal::NeverGiven),
        (3, Refusal::Joined),
        (2, Refusal::InUse),
    ] {
        refused(&table, refusal, |t| t.fork(revision));
        refused(&table, refusal, |t| t.mark(revision, "JURY"));
        refused(&table, refusal, |t| t.mark(revision, ""));
    }
    refused(&table, Refusal::BadName, |t| t.mark(0, "JURY"));
    for revision in [0, 1, 4] {
        let [mut forked, mut marked] = [table.clone(), table.clone()];
        assert_eq!((forked.fork(revision), marked.mark(revision, "NOON")), (Ok(5), Ok(5)));
        let mut bytes = forked.table.into_bytes();
        bytes[STATE + 5] = 3;
        bytes[NAMES + 20..NAMES + 24].copy_from_slice(b"NOON");
        // 02, U14: "marks not counted"
        bytes[STARTED] -= 1;
        assert!(marked.table.into_bytes() == bytes, "box {revision}");
    }
}

/// "Coming back means forking it, so nothing is rewound". Box 0 never takes over what comes of a mark.
#[test]
fn coming_back_means_forking_it() {
    let mut table = busy();
    table.update(0, 0, Kind::Strike, 7, 0).unwrap();
    table.yield_(0).unwrap();
    let back = table.fork(4).unwrap();
    // The tablet's last event came behind the mark.
    assert_eq!(table.query(0, back, 7), Err(Refusal::Stale));
    assert_eq!(table.query(1, back, 7), Ok(Standing::Timed(60_000)));
    table.update(1, back, Kind::Penalty, 7, 5_000).unwrap();
    table.yield_(1).unwrap();
    assert_eq!(
        [0, 4, back].map(|revision| listed(&table, revision)),
        [vec![0, 2], vec![0], vec![0, 3]]
    );
    refused(&table, Refusal::NotJoinable, |t| t.join(0, back));
    refused(&table, Refusal::NotJoinable, |t| t.sync(back));
    // A box that comes later from the same mark does.
    let later = table.fork(4).unwrap();
    table.drop("JURY").unwrap();
    assert_eq!(table.join(later, back), Ok(1));
    refused(&table, Refusal::NotJoinable, |t| t.join(0, later));
    assert_eq!(table.query(1, later, 7), Ok(Standing::Timed(65_000)));
}

/// "a name of four letters A to Z": every byte in every place, and every length.
#[test]
fn good_and_bad_names() {
    for place in 0..4 {
        for byte in 0..=u8::MAX {
            let mut name = *b"AZBY";
            name[place] = byte;
            let mut table = fresh();
            let right = if (65..=90).contains(&byte) { Ok(1) } else { Err(Refusal::BadName) };
            assert_eq!(table.mark(0, name), right, "{byte} in place {place}");
            assert_eq!(Name::new(name).is_ok(), right.is_ok());
            let right = right.map(|_| ()).map_err(|_| Refusal::NoSuchMark);
            assert_eq!(table.drop(name), right, "{byte} in place {place}");
        }
    }
    let mut table = fresh();
    for length in (0..10).filter(|&length| length != 4) {
        assert_eq!(table.mark(0, [b'A'; 10].get(..length).unwrap()), Err(Refusal::BadName));
        assert_eq!(table.drop([b'A'; 10].get(..length).unwrap()), Err(Refusal::NoSuchMark));
    }
    assert!(table == fresh());
}

/// "or in use": by a mark that is out. Each letter counts.
#[test]
fn a_name_in_use() {
    let mut table = fresh();
    assert_eq!(table.mark(0, "AAAA"), Ok(1));
    refused(&table, Refusal::BadName, |t| t.mark(0, "AAAA"));
    for (name, number) in ["BAAA", "ABAA", "AABA", "AAAB"].into_iter().zip(2..) {
        refused(&table, Refusal::NoSuchMark, |t| t.drop(name));
        assert_eq!(table.mark(0, name), Ok(number));
    }
    table.drop("AAAA").unwrap();
    refused(&table, Refusal::NoSuchMark, |t| t.drop("AAAA"));
    assert_eq!(table.mark(0, "AAAA"), Ok(6));
}

/// "At most 64 boxes out, marked ones included." A drop "frees its number as a hand-in does, so that it
/// gives 4 until used again", in one order with joins and syncs.
#[test]
fn the_number_of_a_mark() {
    let mut table = fresh();
    assert!((1..62).all(|number| table.fork(0) == Ok(number)));
    assert_eq!((table.mark(0, "AAAA"), table.mark(62, "BBBB")), (Ok(62), Ok(63)));
    refused(&table, Refusal::NoneLeft, |t| t.fork(0));
    refused(&table, Refusal::NoneLeft, |t| t.mark(0, "four"));
    assert_eq!((table.join(0, 40), table.drop("BBBB"), table.join(0, 7)), (Ok(0), Ok(()), Ok(0)));
    assert_eq!((table.drop("AAAA"), table.fork(0), table.sync(5)), (Ok(()), Ok(40), Ok(63)));
    for revision in [7, 62] {
        refused(&table, Refusal::Joined, |t| t.fork(revision));
        refused(&table, Refusal::Joined, |t| t.list(revision, &mut []));
        refused(&table, Refusal::Joined, |t| t.mark(revision, "CCCC"));
    }
    assert_eq!((table.mark(0, "AAAA"), table.fork(0), table.fork(7)), (Ok(7), Ok(62), Ok(5)));
    refused(&table, Refusal::NoneLeft, |t| t.fork(0));
}

/// "Single-main days have no marks: mark gives 15."
#[test]
fn single_main_days_have_no_marks() {
    let mut table = fresh_for(Day::SingleMain);
    assert_eq!((table.fork(0), table.fork(0), table.join(0, 2)), (Ok(1), Ok(2), Ok(0)));
    table.query(1, 1, 7).unwrap();
    for (revision, refusal) in [
        (3, Refusal::NeverGiven),
        (2, Refusal::Joined),
        (1, Refusal::OffTheLine),
        (0, Refusal::OffTheLine),
    ] {
        refused(&table, refusal, |t| t.mark(revision, "JURY"));
        refused(&table, refusal, |t| t.mark(revision, "jury"));
    }
    refused(&table, Refusal::NoSuchMark, |t| t.drop("JURY"));
}

/// The wrapper tells the marks that are out, and no others.
#[test]
fn the_marks_that_are_out() {
    let mut table = busy();
    let marks = |table: &Table<Vec<u8>>| table.marks().unwrap().collect::<Vec<_>>();
    let [jury, noon] = ["JURY", "NOON"].map(|name| Name::new(name).unwrap());
    assert_eq!(marks(&table), [Mark { revision: 4, name: jury }]);
    assert_eq!((table.fork(4), table.mark(5, noon)), (Ok(5), Ok(6)));
    assert_eq!(
        marks(&table),
        [(4, jury), (6, noon)].map(|(revision, name)| Mark { revision, name })
    );
    table.drop(jury).unwrap();
    assert_eq!(marks(&table), [Mark { revision: 6, name: noon }]);
    assert!(marks(&fresh()).is_empty());
    // On bytes that no day made: box 0 is no mark, and four bytes may be no name.
    let mut bytes = table.table.into_bytes();
    (bytes[STATE], bytes[STATE + 1]) = (3, 3);
    bytes[NAMES..NAMES + 4].copy_from_slice(b"MAIN");
    assert_eq!(marks(&Table::from_bytes(bytes)), [Mark { revision: 6, name: noon }]);
    assert_eq!(Table::from_bytes([0; BYTES]).marks().err(), Some(Refusal::NoTable));
    assert_eq!(Table::from_bytes([0; 7]).marks().err(), Some(Refusal::NoTable));
    assert_eq!((jury.to_string(), format!("{noon:?}")), ("JURY".into(), "Name(\"NOON\")".into()));
}
