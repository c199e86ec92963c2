//! 02, U2 and U3, of the static library: "A struck bib stays struck", "No penalty without a time".

use calls::{BIBS, CLIENTS};
use silttongs::Kind::{Earliest, Penalty, Strike, Time};
use silttongs::Standing::{Neither, Struck, Timed};
use silttongs::{Kind, Refusal, Standing};

use super::fresh;

/// Enters updates of bib 7, and compares how it then stands.
fn stands(updates: &[(Kind, u32)], standing: Standing) {
    let mut table = fresh();
    for (&(kind, v), number) in updates.iter().zip(0..) {
        assert_eq!(table.update(0, 0, kind, 7, v), Ok(number), "{updates:?}");
    }
    assert_eq!(table.query(0, 0, 7), Ok(standing), "{updates:?}");
    assert_eq!(table.query(0, 0, 8), Ok(Neither), "another bib after {updates:?}");
}

#[test]
fn a_bib_is_struck_timed_or_neither() {
    stands(&[], Neither);
    stands(&[(Time, 61_000)], Timed(61_000));
    stands(&[(Time, u32::MAX)], Timed(u32::MAX));
    stands(&[(Time, 1), (Penalty, u32::MAX)], Neither);
    stands(&[(Strike, 9)], Struck);
    stands(&[(Time, 61_000), (Strike, 0)], Struck);
}

#[test]
fn strike_then_earliest() {
    stands(&[(Strike, 0), (Earliest, 60_000)], Struck);
    stands(&[(Time, 61_000), (Strike, 0), (Earliest, 60_000)], Struck);
}

#[test]
fn strike_then_penalty() {
    stands(&[(Strike, 0), (Penalty, 5_000)], Struck);
    stands(&[(Time, 61_000), (Strike, 0), (Penalty, 5_000), (Earliest, 1)], Struck);
}

#[test]
fn strike_then_time() {
    stands(&[(Strike, 0), (Time, 60_000)], Timed(60_000));
    stands(&[(Strike, 0), (Penalty, 5_000), (Time, 60_000), (Penalty, 1)], Timed(60_001));
    stands(&[(Strike, 0), (Time, 60_000), (Strike, 0)], Struck);
}

#[test]
fn strike_then_time_0() {
    stands(&[(Strike, 0), (Time, 0)], Neither);
    stands(&[(Time, 61_000), (Strike, 0), (Time, 0), (Earliest, 9)], Timed(9));
}

/// U3: "A Penalty on value 0 has no effect".
#[test]
fn no_penalty_without_a_time() {
    stands(&[(Penalty, 5_000)], Neither);
    stands(&[(Penalty, 5_000), (Earliest, 60_000)], Timed(60_000));
    stands(&[(Time, 1), (Penalty, u32::MAX), (Penalty, 5)], Neither);
    stands(&[(Time, 7), (Penalty, 0)], Timed(7));
}

/// "Referees strike a bib, then a late box brings an Earliest entry".
#[test]
fn a_late_box_does_not_lift_a_strike() -> Result<(), Refusal> {
    for (kind, standing) in [(Earliest, Struck), (Penalty, Struck), (Time, Timed(60_000))] {
        let mut table = fresh();
        table.fork(0)?;
        table.update(1, 1, kind, 7, 60_000)?;
        table.yield_(1)?;
        table.update(0, 0, Strike, 7, 0)?;
        table.yield_(0)?;
        table.join(0, 1)?;
        assert_eq!(table.query(2, 0, 7), Ok(standing), "{kind:?}");
    }
    Ok(())
}

/// "a refused one neither": the wrapper panics at any other state in a refusal.
#[test]
fn a_refused_query_of_a_struck_bib_answers_neither() -> Result<(), Refusal> {
    let mut table = fresh();
    table.fork(0)?;
    table.update(0, 0, Strike, 7, 0)?;
    let before = table.clone();
    assert_eq!(table.query(CLIENTS, 0, 7), Err(Refusal::UnknownClient));
    assert_eq!(table.query(0, 2, 7), Err(Refusal::NeverGiven));
    assert_eq!(table.query(0, 0, BIBS + 7), Err(Refusal::BadEntry));
    assert_eq!(table.query(0, 1, 7), Err(Refusal::OpenElsewhere));
    assert_eq!(table.query(1, 0, 7), Err(Refusal::InUse));
    assert!(table == before);
    assert_eq!(table.query(0, 0, 7), Ok(Struck));
    table.yield_(0)?;
    assert_eq!(table.query(0, 1, 7), Err(Refusal::Stale));
    table.join(0, 1)?;
    assert_eq!(table.query(0, 1, 7), Err(Refusal::Joined));
    Ok(())
}
