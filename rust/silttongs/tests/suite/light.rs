//! 02, U11, on the library: every join leaves the table but at 256 places at most, and every sync but at
//! 512. Buffers that no day made are judged in damaged.rs.

use calls::{Answer, Call, Line};
use days::{chains_of_joins, days_of, late_days, must_pass, one_in, seeds, Heaviest, Profile};
use silttongs::BUNDLE;

use super::given::{answered, Bytes};

/// The most places seen are printed with `--nocapture`.
#[test]
fn joins_and_syncs_of_random_days() {
    let heaviest = Heaviest::default();
    let fault = |calls: &[Call]| heaviest.fault(Bytes::fresh(), calls, answered);
    let small = [
        (Profile::SMALL, 800),
        (Profile::SMALL_REUSED, 20),
        (Profile::SMALL_SINGLE_MAIN, 150),
        (Profile::SMALL_MARKED, 250),
    ];
    must_pass(one_in(1), fault);
    must_pass(days_of(&small), fault);
    must_pass(chains_of_joins(seeds(60)), fault);
    must_pass(late_days(), fault);
    println!("random days: {heaviest}");
}

/// "however many updates it brings over": none, one, and a full log.
#[test]
fn joins_of_many_updates() {
    let record = Line { kind: 1, client: 0, bib: 7, v: 1, number: 0 }.to_bytes();
    for count in [0, 1, 4_096] {
        let mut t = Bytes::fresh();
        answered(&mut t, &Call::Fork { revision: 0 });
        let records = record.repeat(count);
        for part in records.chunks(BUNDLE * Line::BYTES) {
            answered(&mut t, &Call::Bundle { client: 0, revision: 1, records: part.to_vec() });
        }
        let (before, join) = (t.clone(), Call::Join { joiner: 0, joinee: 1 });
        assert_eq!(answered(&mut t, &join), Answer::accepted(count as u32));
        let heaviest = Heaviest::default();
        assert_eq!(heaviest.fault_of(&join, &before.table, &t.table), None);
        println!("{count} updates: {heaviest}");
    }
}
