//! 02, U11, on random days, by the baseline: joins and syncs leave the table but at few places. And
//! heavy joins and syncs are found: each is the baseline with some more bytes written.

use calls::{Answer, Call, Code, BOARD};
use days::{chains_of_joins, must_find, must_pass, one_in, seeds, Heaviest, Profile};

/// Where the parts lie: docs/CELLS.md.
const ROW: usize = 512;
const LINKS: usize = 32_256;
const ENTRIES: usize = 40_960;

/// The bytes of a table.
type Bytes = Vec<u8>;

fn fresh() -> Bytes {
    baseline::Day::fresh().bytes().to_vec()
}

/// Makes a call by the baseline.
fn right(t: &mut Bytes, call: &Call) -> Answer {
    baseline::call(t, &mut [0; BOARD], call).unwrap_or_else(Answer::refused)
}

#[test]
fn joins_and_syncs_are_light() {
    let heaviest = Heaviest::default();
    let by_baseline = |calls: &[Call]| heaviest.fault(fresh(), calls, right);
    must_pass(one_in(4), by_baseline);
    must_pass(chains_of_joins(seeds(30)), by_baseline);
    println!("by baseline: {heaviest}");
}

/// Writes more after a taken call, which answered so.
type Heavy = fn(&mut Bytes, &Call, &Answer);

const HEAVY: [(&str, Heavy); 4] = [
    ("a join that writes the joinee's row", |t, call, _| {
        if let Call::Join { joinee, .. } = *call {
            row(t, joinee).fill(0xff);
        }
    }),
    ("a join that rewrites the entries", |t, call, _| {
        if let Call::Join { .. } = *call {
            t[ENTRIES + 1..].iter_mut().step_by(6).for_each(|byte| *byte ^= 0x10);
        }
    }),
    ("a join that moves the links", |t, call, _| {
        if let Call::Join { .. } = *call {
            t[LINKS..LINKS + 4_096].rotate_right(1);
        }
    }),
    ("a sync whose fork writes a row", |t, call, answer| {
        if let Call::Sync { .. } = *call {
            row(t, answer.value as u8).fill(0xff);
        }
    }),
];

/// The row of a revision that is not the main one.
fn row(t: &mut Bytes, revision: u8) -> &mut [u8] {
    let end = ROW * usize::from(revision);
    &mut t[end - ROW..end]
}

#[test]
fn heavy_joins_and_syncs_are_found() {
    for (name, heavy) in HEAVY {
        let by_heavy = |calls: &[Call]| {
            Heaviest::default().fault(fresh(), calls, |t, call| {
                let answer = right(t, call);
                if answer.code == Code::Accepted {
                    heavy(t, call, &answer);
                }
                answer
            })
        };
        must_find(name, Profile::FULL.days(0..6), by_heavy);
    }
}
