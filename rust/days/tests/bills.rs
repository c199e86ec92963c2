//! 02, U14, on random days: after every step a bill is that of the boxes started and the updates accepted,
//! counted from the calls and their answers, and none is lower than one before it. And wrong bills are found.

use calls::{Answer, Call, Code, Line};
use days::{
    bill_of, chains_of_joins, days_of, fault_of_bills, must_find, must_pass, one_in, seeds, Profile,
};
use literal::Day;

/// By the literal replay, and by the baseline.
fn by_either(calls: &[Call]) -> Option<String> {
    fault_of_bills(Day::fresh(), calls, Day::call)
        .or_else(|| fault_of_bills(baseline::Day::fresh(), calls, baseline::Day::call))
}

#[test]
fn bills_are_those_of_the_history() {
    must_pass(one_in(4), by_either);
    must_pass(Profile::SMALL.days(seeds(200)), by_either);
    must_pass(Profile::SMALL_REUSED.days(seeds(30)), by_either);
    must_pass(Profile::SMALL_MARKED.days(seeds(200)), by_either);
    must_pass(Profile::SMALL_SINGLE_MAIN.days(seeds(100)), by_either);
    must_pass(chains_of_joins(seeds(10)), by_either);
}

/// "Eight boxes and 1,201 updates cost a member 2,878 cents; three boxes and 250 updates cost 2,000."
#[test]
fn the_examples_of_02() {
    for (boxes, updates, [member, other]) in [(8, 1_201, [2_878, 3_385]), (3, 250, [2_000; 2])] {
        let (mut day, mut literal) = (baseline::Day::fresh(), Day::fresh());
        let mut both = |call: &Call| {
            let answer = day.call(call);
            assert_eq!(literal.call(call), answer, "`{call}`");
            answer
        };
        for _ in 1..boxes {
            both(&Call::Fork { revision: 0 });
        }
        for v in 0..updates {
            both(&Call::Update { client: 0, revision: 0, kind: 1, bib: 7, v });
        }
        assert_eq!(both(&Call::Bill { member: true }), Answer::accepted(member));
        assert_eq!(both(&Call::Bill { member: false }), Answer::accepted(other));
    }
}

/// "the count stops at 65,535 and stays there"
#[test]
fn the_count_stops() {
    let mut day = baseline::Day::fresh();
    let mut revision = day.call(&Call::Fork { revision: 0 }).value as u8;
    for boxes in 2..65_540 {
        let answer = day.call(&Call::Bill { member: false });
        assert_eq!(answer, Answer::accepted(bill_of(boxes, 0, false)), "{boxes} boxes");
        revision = day.call(&Call::Sync { revision }).value as u8;
    }
    assert_eq!(day.call(&Call::Bill { member: false }), Answer::accepted(350 * 65_535));
}

/// What a wrong bill counts.
#[derive(Clone, Copy, Default)]
struct Counts {
    forks: u32,
    syncs: u32,
    marks: u32,
    refused: u32,
    joins: u32,
    updates: u32,
}

impl Counts {
    fn learn(&mut self, call: &Call, answer: &Answer) {
        let one = u32::from(answer.code == Code::Accepted);
        match *call {
            Call::Fork { .. } => {
                self.forks += one;
                self.refused += 1 - one;
            }
            Call::Sync { .. } => self.syncs += one,
            Call::Mark { .. } => self.marks += one,
            Call::Join { .. } => self.joins += one,
            Call::Update { .. } => self.updates += one,
            Call::Bundle { ref records, .. } => {
                self.updates += one * (records.len() / Line::BYTES) as u32;
            }
            Call::Fresh { .. } if one == 1 => *self = Counts::default(),
            _ => {}
        }
    }

    /// The boxes started.
    fn boxes(&self) -> u32 {
        1 + self.forks + self.syncs
    }
}

/// A sum with the discount and the least as they are.
fn cents(sum: u32, member: bool) -> u32 {
    let discount = if member { 15 * sum / 100 } else { 0 };
    (sum - discount).max(2_000)
}

type Wrong = fn(&Counts, bool) -> u32;

const WRONG: [(&str, Wrong); 11] = [
    ("marks are counted", |c, m| bill_of(c.boxes() + c.marks, c.updates, m)),
    ("a sync is not counted", |c, m| bill_of(1 + c.forks, c.updates, m)),
    ("a sync is counted twice", |c, m| bill_of(c.boxes() + c.syncs, c.updates, m)),
    ("a refused fork is counted", |c, m| bill_of(c.boxes() + c.refused, c.updates, m)),
    ("the main box is not counted", |c, m| bill_of(c.boxes() - 1, c.updates, m)),
    ("boxes handed in are not counted", |c, m| {
        bill_of(c.boxes().saturating_sub(c.joins + c.syncs), c.updates, m)
    }),
    ("whole hundreds alone are counted", |c, m| cents(350 * c.boxes() + 45 * (c.updates / 100), m)),
    ("a hundred costs two", |c, m| cents(350 * c.boxes() + 45 * (c.updates / 100 + 1), m)),
    ("the discount is rounded up", |c, m| {
        let sum = 350 * c.boxes() + 45 * c.updates.div_ceil(100);
        (sum - if m { (15 * sum).div_ceil(100) } else { 0 }).max(2_000)
    }),
    ("the least comes before the discount", |c, m| {
        let sum = (350 * c.boxes() + 45 * c.updates.div_ceil(100)).max(2_000);
        sum - if m { 15 * sum / 100 } else { 0 }
    }),
    ("everybody is a member", |c, _| bill_of(c.boxes(), c.updates, true)),
];

#[test]
fn wrong_bills_are_found() {
    // The second begin with many boxes and no update.
    let kinds = [(Profile::MARKED, 100), (Profile::CROWDED_MARKED, 6)];
    for (name, wrong) in WRONG {
        let by_wrong = |calls: &[Call]| {
            let day = (Day::fresh(), Counts::default());
            fault_of_bills(day, calls, |(day, counts), call| match *call {
                Call::Bill { member } => Answer::accepted(wrong(counts, member)),
                _ => {
                    let answer = day.call(call);
                    counts.learn(call, &answer);
                    answer
                }
            })
        };
        must_find(name, days_of(&kinds), by_wrong);
    }
}
