//! 02, U7: wrong numberings are found by the literal replay. Each is the baseline with some cells
//! changed before or after a fork or a join, as by a table that leaves something of a number's earlier
//! bearer, or takes another number than it should.

use calls::{Answer, Call, Code, BOARD};
use days::{disagreement_by, must_find, Profile};

/// Where the parts lie: docs/CELLS.md.
const ROWS: usize = 0;
const SEEN: usize = 38_400;
const CAUGHT: usize = 38_912;
const STATE: usize = 39_040;
const USED: usize = 39_104;
const COUNT: usize = 39_424;
const BASE: usize = 39_552;
const QUEUE: usize = 39_744;
const OUT: usize = 39_826;
const GIVEN: usize = 39_827;

/// A table with a wrong numbering.
struct Table {
    bytes: Vec<u8>,
    /// The numbers in the order in which they were first handed in.
    first: Vec<u8>,
}

/// Makes a call, wrongly.
type Wrong = fn(&mut Table, &Call) -> Answer;

const WRONG: [(&str, Wrong); 18] = [
    ("the number handed in last", |table, call| {
        before_fork(table, call, |t| {
            let free = queue(t);
            free.rotate_right(free.len().min(1));
        })
    }),
    ("a used number while an unused one is left", |table, call| {
        let given = table.bytes[GIVEN];
        if queue(&mut table.bytes).is_empty() {
            return right(table, call);
        }
        let answer = before_fork(table, call, |t| t[GIVEN] = 64);
        table.bytes[GIVEN] = given;
        answer
    }),
    ("10 if 64 were ever started", |table, call| {
        before_fork(table, call, |t| t[OUT] = if t[GIVEN] == 64 { 64 } else { t[OUT] })
    }),
    ("10 if 63 are out", |table, call| {
        before_fork(table, call, |t| t[OUT] = if t[OUT] == 63 { 64 } else { t[OUT] })
    }),
    ("a number is given twice", |table, call| {
        after_fork(table, call, |before, t, _, _| copy(before, t, QUEUE, 64))
    }),
    ("a hand-in is forgotten", |table, call| {
        after_join(table, call, |before, t, _| copy(before, t, QUEUE, 64))
    }),
    ("hand-ins by number and not by time", |table, call| {
        after_join(table, call, |_, t, _| queue(t).sort_unstable())
    }),
    ("hand-ins by the first of each number", |table, call| {
        let mut first = table.first.clone();
        let answer = after_join(table, call, |_, t, joinee| {
            if !first.contains(&joinee) {
                first.push(joinee);
            }
            queue(t).sort_by_key(|number| first.iter().position(|other| other == number));
        });
        table.first = first;
        answer
    }),
    ("a refused fork takes a number", |table, call| {
        let answer = right(table, call);
        if let (Call::Fork { .. }, Code::InUse, 64) = (call, answer.code, table.bytes[GIVEN]) {
            let free = queue(&mut table.bytes);
            free.rotate_left(free.len().min(1));
        }
        answer
    }),
    ("a number means its earlier bearer", |table, call| {
        after_fork(table, call, |before, t, _, child| {
            if before[STATE + child] != 0 {
                t[STATE + child] = before[STATE + child];
            }
        })
    }),
    ("who had seen the earlier bearer's fork still has", |table, call| {
        after_fork(table, call, |before, t, forker, child| {
            for row in (0..64).filter(|&row| row != forker && row != child) {
                t[SEEN + 8 * row + child / 8] |=
                    before[SEEN + 8 * row + child / 8] & 1 << (child % 8);
            }
        })
    }),
    ("what the earlier bearer had seen", |table, call| {
        after_fork(table, call, |before, t, _, child| add(before, t, SEEN + 8 * child, 8))
    }),
    ("who had caught up with the earlier bearer still has", |table, call| {
        after_fork(table, call, |before, t, _, child| {
            for row in 0..16 {
                t[CAUGHT + 8 * row + child / 8] |=
                    before[CAUGHT + 8 * row + child / 8] & 1 << (child % 8);
            }
        })
    }),
    ("no one has caught up with the new bearer", |table, call| {
        after_fork(table, call, |_, t, _, child| {
            (0..16).for_each(|row| t[CAUGHT + 8 * row + child / 8] &= !(1 << (child % 8)));
        })
    }),
    ("the earlier bearer's row is left in use", |table, call| {
        after_fork(table, call, |before, t, _, child| add(before, t, USED + child, 1))
    }),
    ("the earlier bearer's row is added to", |table, call| {
        after_fork(table, call, |before, t, _, child| add(before, t, ROWS + 512 * (child - 1), 512))
    }),
    ("the earlier bearer's own count is left", |table, call| {
        after_fork(table, call, |before, t, _, child| copy(before, t, COUNT + 2 * child, 2))
    }),
    ("the earlier bearer's base is left", |table, call| {
        after_fork(table, call, |before, t, _, child| copy(before, t, BASE + 2 * child, 2))
    }),
];

/// The places of the queue that are in use.
fn queue(t: &mut [u8]) -> &mut [u8] {
    let free = usize::from(t[GIVEN].saturating_sub(t[OUT]));
    &mut t[QUEUE..QUEUE + free]
}

/// Some bytes as they were.
fn copy(before: &[u8], t: &mut [u8], at: usize, length: usize) {
    t[at..at + length].copy_from_slice(&before[at..at + length]);
}

/// The flags that were set, too.
fn add(before: &[u8], t: &mut [u8], at: usize, length: usize) {
    let flags = t[at..at + length].iter_mut().zip(&before[at..]);
    flags.for_each(|(flag, before)| *flag |= before);
}

fn right(table: &mut Table, call: &Call) -> Answer {
    baseline::call(&mut table.bytes, &mut [0; BOARD], call).unwrap_or_else(Answer::refused)
}

/// Makes the call, before a fork on changed cells. A refused one leaves what there was.
fn before_fork(table: &mut Table, call: &Call, change: impl Fn(&mut [u8])) -> Answer {
    let before = table.bytes.clone();
    if let Call::Fork { .. } = call {
        change(&mut table.bytes);
    }
    let answer = right(table, call);
    if answer.code != Code::Accepted {
        table.bytes = before;
    }
    answer
}

/// Makes the call, and changes cells after an accepted fork: by what they were, forker and new number.
fn after_fork(
    table: &mut Table,
    call: &Call,
    change: impl Fn(&[u8], &mut [u8], usize, usize),
) -> Answer {
    let before = table.bytes.clone();
    let answer = right(table, call);
    if let (Call::Fork { revision }, Code::Accepted) = (call, answer.code) {
        change(&before, &mut table.bytes, usize::from(*revision), answer.value as usize);
    }
    answer
}

/// Makes the call, and changes cells after an accepted join: by what they were, and the joinee.
fn after_join(
    table: &mut Table,
    call: &Call,
    mut change: impl FnMut(&[u8], &mut [u8], u8),
) -> Answer {
    let before = table.bytes.clone();
    let answer = right(table, call);
    if let (&Call::Join { joinee, .. }, Code::Accepted) = (call, answer.code) {
        change(&before, &mut table.bytes, joinee);
    }
    answer
}

/// Makes the call, wrongly; a sync by the wrong join and the wrong fork.
fn made(table: &mut Table, call: &Call, wrong: Wrong) -> Answer {
    let Call::Sync { revision } = *call else { return wrong(table, call) };
    let joined = wrong(table, &Call::Join { joiner: 0, joinee: revision });
    match joined.code {
        Code::Accepted => wrong(table, &Call::Fork { revision: 0 }),
        _ => joined,
    }
}

#[test]
fn wrong_numberings_are_found() {
    let kinds = [Profile::REUSED, Profile::REUSED_NESTED, Profile::CROWDED];
    for (name, wrong) in WRONG {
        let by_wrong = |calls: &[Call]| {
            let bytes = baseline::Day::fresh().bytes().to_vec();
            let mut table = Table { bytes, first: Vec::new() };
            disagreement_by(calls, |call| made(&mut table, call, wrong))
        };
        must_find(name, kinds.into_iter().flat_map(|kind| kind.days(0..8)), by_wrong);
    }
}
