//! Edges of the literal replay and of the baseline, call by call: those of 01, those of 02's
//! requests, and the readings of docs/DECISIONS.md.

mod bills;
mod boards;
mod bundles;
mod courses;
mod fills;
mod marks;
mod numbers;
mod orders;
mod previews;
mod race_day;
mod readings;
mod single_main;
mod struck;

use calls::{order_file, Answer, Call};

const TIME: u8 = 1;
const EARLIEST: u8 = 2;
const PENALTY: u8 = 3;
const STRIKE: u8 = 4;

fn update(client: u8, revision: u8, kind: u8, bib: u16, v: u32) -> Call {
    Call::Update { client, revision, kind, bib, v }
}

fn query(client: u8, revision: u8, bib: u16) -> Call {
    Call::Query { client, revision, bib }
}

fn yields(client: u8) -> Call {
    Call::Yield { client }
}

fn fork(revision: u8) -> Call {
    Call::Fork { revision }
}

fn join(joiner: u8, joinee: u8) -> Call {
    Call::Join { joiner, joinee }
}

fn list(revision: u8, room: usize) -> Call {
    Call::List { revision, room }
}

fn fill(revision: u8) -> Call {
    Call::Fill { revision }
}

fn preview(joiner: u8, joinee: u8, bib: u16) -> Call {
    Call::Preview { joiner, joinee, bib }
}

fn sync(revision: u8) -> Call {
    Call::Sync { revision }
}

fn mark(revision: u8, name: impl AsRef<[u8]>) -> Call {
    Call::Mark { revision, name: name.as_ref().to_vec() }
}

fn drop_mark(name: impl AsRef<[u8]>) -> Call {
    Call::Drop { name: name.as_ref().to_vec() }
}

fn verify(numbers: &[u16]) -> Call {
    verify_file(order_file(numbers))
}

fn verify_file(order: Vec<u8>) -> Call {
    Call::Verify { order }
}

/// Makes the table fresh: an ordinary day.
fn ordinary() -> Call {
    Call::Fresh { single_main: false }
}

/// Makes the table fresh: a single-main day.
fn single_main() -> Call {
    Call::Fresh { single_main: true }
}

/// The answers of both implementations, which are the same.
fn answers(calls: &[Call]) -> Vec<Answer> {
    let (mut literal, mut baseline) = (literal::Day::fresh(), baseline::Day::fresh());
    let by_literal: Vec<Answer> = calls.iter().map(|call| literal.call(call)).collect();
    let by_baseline: Vec<Answer> = calls.iter().map(|call| baseline.call(call)).collect();
    assert_eq!(by_literal, by_baseline);
    by_literal
}

/// A call, and the code and value that it answers with, as in 01's printed day.
type Row = (Call, u8, u32);

/// Makes the calls of one day, and compares each answer's code and value.
#[track_caller]
fn day(rows: &[Row]) {
    let calls: Vec<Call> = rows.iter().map(|row| row.0.clone()).collect();
    for (at, (answer, (call, code, value))) in answers(&calls).iter().zip(rows).enumerate() {
        let given = (answer.code.number(), answer.value);
        assert_eq!(given, (*code, *value), "row {at}: {call}");
    }
}

/// A day of these rows, and then a call that is refused with this code.
#[track_caller]
fn refused_after(rows: &[Row], call: Call, code: u8) {
    day(&[rows, &[(call, code, 0)]].concat());
}

/// Revision 1 is forked and gets an update of bib 7, as kind and argument. Then revision 0 gets one.
fn late_update(late: (u8, u32), since: (u8, u32)) -> [Call; 5] {
    [
        fork(0),
        update(1, 1, late.0, 7, late.1),
        yields(1),
        update(0, 0, since.0, 7, since.1),
        yields(0),
    ]
}

/// Revision 3 was joined, 1 and 2 are busy with clients 1 and 2, and client 4 has caught up with 0
/// alone.
fn busy_revisions() -> [Row; 8] {
    [
        (fork(0), 0, 1),
        (fork(0), 0, 2),
        (fork(0), 0, 3),
        (join(0, 3), 0, 0),
        (update(1, 1, TIME, 1, 1), 0, 0),
        (update(2, 2, TIME, 1, 1), 0, 1),
        (query(4, 0, 1), 0, 0),
        (yields(4), 0, 0),
    ]
}
