//! 02, U6: "the state and value at the joiner's line end and the gain, equal to joining on a copy of
//! the table and reading there. Every byte of the real table stays."

use calls::{Answer, Call, Code, Line, BIBS, CLIENTS, SHEET};
use literal::Update;

use crate::copies::fault_on_copies;
use crate::facts::stands;

/// The first preview of a day that is not the join on a copy, read there in each way there is, or
/// that changes the day, in words. `make` makes one call; it is asked for the join, a list and
/// queries on a copy.
pub fn fault_of_previews<D: Clone + PartialEq>(
    day: D,
    calls: &[Call],
    make: impl Fn(&mut D, &Call) -> Answer,
) -> Option<String> {
    fault_on_copies(day, calls, &make, |call, before| match *call {
        Call::Preview { joiner, joinee, bib } => {
            let mut copy = before.clone();
            let joined = make(&mut copy, &Call::Join { joiner, joinee });
            let right = if joined.code != Code::Accepted {
                vec![Answer::refused(joined.code)]
            } else if bib >= BIBS {
                vec![Answer::refused(Code::BadEntry)]
            } else {
                let listed = listed(&mut copy, joiner, bib, &make);
                let told = |read: Answer| Answer { gain: joined.value, ..read };
                [listed]
                    .into_iter()
                    .chain(queried(&mut copy, joiner, bib, &make))
                    .map(told)
                    .collect()
            };
            Some((right, before))
        }
        _ => None,
    })
}

/// What the updates listed on a revision make of a bib, each applied as the literal replay does; or
/// the refusal of the list.
fn listed<D>(
    day: &mut D,
    revision: u8,
    bib: u16,
    make: impl Fn(&mut D, &Call) -> Answer,
) -> Answer {
    let list = make(day, &Call::List { revision, room: SHEET });
    if list.code != Code::Accepted {
        return list;
    }
    let update = |&Line { kind, client, bib, v, .. }: &Line| Update { kind, client, bib, v };
    let (state, value) = stands(list.lines.iter().map(update), bib);
    Answer::found(state, value)
}

/// What the first client that may query finds; none if no client may. Every transaction is closed
/// before that, which changes no value.
fn queried<D>(
    day: &mut D,
    revision: u8,
    bib: u16,
    make: impl Fn(&mut D, &Call) -> Answer,
) -> Option<Answer> {
    for client in 0..CLIENTS {
        make(day, &Call::Yield { client });
    }
    let mut queries = (0..CLIENTS).map(|client| make(day, &Call::Query { client, revision, bib }));
    queries.find(|answer| answer.code == Code::Accepted)
}
