//! 02, U4: "The outcome equals sending the updates one by one and then a yield. If any of them would
//! be refused, the code of the earliest is given and the table keeps every byte."

use calls::{Answer, Call, Code, Line, BUNDLE};

use crate::copies::fault_on_copies;

/// The first bundle of a day that is not its updates one by one and then a yield, in answer or in what
/// it leaves, in words. `make` makes one call; it is asked for the updates and the yield on a copy.
pub fn fault_of_bundles<D: Clone + PartialEq>(
    day: D,
    calls: &[Call],
    make: impl Fn(&mut D, &Call) -> Answer,
) -> Option<String> {
    fault_on_copies(day, calls, &make, |call, before| match *call {
        Call::Bundle { client, revision, ref records } => {
            let mut after = before.clone();
            let answer = singly(&mut after, client, revision, records, &make);
            let left = if answer.code == Code::Accepted { after } else { before };
            Some((vec![answer], left))
        }
        _ => None,
    })
}

/// The updates of a bundle, by the client and on the revision that it names. Bytes left over are not
/// looked at.
pub fn updates_of(client: u8, revision: u8, records: &[u8]) -> impl Iterator<Item = Call> + '_ {
    let (whole, _) = records.as_chunks();
    whole.iter().map(move |&record| {
        let Line { kind, bib, v, .. } = Line::from_bytes(record);
        Call::Update { client, revision, kind, bib, v }
    })
}

/// What a bundle answers, if the updates and the yield are made on this day, up to the first that is
/// refused.
fn singly<D>(
    day: &mut D,
    client: u8,
    revision: u8,
    records: &[u8],
    make: impl Fn(&mut D, &Call) -> Answer,
) -> Answer {
    let (whole, rest) = records.as_chunks::<{ Line::BYTES }>();
    if !rest.is_empty() || !(1..=BUNDLE).contains(&whole.len()) {
        return Answer::refused(Code::WrongBundle);
    }
    let all = updates_of(client, revision, records).chain([Call::Yield { client }]);
    let made = all.map(|call| match make(day, &call) {
        Answer { code: Code::Accepted, value, .. } => Ok(value),
        Answer { code, .. } => Err(code),
    });
    let values: Result<Vec<u32>, Code> = made.collect();
    values.map_or_else(Answer::refused, |values| Answer::accepted(values[0]))
}
