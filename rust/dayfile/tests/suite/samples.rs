//! Files to try, and how the literal replay prints them.

use calls::{Answer, Call, Code, State};
use dayfile::{read_file, Record, LONGEST};
use days::{Rng, Sample};

/// A file with this header and so many bytes in all; what follows the header is 3 everywhere, so
/// every record is a yield of client 3.
pub(crate) fn file(count: u32, offset: u32, length: usize) -> Vec<u8> {
    let header = [count.to_le_bytes(), offset.to_le_bytes()].concat();
    header.into_iter().chain(std::iter::repeat(3)).take(length).collect()
}

/// Small numbers in most fields, so that many steps are taken; any byte in the others.
pub(crate) fn random_record(rng: &mut Rng) -> Record {
    let mut field = |small: usize| match rng.percent(90) {
        true => rng.below(small) as u8,
        false => rng.bits() as u8,
    };
    let bytes = [
        field(7),
        field(3),
        field(4),
        field(4),
        field(3),
        0,
        field(6),
        field(255),
        field(255),
        field(2),
        0,
        field(1),
    ];
    Record::from_bytes(bytes)
}

/// Fewer than so many.
pub(crate) fn random_records(rng: &mut Rng, most: usize) -> Vec<Record> {
    (0..rng.below(most)).map(|_| random_record(rng)).collect()
}

/// A record of a step, with any bytes in the fields that the step doesn't use.
pub(crate) fn record(call: &Call, rng: &mut Rng) -> Option<Record> {
    let any = Record::from_bytes(std::array::from_fn(|_| rng.bits() as u8));
    Some(match *call {
        Call::Update { client, revision, kind, bib, v } => {
            Record { step: 1, client, revision, kind, bib, v, ..any }
        }
        Call::Query { client, revision, bib } => Record { step: 2, client, revision, bib, ..any },
        Call::Yield { client } => Record { step: 3, client, ..any },
        Call::Fork { revision } => Record { step: 4, revision, ..any },
        Call::Join { joiner, joinee } => {
            Record { step: 5, revision: joiner, second: joinee, ..any }
        }
        Call::List { .. } | Call::Fill { .. } => return None,
        Call::Bundle { .. } | Call::Preview { .. } | Call::Verify { .. } => return None,
        Call::Bill { .. } | Call::OnBoard { .. } => return None,
        Call::Fresh { .. } | Call::Sync { .. } | Call::Mark { .. } | Call::Drop { .. } => {
            return None
        }
    })
}

/// A sync as a join and a fork, and a mark as a fork, so that the calls after it find the box that it
/// started.
fn unfolded(call: &Call) -> Vec<Call> {
    match *call {
        Call::Sync { revision } => {
            vec![Call::Join { joiner: 0, joinee: revision }, Call::Fork { revision: 0 }]
        }
        Call::Mark { revision, .. } => vec![Call::Fork { revision }],
        _ => vec![call.clone()],
    }
}

/// The file of some records, with any bytes between header and records.
pub(crate) fn with_gap(records: &[Record], gap: usize, rng: &mut Rng) -> Vec<u8> {
    let mut bytes = file(records.len() as u32, 8 + gap as u32, 8);
    bytes.extend((0..gap).map(|_| rng.bits() as u8));
    bytes.extend(records.iter().flat_map(|record| record.to_bytes()));
    bytes
}

/// A day, as far as it fits a file, with strange steps in it.
pub(crate) fn day_file(day: &Sample) -> Vec<u8> {
    let mut rng = Rng::new(day.seed);
    let mut records = Vec::new();
    for call in day.calls.iter().flat_map(unfolded) {
        if rng.percent(3) {
            let any = 6 + rng.below(250) as u8;
            records.push(Record { step: rng.pick(&[0, 6, 255, any]), ..random_record(&mut rng) });
        }
        records.extend(record(&call, &mut rng));
    }
    records.truncate(LONGEST / Record::SIZE - 20);
    let gap = rng.pick(&[0, 0, 1, 11, 12, 200]);
    with_gap(&records, gap, &mut rng)
}

/// The printed day, each step answered by the literal replay.
pub(crate) fn printed_by_literal(bytes: &[u8]) -> String {
    let Ok(records) = read_file(bytes) else { return "bad file\n".to_string() };
    let mut day = literal::Day::fresh();
    let mut text = format!("steps {}\n", records.len());
    for (index, record) in records.iter().enumerate() {
        let answer = match record.call() {
            Some(call) => day.call(&call),
            None => Answer::refused(Code::UnknownStep),
        };
        let code = answer.code.number();
        text += &match answer.state {
            State::Struck => format!("{index} {code} struck\n"),
            _ => format!("{index} {code} {}\n", answer.value),
        };
    }
    text
}
