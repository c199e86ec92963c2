//! 02, U4, on random days: each bundle is its updates one by one and then a yield, or, if one of them
//! would be refused, changes nothing. And wrong bundles are found.

use calls::{Answer, Call, Code, Line, BIBS, BUNDLE, CLIENTS, UPDATES};
use days::{days_of, fault_of_bundles, must_find, must_pass, updates_of, Profile, Sample};
use literal::Day;

/// How many days of each kind are replayed.
const KINDS: [(Profile, u64); 9] = [
    (Profile::SMALL, 500),
    (Profile::MIXED, 200),
    (Profile::STALE, 200),
    (Profile::STRANGE, 200),
    (Profile::FULL, 2),
    (Profile::BUNDLES, 100),
    (Profile::NEARLY_FULL, 60),
    (Profile::REUSED, 6),
    (Profile::CROWDED, 6),
];

fn by_baseline(calls: &[Call]) -> Option<String> {
    fault_of_bundles(baseline::Day::fresh(), calls, baseline::Day::call)
}

#[test]
fn bundles_are_their_updates_and_a_yield() {
    must_pass(days_of(&KINDS), by_baseline);
}

/// Bundles of nearly every size are accepted, the log is filled by some to its last place, and others find
/// it full in their midst. Many continue an open transaction.
#[test]
fn bundles_of_every_kind_are_made() {
    let mut sizes = [0; BUNDLE + 1];
    let (mut filled, mut full_within, mut late_bad, mut continued) = (0, 0, 0, 0);
    let kinds = [Profile::BUNDLES, Profile::NEARLY_FULL];
    for Sample { calls, .. } in kinds.into_iter().flat_map(|kind| kind.days(0..60)) {
        let mut day = Day::fresh();
        for call in calls {
            let before = day.updates().len();
            let open = day.transactions().iter().filter(|t| t.is_open()).count();
            let code = day.call(&call).code;
            let Call::Bundle { ref records, .. } = call else { continue };
            let left = day.transactions().iter().filter(|t| t.is_open()).count();
            let count = records.len() / Line::BYTES;
            match code {
                Code::Accepted => {
                    sizes[count] += 1;
                    filled += usize::from(before + count == UPDATES);
                    continued += usize::from(left < open);
                }
                Code::LogFull => full_within += usize::from(before < UPDATES),
                Code::BadEntry => late_bad += usize::from(good(records)),
                _ => {}
            }
        }
    }
    let met = sizes.iter().filter(|&&times| times > 0).count();
    assert!(met >= 60 && sizes[1] >= 50 && sizes[BUNDLE] >= 50, "{sizes:?}");
    let met = [filled, full_within, late_bad, continued];
    assert!(met.iter().all(|&times| times >= 20), "{met:?}");
}

/// Whether the first record has a good kind and bib.
fn good(records: &[u8]) -> bool {
    let (whole, _) = records.as_chunks();
    let Line { kind, bib, .. } = Line::from_bytes(whole[0]);
    (1..=4).contains(&kind) && bib < BIBS
}

/// What a wrong bundle answers and does.
type Wrong = fn(&mut Day, u8, u8, &[u8]) -> Answer;

const WRONG: [(&str, Wrong); 13] = [
    ("the entries before a refused one are kept", |day, client, revision, records| {
        let whole = right(&mut day.clone(), client, revision, records);
        if whole.code != Code::WrongBundle && whole.code != Code::Accepted {
            for update in updates_of(client, revision, records) {
                day.call(&update);
            }
            return whole;
        }
        right(day, client, revision, records)
    }),
    ("no yield", |day, client, revision, records| {
        let answer = right(&mut day.clone(), client, revision, records);
        if answer.code == Code::Accepted {
            updates_of(client, revision, records).for_each(|update| _ = day.call(&update));
        }
        answer
    }),
    ("the code of the last refused entry", |day, client, revision, records| {
        let mut copy = day.clone();
        let codes = updates_of(client, revision, records).map(|update| copy.call(&update).code);
        let last = codes.filter(|&code| code != Code::Accepted).last();
        match (right(day, client, revision, records), last) {
            (answer, Some(last)) if answer.code != Code::WrongBundle => Answer::refused(last),
            (answer, _) => answer,
        }
    }),
    ("the last entry's number", |day, client, revision, records| {
        let answer = right(day, client, revision, records);
        let more = (records.len() / Line::BYTES).saturating_sub(1) as u32;
        Answer {
            value: if answer.code == Code::Accepted { answer.value + more } else { 0 },
            ..answer
        }
    }),
    ("65 entries are taken", |day, client, revision, records| {
        if records.len() != (BUNDLE + 1) * Line::BYTES {
            return right(day, client, revision, records);
        }
        let mut copy = day.clone();
        let mut answers = updates_of(client, revision, records).map(|update| copy.call(&update));
        let first = answers.next().unwrap();
        if let Some(refused) = answers.find(|answer| answer.code != Code::Accepted) {
            return refused;
        }
        copy.call(&Call::Yield { client });
        *day = copy;
        first
    }),
    ("the client in the record is believed", |day, client, revision, records| {
        let client = records.get(1).copied().unwrap_or(client);
        right(day, client, revision, records)
    }),
    ("bytes left over are dropped", |day, client, revision, records| {
        let whole = records.len() - records.len() % Line::BYTES;
        right(day, client, revision, &records[..whole])
    }),
    ("an empty bundle is a yield", |day, client, revision, records| match records {
        [] => day.call(&Call::Yield { client }),
        _ => right(day, client, revision, records),
    }),
    ("a wrong bundle is found after 2 and 3", |day, client, revision, records| {
        let known = day.meant(revision).is_some();
        match (client, known) {
            (CLIENTS.., _) => Answer::refused(Code::UnknownClient),
            (_, false) => Answer::refused(Code::NeverGiven),
            _ => right(day, client, revision, records),
        }
    }),
    ("bad entries before all else", |day, client, revision, records| {
        let answer = right(day, client, revision, records);
        let refused = ![Code::Accepted, Code::WrongBundle].contains(&answer.code);
        let bad = |bytes: &[u8; Line::BYTES]| !good(bytes);
        match refused && records.as_chunks().0.iter().any(bad) {
            true => Answer::refused(Code::BadEntry),
            false => answer,
        }
    }),
    ("a log too short before bad entries", |day, client, revision, records| {
        let after = day.updates().len() + records.len() / Line::BYTES;
        let answer = right(day, client, revision, records);
        match answer.code {
            Code::BadEntry if after > UPDATES => Answer::refused(Code::LogFull),
            _ => answer,
        }
    }),
    ("an open transaction is in the way", |day, client, revision, records| {
        let mut open = day.transactions().iter().filter(|t| t.is_open());
        let busy = open.any(|t| Some(t.revision) == day.meant(revision));
        let answer = right(&mut day.clone(), client, revision, records);
        match busy && answer.code == Code::Accepted {
            true => Answer::refused(Code::InUse),
            false => right(day, client, revision, records),
        }
    }),
    ("an open transaction is closed first", |day, client, revision, records| {
        if right(&mut day.clone(), client, revision, records).code == Code::Accepted {
            day.call(&Call::Yield { client });
        }
        right(day, client, revision, records)
    }),
];

fn right(day: &mut Day, client: u8, revision: u8, records: &[u8]) -> Answer {
    day.call(&Call::Bundle { client, revision, records: records.to_vec() })
}

#[test]
fn wrong_bundles_are_found() {
    let kinds = [Profile::BUNDLES, Profile::NEARLY_FULL, Profile::STRANGE];
    for (name, wrong) in WRONG {
        let by_wrong = |calls: &[Call]| {
            fault_of_bundles(Day::fresh(), calls, |day, call| match *call {
                Call::Bundle { client, revision, ref records } => {
                    wrong(day, client, revision, records)
                }
                _ => day.call(call),
            })
        };
        must_find(name, kinds.into_iter().flat_map(|kind| kind.days(0..60)), by_wrong);
    }
}
