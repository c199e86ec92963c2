//! 02, U6, on random days: each preview is the join on a copy, as a list and a query there have it,
//! and changes nothing. And wrong previews are found.

use calls::{Answer, Call, Code, State, BIBS, CLIENTS};
use days::{
    chains_of_joins, days_of, fault_of_previews, late_days, must_find, must_pass, seeds, stands,
    Profile, Sample,
};
use literal::Day;

/// How many days of each kind are replayed.
const KINDS: [(Profile, u64); 12] = [
    (Profile::SMALL, 500),
    (Profile::MIXED, 200),
    (Profile::NESTED, 200),
    (Profile::STALE, 200),
    (Profile::STRIKES, 200),
    (Profile::FORKS, 100),
    (Profile::STRANGE, 200),
    (Profile::BUNDLES, 100),
    (Profile::REUSED_NESTED, 6),
    (Profile::CROWDED, 6),
    (Profile::SINGLE_MAIN, 100),
    (Profile::MARKED, 100),
];

fn by_baseline(calls: &[Call]) -> Option<String> {
    fault_of_previews(baseline::Day::fresh(), calls, baseline::Day::call)
}

#[test]
fn previews_are_the_join_on_a_copy_and_what_is_read_there() {
    must_pass(days_of(&KINDS), by_baseline);
    must_pass(Profile::SMALL_REUSED.days(seeds(50)), by_baseline);
    must_pass(chains_of_joins(seeds(50)), by_baseline);
    must_pass(late_days(), by_baseline);
}

/// Previews find bibs in every state, changed by the join or not, and joins follow many of them.
#[test]
fn previews_of_every_kind_are_made() {
    let (mut states, mut changed, mut empty, mut joined) = ([0; 3], 0, 0, 0);
    let days = KINDS.into_iter().flat_map(|(profile, count)| profile.days(0..count / 2));
    for Sample { calls, .. } in days {
        let mut day = Day::fresh();
        for (at, call) in calls.iter().enumerate() {
            let answer = day.call(call);
            let Call::Preview { joiner, joinee, bib } = *call else { continue };
            if answer.code != Code::Accepted {
                continue;
            }
            states[answer.state as usize] += 1;
            let before = after(&day, visible(&day, joiner), bib);
            changed += usize::from(before != (answer.state, answer.value));
            empty += usize::from(answer.gain == 0);
            joined += usize::from(calls.get(at + 1) == Some(&Call::Join { joiner, joinee }));
        }
    }
    assert!(states.iter().all(|&times| times >= 100), "{states:?}");
    let met = [changed, empty, joined];
    assert!(met.iter().all(|&times| times >= 150), "{met:?}");
}

/// How a bib stands after the updates of these numbers, in this order.
fn after(day: &Day, numbers: Vec<usize>, bib: u16) -> (State, u32) {
    stands(numbers.into_iter().map(|number| day.updates()[number]), bib)
}

/// The visible updates of the revision that a number means.
fn visible(day: &Day, number: u8) -> Vec<usize> {
    day.meant(number).map_or_else(Vec::new, |revision| day.visible(revision))
}

/// Its own updates.
fn own(day: &Day, number: u8) -> Vec<usize> {
    day.meant(number).map_or_else(Vec::new, |revision| day.own(revision))
}

/// What a wrong preview answers and does; the last argument is what is right.
type Wrong = fn(&mut Day, [u8; 2], u16, Answer) -> Answer;

const WRONG: [(&str, Wrong); 11] = [
    ("the joinee's updates first", |day, [joiner, joinee], bib, right| {
        told(day, bib, right, |day| {
            let mut before = visible(day, joiner);
            let behind = before.split_off(before.len() - own(day, joiner).len());
            [before, own(day, joinee), behind].concat()
        })
    }),
    ("what the joinee inherited again", |day, [joiner, joinee], bib, right| {
        told(day, bib, right, |day| [visible(day, joiner), visible(day, joinee)].concat())
    }),
    ("the joiner as it stands", |day, [joiner, _], bib, right| {
        told(day, bib, right, |day| visible(day, joiner))
    }),
    ("the joinee as it stands", |day, [_, joinee], bib, right| {
        told(day, bib, right, |day| visible(day, joinee))
    }),
    ("in the order of the numbers", |day, [joiner, joinee], bib, right| {
        told(day, bib, right, |day| {
            let mut both = [visible(day, joiner), own(day, joinee)].concat();
            both.sort_unstable();
            both
        })
    }),
    ("the bib before the refusals of a join", |_, _, bib, right| match bib {
        BIBS.. => Answer::refused(Code::BadEntry),
        _ => right,
    }),
    ("no gain if the bib is neither", |_, _, _, right| match right.state {
        State::Neither => Answer { gain: 0, ..right },
        _ => right,
    }),
    ("the gain is what the joinee sees", |day, [_, joinee], _, right| match right.code {
        Code::Accepted => Answer { gain: visible(day, joinee).len() as u32, ..right },
        _ => right,
    }),
    ("the join is made", |day, [joiner, joinee], _, right| {
        day.call(&Call::Join { joiner, joinee });
        right
    }),
    ("a refusal tells the state", |day, [joiner, _], bib, right| match right.code {
        Code::NotJoinable => {
            let (state, value) = after(day, visible(day, joiner), bib);
            Answer { state, value, ..right }
        }
        _ => right,
    }),
    ("revisions in use are told too", |day, [joiner, joinee], bib, right| {
        if right.code != Code::InUse {
            return right;
        }
        all_yielded(day).call(&Call::Preview { joiner, joinee, bib })
    }),
];

/// The day with every transaction closed.
fn all_yielded(day: &Day) -> Day {
    let mut day = day.clone();
    (0..CLIENTS).for_each(|client| _ = day.call(&Call::Yield { client }));
    day
}

/// Whether some client may query on a revision.
fn may_query(day: &Day, revision: u8) -> bool {
    let query = |client| Call::Query { client, revision, bib: 0 };
    (0..CLIENTS).any(|client| day.clone().call(&query(client)).code == Code::Accepted)
}

/// What is right, but of an accepted preview the standing after these updates.
fn told(day: &Day, bib: u16, right: Answer, numbers: impl Fn(&Day) -> Vec<usize>) -> Answer {
    if right.code != Code::Accepted {
        return right;
    }
    let (state, value) = after(day, numbers(day), bib);
    Answer { state, value, ..right }
}

/// The day with previews made wrong, judged.
fn by_wrong(wrong: Wrong) -> impl Fn(&[Call]) -> Option<String> {
    move |calls| {
        fault_of_previews(Day::fresh(), calls, |day, call| match *call {
            Call::Preview { joiner, joinee, bib } => {
                let right = day.call(call);
                wrong(day, [joiner, joinee], bib, right)
            }
            _ => day.call(call),
        })
    }
}

#[test]
fn wrong_previews_are_found() {
    let kinds = [Profile::NESTED, Profile::STRIKES, Profile::STRANGE];
    for (name, wrong) in WRONG {
        must_find(name, kinds.into_iter().flat_map(|kind| kind.days(0..60)), by_wrong(wrong));
    }
}

/// Where no client is caught up with the joiner, a list tells what is right.
#[test]
fn previews_are_compared_where_no_client_may_query() {
    let wrong: Wrong = |day, [joiner, joinee], _, right| {
        let mut copy = all_yielded(day);
        copy.call(&Call::Join { joiner, joinee });
        match right.code == Code::Accepted && !may_query(&copy, joiner) {
            true => Answer { value: right.value.wrapping_add(1), ..right },
            false => right,
        }
    };
    must_find("wrong where no client may query", chains_of_joins(0..50), by_wrong(wrong));
}
