//! 02, U1, on random days: after every step the own updates of all revisions that are out come to
//! the updates accepted, counted from the calls and their answers. And wrong fills are found.

use calls::{Answer, Call, Code};
use days::{chains_of_joins, fault_of_fills, must_find, must_pass, one_in, seeds, Profile};
use literal::{Day, VertexId, VertexKind};

/// By the literal replay, and by the baseline.
fn by_either(calls: &[Call]) -> Option<String> {
    fault_of_fills(Day::fresh(), calls, Day::call)
        .or_else(|| fault_of_fills(baseline::Day::fresh(), calls, baseline::Day::call))
}

#[test]
fn fills_come_to_the_updates_accepted() {
    must_pass(one_in(4), by_either);
    must_pass(Profile::SMALL.days(seeds(300)), by_either);
    must_pass(Profile::SMALL_REUSED.days(seeds(30)), by_either);
    must_pass(Profile::SMALL_MARKED.days(seeds(200)), by_either);
    must_pass(chains_of_joins(seeds(30)), by_either);
}

/// What a wrong fill of a revision answers, in place of what is right.
type Wrong = fn(&Day, usize, Answer) -> Answer;

const WRONG: [(&str, Wrong); 8] = [
    ("inherited updates count", |day, r, right| told(right, |_| day.visible(r).len() as u32)),
    ("joined updates do not count", |day, r, right| told(right, |_| entered(day, r))),
    ("updates joined through others do not count", |day, r, right| {
        let joined = || joined_into(day, r).map(|joinee| entered(day, joinee)).sum::<u32>();
        told(right, |_| entered(day, r) + joined())
    }),
    ("joined revisions are told too", |day, r, right| match right.code {
        Code::Joined => Answer::filled(day.own(r).len() as u32, day.updates().len() as u32),
        _ => right,
    }),
    ("numbers never given out are told too", |day, _, right| match right.code {
        Code::NeverGiven => Answer::filled(0, day.updates().len() as u32),
        _ => right,
    }),
    ("busy revisions are refused", |day, r, right| match open(day, r).next() {
        Some(_) => Answer::refused(Code::InUse),
        None => right,
    }),
    ("open transactions do not count", |day, r, right| {
        told(right, |own| own - updates(day, open(day, r)))
    }),
    ("the total is that of the revision", |_, _, right| Answer { total: right.value, ..right }),
];

/// What is right, but of an accepted fill other own updates.
fn told(right: Answer, own: impl Fn(u32) -> u32) -> Answer {
    match right.code {
        Code::Accepted => Answer { value: own(right.value), ..right },
        _ => right,
    }
}

/// The vertices of a revision.
fn vertices(day: &Day, r: usize) -> impl Iterator<Item = VertexId> + '_ {
    day.diagram().vertices().filter(move |&x| day.revision_of(x) == r)
}

/// How many of these are updates.
fn updates(day: &Day, vertices: impl Iterator<Item = VertexId>) -> u32 {
    let is_update = |&x: &VertexId| matches!(day.diagram().kind(x), VertexKind::Update(_));
    vertices.filter(is_update).count() as u32
}

/// How many updates were entered on a revision itself.
fn entered(day: &Day, r: usize) -> u32 {
    updates(day, vertices(day, r))
}

/// The revisions joined into this one, without those joined into them.
fn joined_into(day: &Day, r: usize) -> impl Iterator<Item = usize> + '_ {
    vertices(day, r).filter_map(|x| day.diagram().j_edge(x)).map(|last| day.revision_of(last))
}

/// The events of open transactions on a revision.
fn open(day: &Day, r: usize) -> impl Iterator<Item = VertexId> + '_ {
    let open = day.transactions().iter().filter(move |t| t.revision == r && t.is_open());
    open.flat_map(|t| t.events.iter().copied())
}

#[test]
fn wrong_fills_are_found() {
    let few_calls = Profile { calls: 100, ..Profile::NESTED };
    for (name, wrong) in WRONG {
        let by_wrong = |calls: &[Call]| {
            fault_of_fills(Day::fresh(), calls, |day, call| match *call {
                Call::Fill { revision } => {
                    let right = day.call(call);
                    // A number that was never given out means none.
                    let meant = day.meant(revision).unwrap_or(usize::MAX);
                    wrong(day, meant, right)
                }
                _ => day.call(call),
            })
        };
        must_find(name, few_calls.days(0..100), by_wrong);
    }
}
