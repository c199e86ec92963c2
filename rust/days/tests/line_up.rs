//! Demand 3 on small days, by brute force: one order of all transactions, and each sentence of 01.

use calls::{Call, Code, State};
use days::{
    arbitration_order, broken_sentence, chains_of_joins, days_of, late_days, must_pass, seeds,
    Facts, Profile, SENTENCES,
};

fn line_up(calls: &[Call]) -> Option<String> {
    let (day, facts) = Facts::of(calls);
    broken_sentence(&facts, &arbitration_order(&day))
}

#[test]
fn small_days_have_a_line_up() {
    must_pass(Profile::SMALL.days(seeds(2_000)), line_up);
}

#[test]
fn days_with_late_updates_have_a_line_up() {
    must_pass(late_days(), line_up);
}

#[test]
fn days_with_many_revisions_have_a_line_up() {
    let few_calls = |profile: Profile| (Profile { calls: 90, ..profile }, 300);
    let kinds = [Profile::NESTED, Profile::STALE, Profile::QUERIES, Profile::STRIKES];
    must_pass(days_of(&kinds.map(few_calls)), line_up);
    let chains = chains_of_joins(0..400).filter(|chain| chain.calls.len() < 120);
    must_pass(chains.take(30), line_up);
}

/// 02, U7: "what the earlier bearer did stays in the diagram, and a tablet's last event may be there".
#[test]
fn days_on_reused_numbers_have_a_line_up() {
    must_pass(Profile::SMALL_REUSED.days(seeds(120)), line_up);
}

/// 02, U8: single-main days, and several days on one table, of which the last is judged.
#[test]
fn single_main_days_have_a_line_up() {
    let short = Profile { calls: 90, ..Profile::RENEWED };
    must_pass(days_of(&[(Profile::SMALL_SINGLE_MAIN, 600), (short, 100)]), line_up);
}

/// 02, U9: "nothing is rewound and the line-up still covers every step".
#[test]
fn days_with_marks_have_a_line_up() {
    let short = Profile { calls: 90, ..Profile::MARKED };
    must_pass(days_of(&[(Profile::SMALL_MARKED, 1_200), (short, 200)]), line_up);
}

/// A small day on which every sentence has something to say.
fn day() -> (Vec<usize>, Facts) {
    let update = |client, revision, v| Call::Update { client, revision, kind: 1, bib: 7, v };
    let calls = [
        update(0, 0, 1),
        update(0, 0, 2),
        Call::Yield { client: 0 },
        Call::Fork { revision: 0 },
        update(1, 1, 3),
        Call::Yield { client: 1 },
        update(0, 0, 4),
        Call::Yield { client: 0 },
        Call::Join { joiner: 0, joinee: 1 },
        Call::List { revision: 0, room: 100 },
        Call::Query { client: 1, revision: 0, bib: 7 },
    ];
    let (day, facts) = Facts::of(&calls);
    assert!(facts.steps.iter().all(|step| step.answer.code == Code::Accepted));
    assert_eq!(facts.steps[10].answer.value, 3);
    (arbitration_order(&day), facts)
}

#[test]
fn the_layout_puts_the_joinee_after_the_joiner() {
    let (order, facts) = day();
    assert_eq!(order, ORDER);
    assert_eq!(broken_sentence(&facts, &order), None);
}

/// The visible updates of a revision that is out after so many calls.
fn updates(facts: &mut Facts, calls: usize, revision: usize) -> &mut Vec<usize> {
    &mut facts.views[calls][revision].as_mut().unwrap().updates
}

/// The order of that day.
const ORDER: [usize; 4] = [0, 2, 1, 3];

/// A sentence, and an order and a change of the facts that it must refuse.
type Spoilt = (&'static str, &'static [usize], fn(&mut Facts));

const SPOILT: [Spoilt; 17] = [
    ("every transaction once", &[0, 2, 1], |_| {}),
    ("every transaction once", &[0, 2, 1, 1], |_| {}),
    ("every transaction once", &ORDER, |facts| _ = facts.transactions[0].events.pop()),
    ("after all others that it sees", &[2, 0, 1, 3], |_| {}),
    ("queries answer by the order", &[0, 1, 2, 3], |_| {}),
    ("queries answer by the order", &ORDER, |facts| facts.steps[10].answer.value = 4),
    ("queries answer by the order", &ORDER, |facts| facts.steps[10].answer.state = State::Neither),
    ("queries answer by the order", &ORDER, |facts| facts.steps[10].answer.state = State::Struck),
    ("visible updates stand in listed order", &[0, 1, 2, 3], |_| {}),
    ("visible updates are those seen", &ORDER, |facts| updates(facts, 9, 0).push(1)),
    ("visible updates are those seen", &ORDER, |facts| updates(facts, 5, 1).clear()),
    ("lists grow at the end", &ORDER, |facts| updates(facts, 9, 0).swap(2, 3)),
    ("transactions are seen whole", &ORDER, |facts| {
        let event = facts.events(0).next().unwrap();
        facts.sees[4][event] = false;
    }),
    ("transactions are seen whole", &ORDER, |facts| facts.transactions[1].yielded = None),
    ("lists show transactions whole", &ORDER, |facts| {
        facts.steps[9].answer.lines.remove(0);
    }),
    ("lists show transactions whole", &ORDER, |facts| facts.steps[9].closed[1] = false),
    ("later transactions see earlier ones", &ORDER, |facts| {
        let [first, later] = [0, 2].map(|t| facts.events(t).next().unwrap());
        facts.sees[later][first] = false;
    }),
];

/// Each sentence holds of the day, and refuses what was spoilt for it.
#[test]
fn each_sentence_can_fail() {
    let (order, facts) = day();
    for (name, check) in SENTENCES {
        assert_eq!(check(&facts, &order), None, "{name}");
        let mut spoilt = SPOILT.iter().filter(|(spoilt, ..)| *spoilt == name).peekable();
        assert!(spoilt.peek().is_some(), "{name} is never spoilt");
        for (_, order, change) in spoilt {
            let mut facts = facts.clone();
            change(&mut facts);
            assert!(check(&facts, order).is_some(), "{name}: {order:?}");
        }
    }
}
