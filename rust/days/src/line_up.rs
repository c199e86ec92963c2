//! Demand 3 by brute force: each sentence of 01's "The plain day and its line-up", from "On it:"
//! on, checked of a day's facts and one order of its transactions.

use calls::{Call, Code};
use literal::VertexKind;

use crate::facts::{stands, Facts};

/// A check of one sentence: a complaint if it does not hold.
type Check = fn(&Facts, &[usize]) -> Option<String>;

/// The sentences by name.
pub const SENTENCES: [(&str, Check); 9] = [
    ("every transaction once", every_transaction_once),
    ("after all others that it sees", after_all_that_it_sees),
    ("queries answer by the order", queries_answer_by_the_order),
    ("visible updates are those seen", visible_are_those_seen),
    ("visible updates stand in listed order", visible_in_order),
    ("lists grow at the end", lists_grow_at_the_end),
    ("transactions are seen whole", seen_whole),
    ("lists show transactions whole", listed_whole),
    ("later transactions see earlier ones", later_see_earlier),
];

/// The first sentence that does not hold, and where.
pub fn broken_sentence(facts: &Facts, order: &[usize]) -> Option<String> {
    SENTENCES.iter().find_map(|(name, check)| {
        check(facts, order).map(|complaint| format!("not so: {name}: {complaint}"))
    })
}

/// "A line-up has every transaction once, open ones and those of queries alone too." Every event is
/// in one transaction, and every update is one event.
fn every_transaction_once(facts: &Facts, order: &[usize]) -> Option<String> {
    let mut sorted = order.to_vec();
    sorted.sort_unstable();
    if !sorted.into_iter().eq(0..facts.transactions.len()) {
        return Some(format!("order {order:?} of {} transactions", facts.transactions.len()));
    }
    let mut entered: Vec<usize> = order.iter().flat_map(|&t| facts.events(t)).collect();
    entered.sort_unstable();
    let is_event = |&x: &usize| matches!(facts.kinds[x], VertexKind::Update(_) | VertexKind::Query);
    if !(0..facts.kinds.len()).filter(is_event).eq(entered.iter().copied()) {
        return Some(format!("events in transactions are {entered:?}"));
    }
    let mut numbers: Vec<usize> = entered.iter().filter_map(|&x| facts.number(x)).collect();
    numbers.sort_unstable();
    let all = numbers.iter().copied().eq(0..facts.updates.len());
    (!all).then(|| format!("updates {numbers:?}, {} taken", facts.updates.len()))
}

/// 00: "each stands after all others that it sees".
fn after_all_that_it_sees(facts: &Facts, order: &[usize]) -> Option<String> {
    order.iter().enumerate().find_map(|(place, &t)| {
        let later = order[place + 1..].iter().find(|&&s| facts.transaction_sees(t, s));
        later.map(|s| format!("{t} sees {s} in {order:?}"))
    })
}

/// "A taken query answers as its bib stands after the updates it sees, and no others, are applied
/// to the fresh values, each once, in line-up order, and as entered within a transaction."
fn queries_answer_by_the_order(facts: &Facts, order: &[usize]) -> Option<String> {
    facts.steps.iter().find_map(|step| {
        let Call::Query { bib, .. } = step.call else { return None };
        if step.answer.code != Code::Accepted {
            return None;
        }
        let seen = facts.seen_in_order(order, step.vertices);
        let updates = seen.iter().map(|&number| facts.updates[number]);
        let right = stands(updates, bib);
        let given = (step.answer.state, step.answer.value);
        (given != right).then(|| format!("`{}` gave {given:?}, not {right:?}", step.call))
    })
}

/// "The visible updates of a box are those its line end sees, in the listing's order, busy or not."
/// Each stands in the list once, at any time of the day.
fn visible_are_those_seen(facts: &Facts, order: &[usize]) -> Option<String> {
    facts.views.iter().flatten().flatten().find_map(|view| {
        let [mut visible, mut seen] =
            [view.updates.clone(), facts.seen_in_order(order, view.terminal)];
        visible.sort_unstable();
        seen.sort_unstable();
        (visible != seen)
            .then(|| format!("vertex {} sees {seen:?}, not {visible:?}", view.terminal))
    })
}

/// 00: "the visible updates of every box out at the list's end stand in listed order".
fn visible_in_order(facts: &Facts, order: &[usize]) -> Option<String> {
    facts.views.last()?.iter().flatten().find_map(|view| {
        let ordered = facts.seen_in_order(order, view.terminal);
        (view.updates != ordered).then(|| format!("{:?}, not {ordered:?}", view.updates))
    })
}

/// "For a box that stays out, the list before a call begins the list after it."
fn lists_grow_at_the_end(facts: &Facts, _: &[usize]) -> Option<String> {
    facts.views.windows(2).zip(&facts.steps).find_map(|(views, step)| {
        views[0].iter().zip(&views[1]).find_map(|pair| match pair {
            (Some(before), Some(after)) if !after.updates.starts_with(&before.updates) => {
                let (before, after) = (&before.updates, &after.updates);
                Some(format!("`{}` makes {before:?} into {after:?}", step.call))
            }
            _ => None,
        })
    })
}

/// "A vertex outside a transaction sees all its events or none, and any only if its yield came
/// before the vertex."
fn seen_whole(facts: &Facts, _: &[usize]) -> Option<String> {
    (0..facts.transactions.len()).find_map(|t| {
        let events: Vec<usize> = facts.events(t).collect();
        let mut outside = (0..facts.kinds.len()).filter(|x| !events.contains(x));
        let broken = outside.find(|&x| {
            let seen = events.iter().filter(|&&y| facts.sees[x][y]).count();
            let closed = facts.transactions[t].yielded.is_some_and(|place| place <= x);
            seen != 0 && (seen != events.len() || !closed)
        });
        broken.map(|x| format!("vertex {x} and transaction {t}, events {events:?}"))
    })
}

/// "A taken list shows its updates likewise."
fn listed_whole(facts: &Facts, _: &[usize]) -> Option<String> {
    facts.steps.iter().find_map(|step| {
        if !matches!(step.call, Call::List { .. }) || step.answer.code != Code::Accepted {
            return None;
        }
        let shown: Vec<usize> = step.answer.lines.iter().map(|line| line.number as usize).collect();
        let broken = (0..facts.transactions.len()).find(|&t| {
            let updates: Vec<usize> = facts.events(t).filter_map(|x| facts.number(x)).collect();
            let listed = updates.iter().filter(|number| shown.contains(number)).count();
            let closed = step.closed.get(t).is_some_and(|&closed| closed);
            listed != 0 && (listed != updates.len() || !closed)
        });
        broken.map(|t| format!("`{}` shows {shown:?}, against transaction {t}", step.call))
    })
}

/// "Each event of a tablet's later transaction sees each event of its earlier ones."
fn later_see_earlier(facts: &Facts, _: &[usize]) -> Option<String> {
    let count = facts.transactions.len();
    let mut pairs = (0..count).flat_map(|t| (0..t).map(move |s| (s, t)));
    pairs
        .find(|&(s, t)| {
            facts.transactions[s].client == facts.transactions[t].client
                && facts.events(t).any(|x| facts.events(s).any(|y| !facts.sees[x][y]))
        })
        .map(|(s, t)| format!("transactions {s} and {t} of one client"))
}
