//! The days that are timed.

use calls::{order_file, Call, Line, BIBS, BUNDLE, CLIENTS, REVISIONS, UPDATES};

/// Kind, bib and argument of the n-th update of a day.
fn entry(n: usize) -> (u8, u16, u32) {
    (1 + (n % 4) as u8, (n * 7 % usize::from(BIBS)) as u16, n as u32)
}

/// The bib of the n-th update of a day. Every update of bib 7 is an Earliest.
pub(crate) fn bib(n: usize) -> u16 {
    entry(n).1
}

/// The n-th update of a day.
pub(crate) fn update(client: u8, revision: u8, n: usize) -> Call {
    let (kind, bib, v) = entry(n);
    Call::Update { client, revision, kind, bib, v }
}

/// A bundle of 64 updates, the n-th of a day and those after it.
pub(crate) fn bundle(client: u8, revision: u8, n: usize) -> Call {
    let record = |n| {
        let (kind, bib, v) = entry(n);
        Line { kind, client, bib, v, number: n as u32 }
    };
    let records = (n..n + BUNDLE).map(record).flat_map(Line::to_bytes).collect();
    Call::Bundle { client, revision, records }
}

/// So many revisions, each forked by the one before it, and so many updates, spread evenly: the last
/// revision sees them all.
pub(crate) fn chain(updates: usize, revisions: usize) -> Vec<Call> {
    let mut calls = Vec::new();
    for revision in 0..revisions {
        if revision > 0 {
            calls.push(Call::Fork { revision: revision as u8 - 1 });
        }
        let share = updates * revision / revisions..updates * (revision + 1) / revisions;
        calls.extend(share.map(|n| update(0, revision as u8, n)));
        calls.push(Call::Yield { client: 0 });
    }
    calls
}

/// The same with every update an Earliest of bib 7.
pub(crate) fn of_one_bib(updates: usize, revisions: usize) -> Vec<Call> {
    let mut calls = chain(updates, revisions);
    for call in &mut calls {
        if let Call::Update { kind, bib, .. } = call {
            (*kind, *bib) = (2, 7);
        }
    }
    calls
}

/// Two revisions whose clients take turns, and one joined into the other: no link of its list leads to
/// the number before.
pub(crate) fn in_turn(updates: usize) -> Vec<Call> {
    let mut calls = vec![Call::Fork { revision: 0 }];
    calls.extend((0..updates).map(|n| update((n % 2) as u8, (n % 2) as u8, n)));
    calls.extend([0, 1].map(|client| Call::Yield { client }));
    calls.push(Call::Join { joiner: 0, joinee: 1 });
    calls
}

/// So many forks, and as many joins, behind a day: one revision from the main one, and one from that,
/// in turn.
pub(crate) fn handed_in(mut day: Vec<Call>, pairs: usize) -> Vec<Call> {
    let mut numbers = baseline::Day::fresh();
    day.iter().for_each(|call| _ = numbers.call(call));
    let mut make = |call: Call| {
        let number = numbers.call(&call).value as u8;
        day.push(call);
        number
    };
    for _ in 0..pairs / 2 {
        let sent = make(Call::Fork { revision: 0 });
        let nested = make(Call::Fork { revision: sent });
        make(Call::Join { joiner: sent, joinee: nested });
        make(Call::Join { joiner: 0, joinee: sent });
    }
    day
}

/// A single-main day with so many revisions out, and so many updates on the first that was forked.
pub(crate) fn single_main(updates: usize, revisions: usize) -> Vec<Call> {
    let mut calls = vec![Call::Fresh { single_main: true }];
    calls.extend((1..revisions).map(|_| Call::Fork { revision: 0 }));
    calls.extend((0..updates).map(|n| update(0, 1, n)));
    calls.push(Call::Yield { client: 0 });
    calls
}

/// So many updates on the main revision, and so many revisions out that all list them.
pub(crate) fn alike(updates: usize, revisions: usize) -> Vec<Call> {
    let mut calls = chain(updates, 1);
    calls.extend((1..revisions).map(|_| Call::Fork { revision: 0 }));
    calls
}

/// A verify of so many updates, as they were entered.
pub(crate) fn verify(updates: usize) -> Call {
    let numbers: Vec<u16> = (0..updates as u16).collect();
    Call::Verify { order: order_file(&numbers) }
}

/// A day of 4,096 updates in hundreds, of which box 0 takes fifty, in transactions of five, and a box
/// that it sent off the others, in one transaction, and is then synced.
pub(crate) fn announcing() -> Vec<Vec<Call>> {
    let mut sent = 1;
    let hundred = |first: usize| {
        let mut calls = Vec::new();
        if first == 0 {
            calls.push(Call::Fork { revision: 0 });
        }
        for n in first..(first + 100).min(UPDATES) {
            let on_main = n % 100 < 50;
            calls.push(if on_main { update(0, 0, n) } else { update(1, sent, n) });
            if on_main && n % 5 == 4 {
                calls.push(Call::Yield { client: 0 });
            }
        }
        calls.extend([Call::Yield { client: 1 }, Call::Sync { revision: sent }]);
        sent += 1;
        calls
    };
    (0..UPDATES).step_by(100).map(hundred).collect()
}

/// A query of every bib on box 0, and the yield.
pub(crate) fn every_query() -> Vec<Call> {
    let queries = (0..BIBS).map(|bib| Call::Query { client: 2, revision: 0, bib });
    queries.chain([Call::Yield { client: 2 }]).collect()
}

/// So many updates on box 0, not yielded, behind a middling day.
pub(crate) fn bringing(updates: usize) -> Vec<Call> {
    let mut calls = chain(2_048, 1);
    calls.extend((0..updates).map(|n| update(0, 0, n)));
    calls
}

/// So many updates on a box that box 0 sent off.
pub(crate) fn sent_off(updates: usize) -> Vec<Call> {
    let mut calls = vec![Call::Fork { revision: 0 }];
    calls.extend((0..updates).map(|n| update(0, 1, n)));
    calls.push(Call::Yield { client: 0 });
    calls
}

/// The name of the mark that is made or dropped.
pub(crate) const NAME: &[u8] = b"JURY";

/// A mark of that name.
pub(crate) fn mark(revision: u8) -> Call {
    Call::Mark { revision, name: NAME.to_vec() }
}

/// So many revisions out, of which the first that was forked is marked.
pub(crate) fn marked(revisions: usize) -> Vec<Call> {
    let forks = (2..revisions).map(|_| Call::Fork { revision: 0 });
    std::iter::once(mark(0)).chain(forks).collect()
}

/// A whole day: 63 revisions are forked, each by one of the eight before it; 4,096 updates are
/// entered on the first 16, by a client each, in transactions of four, every fourth with a query;
/// all of them are joined.
pub(crate) fn whole(queries: bool) -> Vec<Call> {
    let forker = |child: u8| child.saturating_sub(1 + child % 8);
    let mut calls: Vec<Call> =
        (1..REVISIONS).map(|child| Call::Fork { revision: forker(child) }).collect();
    for transaction in 0..UPDATES / 4 {
        let client = (transaction % usize::from(CLIENTS)) as u8;
        let revision = client + 1;
        calls.extend((0..4).map(|n| update(client, revision, 4 * transaction + n)));
        if queries && transaction.is_multiple_of(4) {
            calls.push(Call::Query { client, revision, bib: 7 });
        }
        calls.push(Call::Yield { client });
    }
    calls.extend((1..REVISIONS).rev().map(|joinee| Call::Join { joiner: forker(joinee), joinee }));
    calls
}
