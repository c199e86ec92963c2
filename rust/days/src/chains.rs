//! Long chains of joins, written out: revisions in a row that are joined one into the next.

use std::ops::Range;

use calls::{Call, CLIENTS, REVISIONS, SHEET};

use crate::rng::Rng;
use crate::sample::Sample;

/// Chains of up to 63 revisions, each with a few updates, joined in one of three ways. Every fork
/// and join is accepted; entries of clients that are not caught up are refused.
pub fn chains_of_joins(seeds: Range<u64>) -> impl Iterator<Item = Sample> {
    seeds.map(|seed| Sample { kind: "chain of joins", seed, calls: chain_of_joins(seed) })
}

fn chain_of_joins(seed: u64) -> Vec<Call> {
    let mut rng = Rng::new(seed);
    let length = 2 + rng.below(usize::from(REVISIONS) - 2) as u8;
    let way = rng.below(3);
    let mut calls = Vec::new();
    for child in 1..=length {
        // 0 and 1: all from the main revision. 2: each from the one before.
        let forker = if way == 2 { child - 1 } else { 0 };
        entries(&mut rng, forker, &mut calls);
        calls.push(Call::Fork { revision: forker });
        entries(&mut rng, child, &mut calls);
    }
    let joins: Vec<(u8, u8)> = match way {
        // Each takes over the one forked before it, and the main revision the last.
        0 => (1..length).map(|r| (r + 1, r)).chain([(0, length)]).collect(),
        // The main revision takes over all, the last one first.
        1 => (1..=length).rev().map(|r| (0, r)).collect(),
        // Each forker takes over its own, from the far end; a join within a join within a join.
        _ => (1..=length).rev().map(|r| (r - 1, r)).collect(),
    };
    for (joiner, joinee) in joins {
        calls.extend([0, 1].map(|bib| Call::Preview { joiner, joinee, bib }));
        calls.push(Call::Join { joiner, joinee });
        entries(&mut rng, joiner, &mut calls);
        calls.push(Call::List { revision: joiner, room: SHEET });
        calls.extend([joiner, joinee].map(|revision| Call::Fill { revision }));
    }
    calls
}

/// A transaction of up to three updates, or a query, by a client of any number.
fn entries(rng: &mut Rng, revision: u8, calls: &mut Vec<Call>) {
    let client = rng.below(usize::from(CLIENTS)) as u8;
    for _ in 0..rng.below(4) {
        let (kind, bib, v) = (1 + rng.below(4) as u8, rng.below(2) as u16, rng.below(100) as u32);
        calls.push(Call::Update { client, revision, kind, bib, v });
    }
    if rng.percent(30) {
        calls.push(Call::Query { client, revision, bib: rng.below(2) as u16 });
    }
    calls.push(Call::Yield { client });
}
