//! The calls that only read, of every revision of a day: what small days are asked after each step.

use calls::{Call, Line, REVISIONS};
use literal::Day;

/// A fill of every number that was given out, and of some that were not.
pub fn every_fill(day: &Day) -> Vec<Call> {
    numbers(day).chain([REVISIONS, u8::MAX]).map(|revision| Call::Fill { revision }).collect()
}

/// A listing of every number that was given out, and of the one after the last: with so many bytes
/// more than it needs, with just enough, and with a byte less.
pub fn every_list(day: &Day, more: usize) -> Vec<Call> {
    let lists = |revision: u8| {
        let visible = day.meant(revision).map_or(0, |meant| day.visible(meant).len());
        let needed = Line::BYTES * visible;
        let rooms = [needed.saturating_add(more), needed, needed.saturating_sub(1)];
        rooms.map(|room| Call::List { revision, room })
    };
    numbers(day).flat_map(lists).collect()
}

/// A preview of every two numbers that were given out, and of the one after the last, of these bibs.
pub fn every_preview(day: &Day, bibs: &[u16]) -> Vec<Call> {
    let pairs = numbers(day).flat_map(|joiner| numbers(day).map(move |joinee| (joiner, joinee)));
    let previews =
        |(joiner, joinee)| bibs.iter().map(move |&bib| Call::Preview { joiner, joinee, bib });
    pairs.flat_map(previews).collect()
}

/// Every number that was given out, and the one after the last.
fn numbers(day: &Day) -> impl Iterator<Item = u8> {
    0..=day.revisions().len().min(usize::from(REVISIONS)) as u8
}
