//! 02, U11: "A taken join may make the table differ from its former bytes at no more than 256 places,
//! however many updates it brings over"; a taken sync at 256 more, for its fork.

use std::cell::Cell;
use std::fmt;

use calls::{Answer, Call};

use crate::tally;

/// At how many places a join may make the table differ.
const OF_A_JOIN: usize = 256;
/// The same of a sync.
const OF_A_SYNC: usize = 512;

/// At how many places joins and syncs made their tables differ, at most.
#[derive(Clone, Debug, Default, PartialEq, Eq)]
pub struct Heaviest {
    join: Cell<usize>,
    sync: Cell<usize>,
}

impl fmt::Display for Heaviest {
    fn fmt(&self, f: &mut fmt::Formatter<'_>) -> fmt::Result {
        let [join, sync] = [&self.join, &self.sync].map(Cell::get);
        write!(f, "joins differ at up to {join} places, syncs at up to {sync}")
    }
}

impl Heaviest {
    /// What is wrong with a join or a sync that leaves these bytes of those, in words: they differ at
    /// too many places.
    pub fn fault_of(&self, call: &Call, before: &[u8], after: &[u8]) -> Option<String> {
        let (allowed, seen) = match call {
            Call::Join { .. } => (OF_A_JOIN, &self.join),
            Call::Sync { .. } => (OF_A_SYNC, &self.sync),
            _ => return None,
        };
        let places = differences(before, after);
        seen.set(seen.get().max(places));
        tally::measure("places that differ after", call.name(), places as u64);
        (places > allowed).then(|| format!("`{call}`: the table differs at {places} places"))
    }

    /// The first join or sync of a day with such a fault. `make` makes one call.
    pub fn fault<D: AsRef<[u8]> + Clone>(
        &self,
        mut day: D,
        calls: &[Call],
        make: impl Fn(&mut D, &Call) -> Answer,
    ) -> Option<String> {
        calls.iter().find_map(|call| {
            let before = matches!(call, Call::Join { .. } | Call::Sync { .. }).then(|| day.clone());
            make(&mut day, call);
            self.fault_of(call, before?.as_ref(), day.as_ref())
        })
    }
}

/// At how many places two tables differ.
fn differences(a: &[u8], b: &[u8]) -> usize {
    assert_eq!(a.len(), b.len(), "a call leaves the length as it is");
    // Most blocks are the same, and so compared at once.
    let blocks = a.chunks(64).zip(b.chunks(64)).filter(|(a, b)| a != b);
    blocks.map(|(a, b)| a.iter().zip(b).filter(|(x, y)| x != y).count()).sum()
}
