//! What the calls of a day and their answers say, with no look at the table.

use std::collections::{BTreeMap, BTreeSet};

use calls::{Answer, Call, Code, Line};

/// A day that was fresh, as far as calls and answers tell of it.
#[derive(Clone, Debug)]
pub(crate) struct History {
    /// How many numbers were handed in or dropped.
    freed: usize,
    /// The updates accepted.
    pub(crate) accepted: u32,
    /// The revisions started, the main one included and marks not.
    pub(crate) started: u32,
    /// The numbers that are out, marked or not.
    pub(crate) out: BTreeSet<u8>,
    /// Those that are not, but were: each with its place in the one order of joins, syncs and drops.
    pub(crate) handed_in: BTreeMap<u8, usize>,
    /// The names of the marks that are out, and their numbers.
    pub(crate) marks: BTreeMap<Vec<u8>, u8>,
    /// The choice given to fresh.
    pub(crate) single_main: bool,
}

impl History {
    pub(crate) fn fresh() -> Self {
        History {
            freed: 0,
            accepted: 0,
            started: 1,
            out: BTreeSet::from([0]),
            handed_in: BTreeMap::new(),
            marks: BTreeMap::new(),
            single_main: false,
        }
    }

    pub(crate) fn learn(&mut self, call: &Call, answer: &Answer) {
        match *call {
            _ if answer.code != Code::Accepted => {}
            Call::Update { .. } => self.accepted += 1,
            Call::Bundle { ref records, .. } => {
                self.accepted += (records.len() / Line::BYTES) as u32;
            }
            Call::Fork { .. } => self.start(answer.value as u8),
            Call::Join { joinee, .. } => self.hand_in(joinee),
            Call::Sync { revision } => {
                self.hand_in(revision);
                self.start(answer.value as u8);
            }
            Call::Mark { ref name, .. } => {
                self.give(answer.value as u8);
                self.marks.insert(name.clone(), answer.value as u8);
            }
            Call::Drop { ref name } => {
                if let Some(number) = self.marks.remove(name) {
                    self.hand_in(number);
                }
            }
            Call::Fresh { single_main } => *self = History { single_main, ..History::fresh() },
            Call::Query { .. } | Call::Yield { .. } => {}
            Call::List { .. } | Call::Fill { .. } | Call::Preview { .. } => {}
            // Only with a board of a wrong length.
            Call::Verify { .. } | Call::Bill { .. } | Call::OnBoard { .. } => {}
        }
    }

    fn start(&mut self, number: u8) {
        self.started += 1;
        self.give(number);
    }

    fn give(&mut self, number: u8) {
        self.out.insert(number);
        self.handed_in.remove(&number);
    }

    pub(crate) fn hand_in(&mut self, number: u8) {
        self.out.remove(&number);
        self.handed_in.insert(number, self.freed);
        self.freed += 1;
    }

    /// Whether a number that is out is that of a mark.
    pub(crate) fn is_marked(&self, number: u8) -> bool {
        self.marks.values().any(|&mark| mark == number)
    }
}

/// The numbers of revisions that a call names.
pub(crate) fn named(call: &Call) -> Vec<u8> {
    match *call {
        Call::Yield { .. } | Call::Fresh { .. } => vec![],
        Call::Drop { .. } | Call::Verify { .. } | Call::Bill { .. } => vec![],
        // 19 comes before any number is looked at.
        Call::OnBoard { .. } => vec![],
        Call::Update { revision, .. } | Call::Query { revision, .. } => vec![revision],
        Call::Bundle { revision, .. } | Call::List { revision, .. } => vec![revision],
        Call::Fork { revision } | Call::Fill { revision } => vec![revision],
        Call::Sync { revision } | Call::Mark { revision, .. } => vec![revision],
        Call::Join { joiner, joinee } | Call::Preview { joiner, joinee, .. } => {
            vec![joiner, joinee]
        }
    }
}
