//! 02, U9: what comes of a mark stays apart, since nobody joins into a marked box. A box is taken over
//! only by one that comes from the same marks, and box 0 comes from none.

use std::collections::{BTreeMap, BTreeSet};

use calls::{Answer, Call, Code};

/// The first call of a day that takes over, or says that it would, what comes of a mark that the joiner
/// does not come from, in words. `make` makes one call, on a table that was fresh.
pub fn fault_of_origins<D>(
    mut day: D,
    calls: &[Call],
    make: impl Fn(&mut D, &Call) -> Answer,
) -> Option<String> {
    let mut origins = Origins::default();
    calls.iter().find_map(|call| {
        let answer = make(&mut day, call);
        if answer.code != Code::Accepted {
            return None;
        }
        let fault = origins.fault(call);
        origins.learn(call, answer.value as u8);
        fault.map(|fault| format!("`{call}`: gives {answer}, but {fault}"))
    })
}

/// The marks that the latest bearer of each number comes from, by the order of their starts.
#[derive(Default)]
struct Origins {
    of: BTreeMap<u8, BTreeSet<usize>>,
    marks: usize,
}

impl Origins {
    fn of(&self, number: u8) -> BTreeSet<usize> {
        self.of.get(&number).cloned().unwrap_or_default()
    }

    fn fault(&self, call: &Call) -> Option<String> {
        let (joiner, joinee) = match *call {
            Call::Join { joiner, joinee } | Call::Preview { joiner, joinee, .. } => {
                (joiner, joinee)
            }
            Call::Sync { revision } => (0, revision),
            _ => return None,
        };
        let [joiner, joinee] = [joiner, joinee].map(|number| self.of(number));
        let apart = !joinee.is_subset(&joiner);
        apart.then(|| format!("the joinee comes from marks {joinee:?}, the joiner from {joiner:?}"))
    }

    /// An accepted call, and its value. A mark comes from itself too.
    fn learn(&mut self, call: &Call, value: u8) {
        match *call {
            Call::Fork { revision } => _ = self.of.insert(value, self.of(revision)),
            Call::Sync { .. } => _ = self.of.insert(value, self.of(0)),
            Call::Mark { revision, .. } => {
                let mut marks = self.of(revision);
                marks.insert(self.marks);
                self.of.insert(value, marks);
                self.marks += 1;
            }
            Call::Fresh { .. } => *self = Origins::default(),
            _ => {}
        }
    }
}
