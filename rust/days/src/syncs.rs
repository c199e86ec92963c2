//! 02, U8: a sync "names a box and joins it into box 0, then forks box 0; it is one step, answers the
//! new number and has join's refusals for joiner 0".

use calls::{Answer, Call, Code};

use crate::copies::fault_on_copies;

/// The first sync of a day that is not the join and then the fork, in answer or in what it leaves, in
/// words. `make` makes one call; it is asked for the join and the fork on a copy.
pub fn fault_of_syncs<D: Clone + PartialEq>(
    day: D,
    calls: &[Call],
    make: impl Fn(&mut D, &Call) -> Answer,
) -> Option<String> {
    fault_on_copies(day, calls, &make, |call, before| {
        let Call::Sync { revision } = *call else { return None };
        let mut after = before.clone();
        let joined = make(&mut after, &Call::Join { joiner: 0, joinee: revision });
        let answer = match joined.code {
            Code::Accepted => make(&mut after, &Call::Fork { revision: 0 }),
            _ => joined,
        };
        // A refusal of either leaves every byte.
        let left = if answer.code == Code::Accepted { after } else { before };
        Some((vec![answer], left))
    })
}
