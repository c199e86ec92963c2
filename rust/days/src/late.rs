//! Short days on which a joined revision brings its updates late: the case of 02's U2, "Referees
//! strike a bib, then a late box brings an Earliest entry".

use calls::Call;

use crate::sample::Sample;

/// The updates that the days are made of, as kind and v.
const UPDATES: [(u8, u32); 7] = [(1, 0), (1, 8), (2, 0), (2, 5), (3, 0), (3, 5), (4, 6)];

/// A day for each list of up to three updates of one bib and each place at which the list is cut.
/// What stands behind the cut is entered first, on a revision of its own; then come the updates
/// before the cut, on the main revision, which then joins the other. Both are queried before the
/// join, which has a preview, and the main one after it.
pub fn late_days() -> impl Iterator<Item = Sample> {
    let cuts = |list: Vec<(u8, u32)>| {
        (0..=list.len()).map(move |cut| late_day(&list[..cut], &list[cut..]))
    };
    let days = lists(3).into_iter().flat_map(cuts);
    days.zip(0..).map(|(calls, seed)| Sample { kind: "late updates", seed, calls })
}

fn late_day(before: &[(u8, u32)], late: &[(u8, u32)]) -> Vec<Call> {
    let (joiner, joinee) = (0, 1);
    let mut calls = vec![Call::Fork { revision: joiner }];
    entered(joinee, late, &mut calls);
    entered(joiner, before, &mut calls);
    calls.push(Call::Preview { joiner, joinee, bib: 7 });
    calls.push(Call::Join { joiner, joinee });
    entered(joiner, &[], &mut calls);
    calls
}

/// Every list of so many updates at most.
fn lists(most: usize) -> Vec<Vec<(u8, u32)>> {
    let mut lists = vec![Vec::new()];
    let mut from = 0;
    for _ in 0..most {
        let longest = from..lists.len();
        from = lists.len();
        for at in longest {
            lists.extend(UPDATES.map(|update| [&lists[at][..], &[update]].concat()));
        }
    }
    lists
}

/// A transaction of these updates and a query, by the client with the revision's number.
fn entered(revision: u8, updates: &[(u8, u32)], calls: &mut Vec<Call>) {
    let (client, bib) = (revision, 7);
    calls.extend(updates.iter().map(|&(kind, v)| Call::Update { client, revision, kind, bib, v }));
    calls.extend([Call::Query { client, revision, bib }, Call::Yield { client }]);
}

#[cfg(test)]
mod tests {
    use super::*;

    #[test]
    fn every_list_once_and_cut_everywhere() {
        let mut lists = lists(3);
        assert_eq!(lists.len(), 1 + 7 + 49 + 343);
        lists.sort();
        lists.dedup();
        assert_eq!(lists.len(), 400);
        assert_eq!(late_days().count(), 1 + 2 * 7 + 3 * 49 + 4 * 343);
    }
}
