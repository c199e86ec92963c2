//! 02, U1: "own updates, summed over all boxes out, always equal the updates accepted since fresh,
//! that number being counted from the history".

use calls::{Answer, Call, Code, REVISIONS};

use crate::history::History;

/// The first time of a day, its start included, at which the fills of all revisions do not come to
/// the updates accepted until then, in words. `make` makes one call, on a table that was fresh.
pub fn fault_of_fills<D>(
    mut day: D,
    calls: &[Call],
    make: impl Fn(&mut D, &Call) -> Answer,
) -> Option<String> {
    let mut history = History::fresh();
    if let Some(fault) = fault(&history, &mut day, &make) {
        return Some(format!("at the start: {fault}"));
    }
    calls.iter().find_map(|call| {
        history.learn(call, &make(&mut day, call));
        fault(&history, &mut day, &make).map(|fault| format!("after `{call}`: {fault}"))
    })
}

/// A fill of each number in range and of some above: those that are out are told, and no others.
fn fault<D>(
    history: &History,
    day: &mut D,
    make: impl Fn(&mut D, &Call) -> Answer,
) -> Option<String> {
    let History { accepted, out, .. } = history;
    let mut sum = 0;
    for revision in (0..=REVISIONS).chain([128, u8::MAX]) {
        let Answer { code, value: own, total, .. } = make(day, &Call::Fill { revision });
        let told = code == Code::Accepted;
        if told != out.contains(&revision) {
            return Some(format!("box {revision} gives code {code}, out are {out:?}"));
        }
        if told && total != *accepted {
            return Some(format!("box {revision} gives total {total}, not {accepted}"));
        }
        sum += own;
    }
    (sum != *accepted).then(|| format!("own updates come to {sum}, not to {accepted}"))
}
