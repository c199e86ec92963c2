//! 02, U8, what is shown of single-main days, judged on the literal replay. Of ordinary days it does not
//! hold.

use calls::{Call, Code};
use literal::{Day, VertexId};

/// "On these days show that 11 arises only with joinee 0, and that sync never meets 10": the first
/// call that answers otherwise, in words.
pub fn strange_code(calls: &[Call]) -> Option<String> {
    let mut day = Day::fresh();
    calls.iter().find_map(|call| {
        let code = day.call(call).code;
        let strange = match (call, code) {
            (Call::Join { joinee, .. } | Call::Preview { joinee, .. }, Code::NotJoinable) => {
                *joinee != 0
            }
            (Call::Sync { revision }, Code::NotJoinable) => *revision != 0,
            (Call::Sync { .. }, Code::NoneLeft) => true,
            _ => false,
        };
        strange.then(|| format!("`{call}` gives {code}"))
    })
}

/// "anything yielded on a box before its taken sync is visible to every box that starts with that sync
/// or after it": the first call that starts one that does not see it, in words.
pub fn unseen_by_a_start(calls: &[Call]) -> Option<String> {
    let mut day = Day::fresh();
    let mut synced: Vec<VertexId> = Vec::new();
    calls.iter().find_map(|call| {
        let started = day.revisions().len();
        let yielded = yielded_before(&day, call);
        let accepted = day.call(call).code == Code::Accepted;
        match call {
            Call::Fresh { .. } => synced.clear(),
            Call::Sync { .. } if accepted => synced.extend(yielded),
            _ => {}
        }
        let mut starts = day.revisions().iter().skip(started).map(|revision| revision.start);
        let unseen = starts.find_map(|start| synced.iter().find(|&&x| !day.sees(start, x)))?;
        Some(format!("`{call}` starts a revision that does not see vertex {}", unseen.place()))
    })
}

/// The events yielded on the box that a sync names.
fn yielded_before(day: &Day, call: &Call) -> Vec<VertexId> {
    let Call::Sync { revision } = *call else { return Vec::new() };
    let meant = day.meant(revision);
    let there = |t: &&literal::Transaction| Some(t.revision) == meant && !t.is_open();
    day.transactions().iter().filter(there).flat_map(|t| t.events.clone()).collect()
}
