//! 02, U9, by the calls and their answers: which names are in use, what a marked box refuses, and that it
//! lists what was there when it was marked.

use std::collections::BTreeMap;

use calls::{Answer, Call, Code, Line, SHEET};

use crate::history::{named, History};

/// The first call of a day with a code other than the marks that are out allow, or after which a marked
/// box, or one that was just forked, lists something else, in words. `make` makes one call, on a table
/// that was fresh; it is asked for lists besides.
pub fn fault_of_marks<D>(
    mut day: D,
    calls: &[Call],
    make: impl Fn(&mut D, &Call) -> Answer,
) -> Option<String> {
    let list = |day: &mut D, revision| make(day, &Call::List { revision, room: SHEET }).lines;
    let mut history = History::fresh();
    // What each mark that is out, and the box that was forked last, must list.
    let mut kept: BTreeMap<u8, Vec<Line>> = BTreeMap::new();
    calls.iter().find_map(|call| {
        let shown = source(call).map(|revision| list(&mut day, revision));
        let answer = make(&mut day, call);
        let right = fits(&history, call, answer.code);
        history.learn(call, &answer);
        kept.retain(|&number, _| history.is_marked(number));
        if let (Code::Accepted, Some(shown)) = (answer.code, shown) {
            kept.insert(answer.value as u8, shown);
        }
        let changed = kept.iter().find(|(&number, lines)| list(&mut day, number) != **lines);
        let fault = match (right, changed) {
            (false, _) => format!("gives {answer}"),
            (true, Some((number, lines))) => format!("box {number} does not list {lines:?}"),
            (true, None) => return None,
        };
        Some(format!("`{call}`: {fault}, the marks are {:?}", history.marks))
    })
}

/// The revision that a fork or a mark starts from.
fn source(call: &Call) -> Option<u8> {
    match *call {
        Call::Fork { revision } | Call::Mark { revision, .. } => Some(revision),
        _ => None,
    }
}

/// Whether a call may have this code, with these marks out.
fn fits(history: &History, call: &Call, code: Code) -> bool {
    let in_use = |name: &Vec<u8>| history.marks.contains_key(name);
    let marked = named(call).into_iter().any(|number| history.is_marked(number));
    let earlier = [Code::NeverGiven, Code::Joined].contains(&code);
    match call {
        Call::Mark { .. } if history.single_main => earlier || code == Code::OffTheLine,
        Call::Mark { name, .. } => {
            let bad = !four_letters(name) || in_use(name);
            let last = if bad { Code::BadName } else { Code::Accepted };
            earlier || [Code::InUse, Code::NoneLeft, last].contains(&code)
        }
        Call::Drop { name } => code == if in_use(name) { Code::Accepted } else { Code::NoSuchMark },
        Call::Update { .. } | Call::Query { .. } | Call::Bundle { .. } if marked => {
            [Code::WrongBundle, Code::UnknownClient, Code::Marked].contains(&code)
        }
        Call::Join { .. } | Call::Preview { .. } | Call::Sync { .. } if marked => {
            earlier || code == Code::Marked
        }
        _ => ![Code::Marked, Code::BadName, Code::NoSuchMark].contains(&code),
    }
}

/// "a name of four letters A to Z"
fn four_letters(name: &[u8]) -> bool {
    matches!(name, [b'A'..=b'Z', b'A'..=b'Z', b'A'..=b'Z', b'A'..=b'Z'])
}
