//! 02, U7: "A fork now takes a never-used number while there is one, else the number handed in longest
//! ago. Code 10 is given exactly if 64 boxes are out." A sync (U8) hands in before its fork. A mark (U9)
//! takes a number as a fork does; a drop "frees its number as a hand-in does".

use calls::{Answer, Call, Code, REVISIONS};

use crate::history::{named, History};

/// The first call of a day that takes another number than it should, or finds a number never given,
/// handed in or out where it is not, in words. `make` makes one call, on a table that was fresh.
pub fn fault_of_numbers<D>(
    mut day: D,
    calls: &[Call],
    make: impl Fn(&mut D, &Call) -> Answer,
) -> Option<String> {
    let mut history = History::fresh();
    calls.iter().find_map(|call| {
        let answer = make(&mut day, call);
        let fault = fault(&history, call, &answer);
        history.learn(call, &answer);
        fault.map(|fault| format!("`{call}`: gives {answer}, but {fault}"))
    })
}

fn fault(history: &History, call: &Call, answer: &Answer) -> Option<String> {
    let History { out, handed_in, .. } = history;
    let never = |number: &u8| !out.contains(number) && !handed_in.contains_key(number);
    let named = named(call);
    let right = match answer.code {
        Code::NeverGiven => named.iter().any(never),
        Code::Joined => named.iter().any(|number| handed_in.contains_key(number)),
        Code::UnknownClient | Code::WrongBundle => true,
        _ => named.iter().all(|number| out.contains(number)),
    };
    if !right {
        return Some(format!("out are {out:?}, handed in {handed_in:?}"));
    }
    let next = match *call {
        Call::Fork { .. } | Call::Mark { .. } => next(history),
        Call::Sync { revision } => next(&joined(history, revision)),
        _ => return None,
    };
    match (answer.code, next) {
        (Code::Accepted, Some(next)) if answer.value == u32::from(next) => None,
        (Code::Accepted, next) => Some(format!("the next number is {next:?}")),
        (Code::NoneLeft, Some(next)) => Some(format!("number {next} is left")),
        _ => None,
    }
}

/// The number that a fork takes; none if 64 revisions are out.
fn next(history: &History) -> Option<u8> {
    let History { out, handed_in, .. } = history;
    let used = |number: &u8| out.contains(number) || handed_in.contains_key(number);
    let longest_ago = || handed_in.iter().min_by_key(|(_, &at)| at);
    (0..REVISIONS).find(|number| !used(number)).or(longest_ago().map(|(&number, _)| number))
}

fn joined(history: &History, number: u8) -> History {
    let mut joined = history.clone();
    joined.hand_in(number);
    joined
}
