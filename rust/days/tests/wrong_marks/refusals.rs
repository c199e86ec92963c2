//! 16, "marked box, checked right after 15": where it is left out, given too often, or found too early or
//! too late.

use calls::{Answer, Call, Code, BIBS};

use super::{named, Table, Wrong, IS_OUT, MARKED};

pub(crate) const WRONG: &[(&str, Wrong)] = &[
    ("a marked box is written", |t, call| allowed(t, call, "update", named(call))),
    ("a marked box is queried", |t, call| allowed(t, call, "query", named(call))),
    ("a bundle on a marked box", |t, call| allowed(t, call, "bundle", named(call))),
    ("a joiner that is marked", |t, call| allowed(t, call, "join", first(call))),
    ("a joinee that is marked", |t, call| allowed(t, call, "join", last(call))),
    ("a preview with a marked joiner", |t, call| allowed(t, call, "preview", first(call))),
    ("a preview with a marked joinee", |t, call| allowed(t, call, "preview", last(call))),
    ("a sync of a marked box", |t, call| allowed(t, call, "sync", named(call))),
    ("16 for a fork", |t, call| refused(t, call, "fork")),
    ("16 for a mark", |t, call| refused(t, call, "mark")),
    ("16 for a list", |t, call| refused(t, call, "list")),
    ("16 for a fill", |t, call| refused(t, call, "fill")),
    ("16 before 2", |t, call| before(t, call, Code::UnknownClient)),
    ("16 before 3", |t, call| before(t, call, Code::NeverGiven)),
    ("16 before 4", |t, call| before(t, call, Code::Joined)),
    ("16 before 14", |t, call| before(t, call, Code::WrongBundle)),
    ("16 after 5", |t, call| after(t, call, Code::BadEntry)),
    ("16 after 6", |t, call| after(t, call, Code::OpenElsewhere)),
    ("16 after 7", |t, call| after(t, call, Code::InUse)),
    ("16 after 8", |t, call| after(t, call, Code::Stale)),
    ("16 after 11", |t, call| after(t, call, Code::NotJoinable)),
    ("16 after 5 of a preview", |t, call| match (call, t.would_be(call).code) {
        (Call::Preview { bib: BIBS.., .. }, Code::Marked) => Answer::refused(Code::BadEntry),
        _ => t.right(call),
    }),
    ("4 for a marked box", |t, call| match t.would_be(call).code {
        Code::Marked => Answer::refused(Code::Joined),
        _ => t.right(call),
    }),
];

fn first(call: &Call) -> Vec<u8> {
    named(call).into_iter().take(1).collect()
}

fn last(call: &Call) -> Vec<u8> {
    named(call).into_iter().skip(1).collect()
}

/// Makes the call as if these boxes were not marked.
fn as_unmarked(t: &mut Table, call: &Call, mut boxes: Vec<u8>) -> Answer {
    boxes.retain(|&number| t.is_marked(number));
    boxes.iter().for_each(|&number| *t.state(number) = IS_OUT);
    let answer = t.right(call);
    for number in boxes {
        if *t.state(number) == IS_OUT {
            *t.state(number) = MARKED;
        }
    }
    answer
}

/// Calls of this name do not see that these boxes are marked.
fn allowed(t: &mut Table, call: &Call, name: &str, boxes: Vec<u8>) -> Answer {
    if call.name() == name {
        as_unmarked(t, call, boxes)
    } else {
        t.right(call)
    }
}

/// Calls of this name are refused if a box is marked.
fn refused(t: &mut Table, call: &Call, name: &str) -> Answer {
    let marked = named(call).into_iter().any(|number| t.is_marked(number));
    match call.name() == name && marked && t.would_be(call).code == Code::Accepted {
        true => Answer::refused(Code::Marked),
        false => t.right(call),
    }
}

/// 16 is found before this code, where it applies too.
fn before(t: &mut Table, call: &Call, code: Code) -> Answer {
    let barred = ["update", "query", "bundle", "join", "preview", "sync"].contains(&call.name());
    let marked = named(call).into_iter().any(|number| t.is_marked(number));
    let answer = t.right(call);
    match barred && marked && answer.code == code {
        true => Answer::refused(Code::Marked),
        false => answer,
    }
}

/// 16 is found after this code, where that applies too.
fn after(t: &mut Table, call: &Call, code: Code) -> Answer {
    let answer = t.right(call);
    let other = as_unmarked(&mut t.clone(), call, named(call)).code;
    match answer.code == Code::Marked && other == code {
        true => Answer::refused(code),
        false => answer,
    }
}
