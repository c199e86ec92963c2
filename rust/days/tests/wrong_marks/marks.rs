//! What a mark does: "A mark forks an idle box, marked or not, and gives the new box a name"; "Mark has
//! fork's refusals and value"; "Single-main days have no marks: mark gives 15".

use calls::{Answer, Call, Code};

use super::{Table, Wrong, IS_OUT, JOINED, MARKED, OUT, SINGLE};

pub(crate) const WRONG: &[(&str, Wrong)] = &[
    ("a mark of a busy box", |t, call| match call {
        Call::Mark { .. } => t.idle(call),
        _ => t.right(call),
    }),
    ("a mark is not counted among the 64", |t, call| marked(t, call, |t, _, _| t.bytes[OUT] -= 1)),
    ("a mark counted as joined", |t, call| marked(t, call, |t, _, new| *t.state(new) = JOINED)),
    ("a new box that is not marked", |t, call| marked(t, call, |t, _, new| *t.state(new) = IS_OUT)),
    ("the box itself is marked", |t, call| {
        marked(t, call, |t, source, new| {
            *t.state(new) = IS_OUT;
            *t.state(source) = MARKED;
        })
    }),
    ("a mark answers 0", |t, call| match (call, t.right(call)) {
        (Call::Mark { .. }, Answer { code: Code::Accepted, .. }) => Answer::accepted(0),
        (_, answer) => answer,
    }),
    ("10 for a mark with 63 out", |t, call| match (call, t.bytes[OUT]) {
        (Call::Mark { .. }, 63) if t.would_be(call).code == Code::Accepted => {
            Answer::refused(Code::NoneLeft)
        }
        _ => t.right(call),
    }),
    ("a mark lists what its box has now", |t, call| match *call {
        Call::List { revision, room } if t.is_marked(revision) => {
            now(t, revision, |revision| Call::List { revision, room })
        }
        _ => t.right(call),
    }),
    ("a fork of a mark has what its box has now", |t, call| match *call {
        Call::Fork { revision } if t.is_marked(revision) => {
            now(t, revision, |revision| Call::Fork { revision })
        }
        _ => t.right(call),
    }),
    ("a fork of a mark is marked", |t, call| forked(t, call, |t, _, new| *t.state(new) = MARKED)),
    ("a mark ends when it is forked", |t, call| {
        forked(t, call, |t, source, _| *t.state(source) = IS_OUT)
    }),
    ("a mark on a single-main day", |t, call| match call {
        Call::Mark { .. } => t.chosen(call, 0),
        _ => t.right(call),
    }),
    ("a mark of box 0 on a single-main day", |t, call| match call {
        Call::Mark { revision: 0, .. } => t.chosen(call, 0),
        _ => t.right(call),
    }),
    ("15 of a mark before 3", |t, call| off_the_line(t, call, Code::NeverGiven)),
    ("15 of a mark before 4", |t, call| off_the_line(t, call, Code::Joined)),
    ("15 of a mark after 7", |t, call| on_the_line(t, call, Code::InUse)),
    ("15 of a mark after 10", |t, call| on_the_line(t, call, Code::NoneLeft)),
    ("15 of a mark after 17", |t, call| on_the_line(t, call, Code::BadName)),
];

/// Makes the call, and changes cells after a mark that is taken: by its box, and the new number.
fn marked(t: &mut Table, call: &Call, change: fn(&mut Table, u8, u8)) -> Answer {
    let answer = t.right(call);
    if let (&Call::Mark { revision, .. }, Code::Accepted) = (call, answer.code) {
        change(t, revision, answer.value as u8);
    }
    answer
}

/// Makes the call, and changes cells after a fork of a mark that is taken.
fn forked(t: &mut Table, call: &Call, change: fn(&mut Table, u8, u8)) -> Answer {
    let answer = t.right(call);
    match *call {
        Call::Fork { revision } if answer.code == Code::Accepted && t.is_marked(revision) => {
            change(t, revision, answer.value as u8);
        }
        _ => {}
    }
    answer
}

/// Makes a call of the box that was marked, if it still can be made; else of the mark.
fn now(t: &mut Table, mark: u8, call: impl Fn(u8) -> Call) -> Answer {
    let of_source = call(t.source[usize::from(mark)]);
    match t.would_be(&of_source).code {
        Code::Accepted => t.right(&of_source),
        _ => t.right(&call(mark)),
    }
}

/// 15 is found before this code, where it applies too.
fn off_the_line(t: &mut Table, call: &Call, code: Code) -> Answer {
    let answer = t.right(call);
    match call.name() == "mark" && t.bytes[SINGLE] == 1 && answer.code == code {
        true => Answer::refused(Code::OffTheLine),
        false => answer,
    }
}

/// 15 is found after this code, where that applies too.
fn on_the_line(t: &mut Table, call: &Call, code: Code) -> Answer {
    let answer = t.right(call);
    let off = call.name() == "mark" && answer.code == Code::OffTheLine;
    match off && t.clone().chosen(call, 0).code == code {
        true => Answer::refused(code),
        false => answer,
    }
}
