//! What a drop does: "Dropping a mark, by its name, frees its number as a hand-in does, so that it gives 4
//! until used again"; "its value is 0".

use calls::{Answer, Call, Code};

use super::{Table, Wrong, GIVEN, IS_OUT, MARKED, NEVER, OUT, QUEUE, SEEN, SINGLE};

pub(crate) const WRONG: &[(&str, Wrong)] = &[
    ("a drop frees no number", |t, call| {
        dropped(t, call, |before, t, _| {
            t.bytes[QUEUE..GIVEN].copy_from_slice(&before.bytes[QUEUE..GIVEN]);
        })
    }),
    ("a drop frees its number twice", |t, call| {
        dropped(t, call, |_, t, number| {
            t.bytes[OUT] -= 1;
            if let Some(last) = t.queue().last_mut() {
                *last = number;
            }
        })
    }),
    ("a dropped number is the next to be used", |t, call| {
        dropped(t, call, |_, t, _| t.queue().rotate_right(1))
    }),
    ("a dropped number goes before the last hand-in", |t, call| {
        dropped(t, call, |_, t, _| {
            if let [.., last, dropped] = t.queue() {
                std::mem::swap(last, dropped);
            }
        })
    }),
    ("a dropped number is used before those never used", |t, call| {
        let given = t.bytes[GIVEN];
        match (call, t.queue().first().copied()) {
            (Call::Fork { .. } | Call::Mark { .. }, Some(_)) if !t.dropped.is_empty() => {
                t.bytes[GIVEN] = 64;
                let answer = t.right(call);
                t.bytes[GIVEN] = given;
                answer
            }
            _ => t.right(call),
        }
    }),
    ("a drop leaves the box listed", |t, call| {
        dropped(t, call, |_, t, number| *t.state(number) = MARKED)
    }),
    ("a drop takes the name alone", |t, call| {
        dropped(t, call, |before, t, number| {
            t.bytes = before.bytes.clone();
            *t.state(number) = IS_OUT;
        })
    }),
    ("a dropped number gives 3", |t, call| {
        dropped(t, call, |_, t, number| *t.state(number) = NEVER)
    }),
    ("a drop joins the mark into box 0", |t, call| {
        dropped(t, call, |_, t, number| {
            let row = SEEN + 8 * usize::from(number);
            (0..8).for_each(|at| t.bytes[SEEN + at] |= t.bytes[row + at]);
        })
    }),
    ("a drop of another mark", |t, call| match *call {
        Call::Drop { ref name } if t.bearer(name).is_some() => {
            let last = (1..64).rfind(|&number| t.is_marked(number));
            t.right(&Call::Drop { name: last.map_or(name.clone(), |last| t.name(last).to_vec()) })
        }
        _ => t.right(call),
    }),
    ("a drop answers the number", |t, call| match call {
        Call::Drop { name } => {
            let number = t.bearer(name).unwrap_or(0);
            let answer = t.right(call);
            Answer { value: u32::from(number), ..answer }
        }
        _ => t.right(call),
    }),
    ("7 for a drop while the box is busy", |t, call| match call {
        Call::Drop { name } => {
            let source = t.bearer(name).map(|number| t.source[usize::from(number)]);
            let fork = source.map(|revision| Call::Fork { revision });
            match fork.is_some_and(|fork| t.would_be(&fork).code == Code::InUse) {
                true => Answer::refused(Code::InUse),
                false => t.right(call),
            }
        }
        _ => t.right(call),
    }),
    ("15 for a drop on a single-main day", |t, call| match (call, t.bytes[SINGLE]) {
        (Call::Drop { .. }, 1) => Answer::refused(Code::OffTheLine),
        _ => t.right(call),
    }),
];

/// Makes the call, and changes cells after a drop that is taken: by what they were, and the number.
fn dropped(t: &mut Table, call: &Call, change: fn(&Table, &mut Table, u8)) -> Answer {
    let before = t.clone();
    let answer = t.right(call);
    if let (Call::Drop { name }, Code::Accepted) = (call, answer.code) {
        let number = before.bearer(name).expect("a drop that is taken is of a mark");
        change(&before, t, number);
    }
    answer
}
