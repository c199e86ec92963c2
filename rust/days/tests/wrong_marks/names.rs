//! "17 bad name, for a mark: not four letters, or in use; 18 no such mark, for a drop; 17 and 18 are
//! checked last."

use calls::{Answer, Call, Code};

use super::{Table, Wrong, NAMES};

pub(crate) const WRONG: &[(&str, Wrong)] = &[
    ("a mark with lower-case letters", |t, call| match *call {
        Call::Mark { revision, ref name } => {
            t.right(&Call::Mark { revision, name: name.to_ascii_uppercase() })
        }
        _ => t.right(call),
    }),
    ("a drop with lower-case letters", |t, call| match call {
        Call::Drop { name } => t.right(&Call::Drop { name: name.to_ascii_uppercase() }),
        _ => t.right(call),
    }),
    ("three letters are a name", |t, call| taken(t, call, |name| name.len() == 3)),
    ("five letters are a name", |t, call| taken(t, call, |name| name.len() == 5)),
    ("no letter is a name", |t, call| taken(t, call, |name| name.is_empty())),
    ("any four bytes are a name", |t, call| taken(t, call, |name| name.len() == 4)),
    ("the byte before A is a letter", |t, call| taken(t, call, |name| name.contains(&b'@'))),
    ("the byte after Z is a letter", |t, call| taken(t, call, |name| name.contains(&b'['))),
    ("A is no letter", |t, call| refused(t, call, |_, name| name.contains(&b'A'))),
    ("Z is no letter", |t, call| refused(t, call, |_, name| name.contains(&b'Z'))),
    ("the same name twice", |t, call| match call {
        Call::Mark { name, .. } if t.bearer(name).is_some() => named_so(t, call),
        _ => t.right(call),
    }),
    ("the first letter does not count", |t, call| refused(t, call, |t, name| alike(t, name, 0))),
    ("the last letter does not count", |t, call| refused(t, call, |t, name| alike(t, name, 3))),
    ("a name is in use after its drop", |t, call| {
        refused(t, call, |t, name| t.dropped.iter().any(|dropped| dropped == name))
    }),
    ("a name of the day before is in use", |t, call| {
        refused(t, call, |t, name| t.before_fresh.iter().any(|before| before == name))
    }),
    ("17 before 3", |t, call| before(t, call, Code::NeverGiven)),
    ("17 before 4", |t, call| before(t, call, Code::Joined)),
    ("17 before 15", |t, call| before(t, call, Code::OffTheLine)),
    ("17 before 7", |t, call| before(t, call, Code::InUse)),
    ("17 before 10", |t, call| before(t, call, Code::NoneLeft)),
    ("17 for a drop", |t, call| match call {
        Call::Drop { name } if name.len() != 4 => Answer::refused(Code::BadName),
        _ => t.right(call),
    }),
    ("a drop of no mark is taken", |t, call| match (call, t.right(call)) {
        (Call::Drop { .. }, _) => Answer::accepted(0),
        (_, answer) => answer,
    }),
    ("a mark with a bad name has forked when it is refused", |t, call| {
        let answer = t.right(call);
        if let (&Call::Mark { revision, .. }, Code::BadName) = (call, answer.code) {
            t.right(&Call::Fork { revision });
        }
        answer
    }),
];

/// Good, and none of those that the days have.
const OTHER: &[u8] = b"OTHR";

/// Whether 17 applies to a name.
fn is_bad(t: &Table, name: &[u8]) -> bool {
    let letters = name.iter().all(u8::is_ascii_uppercase);
    name.len() != 4 || !letters || t.bearer(name).is_some()
}

/// Makes a mark whatever its name is; of that, four bytes are kept.
fn named_so(t: &mut Table, call: &Call) -> Answer {
    let Call::Mark { revision, ref name } = *call else { return t.right(call) };
    let answer = t.right(&Call::Mark { revision, name: OTHER.to_vec() });
    if answer.code == Code::Accepted {
        let cells = t.bytes[NAMES + 4 * answer.value as usize..].iter_mut().take(4);
        cells.zip(name).for_each(|(cell, &byte)| *cell = byte);
    }
    answer
}

/// Bad names of some kind are good.
fn taken(t: &mut Table, call: &Call, good: fn(&[u8]) -> bool) -> Answer {
    match call {
        Call::Mark { name, .. } if good(name) && t.bearer(name).is_none() => named_so(t, call),
        _ => t.right(call),
    }
}

/// Good names of some kind are bad.
fn refused(t: &mut Table, call: &Call, bad: fn(&Table, &[u8]) -> bool) -> Answer {
    match (call, t.would_be(call).code) {
        (Call::Mark { name, .. }, Code::Accepted) if bad(t, name) => Answer::refused(Code::BadName),
        _ => t.right(call),
    }
}

/// Whether a mark bears a name that differs in this place alone.
fn alike(t: &Table, name: &[u8], place: usize) -> bool {
    let same = |other: &[u8]| (0..4).all(|at| at == place || other[at] == name[at]);
    (1..64).any(|number| t.is_marked(number) && same(t.name(number)))
}

/// 17 is found before this code, where it applies too.
fn before(t: &mut Table, call: &Call, code: Code) -> Answer {
    let answer = t.right(call);
    match call {
        Call::Mark { name, .. } if answer.code == code && is_bad(t, name) => {
            Answer::refused(Code::BadName)
        }
        _ => answer,
    }
}
