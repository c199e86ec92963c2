//! 02, U8: wrong single-main days and wrong syncs are found by the literal replay. Each is the baseline
//! with the choice's cell changed for a call, or with the parts of a sync put together otherwise.

use calls::{Answer, Call, Code, BIBS, BOARD};
use days::{disagreement_by, must_find, Profile};

/// Where the parts lie: docs/CELLS.md.
const STATE: usize = 39_040;
const QUEUE: usize = 39_744;
const OPENED: usize = 39_808;
const OUT: usize = 39_826;
const GIVEN: usize = 39_827;
const SINGLE: usize = 40_084;

/// The bytes of a table.
type Bytes = Vec<u8>;

/// Makes a call, wrongly.
type Wrong = fn(&mut Bytes, &Call) -> Answer;

/// The choice, and what it refuses.
const OFF_THE_LINE: [(&str, Wrong); 18] = [
    ("15 before 3", |t, call| before(t, call, Code::NeverGiven)),
    ("15 before 4", |t, call| before(t, call, Code::Joined)),
    ("15 after 7", |t, call| after(t, call, Code::InUse)),
    ("15 after 10", |t, call| after(t, call, Code::NoneLeft)),
    ("15 after 11", |t, call| after(t, call, Code::NotJoinable)),
    ("15 after 5 of a preview", |t, call| match *call {
        Call::Preview { bib: BIBS.., .. } if right(t, call).code == Code::OffTheLine => {
            Answer::refused(Code::BadEntry)
        }
        _ => right(t, call),
    }),
    ("15 for a fork on an ordinary day", |t, call| only(t, call, "fork", 1)),
    ("15 for a join on an ordinary day", |t, call| only(t, call, "join", 1)),
    ("15 for a preview on an ordinary day", |t, call| only(t, call, "preview", 1)),
    ("no 15 for a fork", |t, call| only(t, call, "fork", 0)),
    ("no 15 for a join", |t, call| only(t, call, "join", 0)),
    ("no 15 for a preview", |t, call| only(t, call, "preview", 0)),
    ("15 by the joinee", |t, call| match *call {
        Call::Join { joiner, joinee } if joiner != joinee && t[SINGLE] == 1 => {
            match chosen(&mut t.clone(), call, 0).code {
                Code::NeverGiven | Code::Joined => right(t, call),
                _ if joinee != 0 => Answer::refused(Code::OffTheLine),
                _ => chosen(t, call, 0),
            }
        }
        _ => right(t, call),
    }),
    ("the choice is forgotten by the next call", |t, call| {
        let answer = right(t, call);
        if call.name() != "fresh" {
            t[SINGLE] = 0;
        }
        answer
    }),
    ("the choice is forgotten once 15 was given", |t, call| {
        let answer = right(t, call);
        if answer.code == Code::OffTheLine {
            t[SINGLE] = 0;
        }
        answer
    }),
    ("the choice is kept from the day before", |t, call| {
        let choice = t[SINGLE];
        let answer = right(t, call);
        if call.name() == "fresh" {
            t[SINGLE] = choice;
        }
        answer
    }),
    ("once a single-main day, always one", |t, call| {
        let choice = t[SINGLE];
        let answer = right(t, call);
        t[SINGLE] |= choice;
        answer
    }),
    ("a fresh of the other choice", |t, call| match *call {
        Call::Fresh { single_main } => right(t, &Call::Fresh { single_main: !single_main }),
        _ => right(t, call),
    }),
];

/// The call sync.
const SYNCS: [(&str, Wrong); 16] = [
    ("a sync that forks first", |t, call| {
        synced(t, call, |t, revision| {
            let forked = right(t, &Call::Fork { revision: 0 });
            right(t, &Call::Join { joiner: 0, joinee: revision });
            forked
        })
    }),
    ("a sync that answers the number it was given", |t, call| {
        synced(t, call, |t, revision| {
            right(t, &Call::Sync { revision });
            Answer::accepted(u32::from(revision))
        })
    }),
    ("a sync that uses the number it was given", |t, call| {
        synced(t, call, |t, revision| {
            right(t, &Call::Join { joiner: 0, joinee: revision });
            let given = t[GIVEN];
            let free = usize::from(given - t[OUT]);
            t[QUEUE..QUEUE + free].rotate_right(1);
            t[GIVEN] = 64;
            let forked = right(t, &Call::Fork { revision: 0 });
            t[GIVEN] = given;
            forked
        })
    }),
    ("a sync that uses a handed in number too early", |t, call| {
        synced(t, call, |t, revision| {
            right(t, &Call::Join { joiner: 0, joinee: revision });
            let given = std::mem::replace(&mut t[GIVEN], 64);
            let forked = right(t, &Call::Fork { revision: 0 });
            t[GIVEN] = given;
            forked
        })
    }),
    ("a sync that joins nothing", |t, call| {
        synced(t, call, |t, _| right(t, &Call::Fork { revision: 0 }))
    }),
    ("a sync that leaves the joinee out", |t, call| {
        synced(t, call, |t, revision| {
            let answer = right(t, &Call::Sync { revision });
            t[STATE + usize::from(revision)] = 1;
            answer
        })
    }),
    ("a sync that forks nothing", |t, call| {
        synced(t, call, |t, revision| {
            let answer = right(&mut t.clone(), &Call::Sync { revision });
            right(t, &Call::Join { joiner: 0, joinee: revision });
            answer
        })
    }),
    ("a sync that forks the joined box", |t, call| {
        synced(t, call, |t, revision| {
            let forked = chosen(t, &Call::Fork { revision }, 0);
            right(t, &Call::Join { joiner: 0, joinee: revision });
            forked
        })
    }),
    ("a sync that answers the gain", |t, call| {
        synced(t, call, |t, revision| {
            let joined = right(&mut t.clone(), &Call::Join { joiner: 0, joinee: revision });
            right(t, &Call::Sync { revision });
            joined
        })
    }),
    ("10 for a sync with 64 out", |t, call| {
        synced(t, call, |t, revision| match t[OUT] {
            64 => Answer::refused(Code::NoneLeft),
            _ => right(t, &Call::Sync { revision }),
        })
    }),
    ("15 for a sync of another box", |t, call| {
        synced(t, call, |t, revision| match t[SINGLE] {
            1 => Answer::refused(Code::OffTheLine),
            _ => right(t, &Call::Sync { revision }),
        })
    }),
    ("no sync on an ordinary day", |t, call| {
        synced(t, call, |t, revision| match t[SINGLE] {
            0 => Answer::refused(Code::OffTheLine),
            _ => right(t, &Call::Sync { revision }),
        })
    }),
    ("a sync of a busy box has joined when it is refused", |t, call| {
        let answer = right(t, call);
        if let (&Call::Sync { revision }, Code::InUse) = (call, answer.code) {
            let open = t[OPENED..OPENED + 16].to_vec();
            t[OPENED..OPENED + 16].fill(64);
            right(t, &Call::Join { joiner: 0, joinee: revision });
            t[OPENED..OPENED + 16].copy_from_slice(&open);
        }
        answer
    }),
    ("a sync has forked when it is refused", |t, call| {
        let answer = right(t, call);
        if let (Call::Sync { .. }, Code::NotJoinable) = (call, answer.code) {
            right(t, &Call::Fork { revision: 0 });
        }
        answer
    }),
    ("a sync of box 0 is a fork", |t, call| match *call {
        Call::Sync { revision: 0 } => right(t, &Call::Fork { revision: 0 }),
        _ => right(t, call),
    }),
    ("11 before 7 of a sync", |t, call| {
        let answer = right(t, call);
        let mut idle = t.clone();
        idle[OPENED..OPENED + 16].fill(64);
        match (call, answer.code, right(&mut idle, call).code) {
            (Call::Sync { .. }, Code::InUse, Code::NotJoinable) => {
                Answer::refused(Code::NotJoinable)
            }
            _ => answer,
        }
    }),
];

fn right(t: &mut Bytes, call: &Call) -> Answer {
    baseline::call(t, &mut [0; BOARD], call).unwrap_or_else(Answer::refused)
}

/// The call on a day of this choice.
fn chosen(t: &mut Bytes, call: &Call, choice: u8) -> Answer {
    let before = std::mem::replace(&mut t[SINGLE], choice);
    let answer = right(t, call);
    t[SINGLE] = before;
    answer
}

/// Calls of this name on a day of this choice, the others as they are.
fn only(t: &mut Bytes, call: &Call, name: &str, choice: u8) -> Answer {
    if call.name() == name {
        chosen(t, call, choice)
    } else {
        right(t, call)
    }
}

/// 15 is found before this code, where it applies too.
fn before(t: &mut Bytes, call: &Call, code: Code) -> Answer {
    let answer = right(t, call);
    let off = match *call {
        Call::Fork { revision: at } => at != 0,
        Call::Join { joiner: at, .. } | Call::Preview { joiner: at, .. } => at != 0,
        _ => false,
    };
    match off && t[SINGLE] == 1 && answer.code == code {
        true => Answer::refused(Code::OffTheLine),
        false => answer,
    }
}

/// 15 is found after this code, where that applies too.
fn after(t: &mut Bytes, call: &Call, code: Code) -> Answer {
    let answer = right(t, call);
    match answer.code == Code::OffTheLine && chosen(&mut t.clone(), call, 0).code == code {
        true => Answer::refused(code),
        false => answer,
    }
}

/// A sync that is rightly taken is made so; what is right else. A refusal leaves what there was.
fn synced(t: &mut Bytes, call: &Call, wrong: impl Fn(&mut Bytes, u8) -> Answer) -> Answer {
    let mut copy = t.clone();
    match *call {
        Call::Sync { revision } if right(&mut t.clone(), call).code == Code::Accepted => {
            let answer = wrong(&mut copy, revision);
            if answer.code == Code::Accepted {
                *t = copy;
            }
            answer
        }
        _ => right(t, call),
    }
}

#[test]
fn wrong_choices_and_syncs_are_found() {
    let kinds = [Profile::SINGLE_MAIN, Profile::CROWDED_SINGLE_MAIN, Profile::RENEWED];
    for (name, wrong) in OFF_THE_LINE.into_iter().chain(SYNCS) {
        let by_wrong = |calls: &[Call]| {
            let mut t = baseline::Day::fresh().bytes().to_vec();
            disagreement_by(calls, |call| wrong(&mut t, call))
        };
        must_find(name, kinds.into_iter().flat_map(|kind| kind.days(0..60)), by_wrong);
    }
}
