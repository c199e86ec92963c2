//! Wrong boards and wrong checks of their length are found by the comparison with the literal replay: the
//! wrong programs of 02's U10, and others.

use calls::{Answer, Call, Code};
use days::{brought, days_of, fault_of_boards, must_find, post, rightly_left, Profile};
use literal::{Day, Transaction, Update, VertexKind};

/// A call with the day before and after it, and what it answered.
struct Made<'a> {
    before: &'a Day,
    after: &'a Day,
    call: &'a Call,
    accepted: bool,
}

impl Made<'_> {
    /// What a call other than fresh brought.
    fn brought(&self) -> Vec<Update> {
        match self.call {
            Call::Fresh { .. } => Vec::new(),
            _ => brought(self.before, self.after),
        }
    }

    /// What the open transaction of a client has, or the joined box of its own, wherever they are.
    fn anywhere(&self) -> Vec<Update> {
        let day = self.before;
        match *self.call {
            Call::Yield { client } => {
                let mut open = day.transactions().iter().filter(|t| t.is_open());
                let own = open.find(|t| t.client == usize::from(client));
                own.map_or(vec![], |t| updates_in(day, t))
            }
            Call::Join { joinee, .. } => {
                let own = day.meant(joinee).map_or(vec![], |revision| day.own(revision));
                own.into_iter().map(|number| day.updates()[number]).collect()
            }
            _ => vec![],
        }
    }
}

/// The updates of a transaction, as entered.
fn updates_in(day: &Day, transaction: &Transaction) -> Vec<Update> {
    let update = |&x| match day.diagram().kind(x) {
        VertexKind::Update(number) => Some(day.updates()[number]),
        _ => None,
    };
    transaction.events.iter().filter_map(update).collect()
}

/// What a wrong call leaves of a board that it takes, where its right one is left already.
type Wrong = fn(&Made<'_>, found: &[u8], board: &mut [u8]);

/// The board that was found, with these updates applied.
fn posted(found: &[u8], board: &mut [u8], updates: impl IntoIterator<Item = Update>) {
    board.copy_from_slice(found);
    updates.into_iter().for_each(|update| post(board, update));
}

const WRONG: [(&str, Wrong); 13] = [
    ("open updates shown", |made, found, board| {
        if made.accepted && !matches!(made.call, Call::Fresh { .. }) {
            let open = made.after.transactions().iter().find(|t| t.is_open() && t.revision == 0);
            let open = open.map_or(vec![], |t| updates_in(made.after, t));
            posted(found, board, made.brought().into_iter().chain(open));
        }
    }),
    ("a yield on another box that brings", |made, found, board| {
        if made.accepted && matches!(made.call, Call::Yield { .. }) {
            posted(found, board, made.anywhere());
        }
    }),
    ("a bundle that brings only its own entries", |made, found, board| {
        if let (true, Call::Bundle { records, .. }) = (made.accepted, made.call) {
            let brought = made.brought();
            let own = brought.len().saturating_sub(records.len() / 12);
            posted(found, board, brought[own..].iter().copied());
        }
    }),
    ("a join that applies the gain before what stands there", |made, found, board| {
        if made.accepted && matches!(made.call, Call::Join { .. } | Call::Sync { .. }) {
            let brought = made.brought();
            let closed = made.before.closed();
            let before = closed.into_iter().map(|number| made.before.updates()[number]);
            let bibs: Vec<u16> = brought.iter().map(|update| update.bib).collect();
            let before: Vec<Update> = before.filter(|update| bibs.contains(&update.bib)).collect();
            board.copy_from_slice(found);
            bibs.iter().for_each(|&bib| board[5 * usize::from(bib)..][..5].fill(0));
            brought.into_iter().chain(before).for_each(|update| post(board, update));
        }
    }),
    ("a join into another box that brings", |made, found, board| {
        if made.accepted && matches!(made.call, Call::Join { .. }) {
            posted(found, board, made.anywhere());
        }
    }),
    ("a byte of 2 taken as struck", |made, found, board| {
        if made.accepted && !matches!(made.call, Call::Fresh { .. }) {
            let mut read = found.to_vec();
            let bibs: Vec<u16> = made.brought().iter().map(|update| update.bib).collect();
            for bib in bibs {
                let first = &mut read[5 * usize::from(bib)];
                *first = (*first).min(1);
            }
            posted(&read, board, made.brought());
        }
    }),
    ("a value left under a strike", |made, found, board| {
        for update in made.brought() {
            let at = 5 * usize::from(update.bib);
            if board[at] == 1 {
                board[at + 1..at + 5].copy_from_slice(&found[at + 1..at + 5]);
            }
        }
    }),
    ("a bib rewritten that was not brought", |made, _, board| {
        if made.accepted {
            let first = &mut board[0];
            *first = u8::from(*first == 1);
        }
    }),
    ("the board changed by a refusal", |made, _, board| {
        if !made.accepted {
            made.anywhere().into_iter().for_each(|update| post(board, update));
        }
    }),
    ("the gain applied twice by a sync", |made, found, board| {
        if made.accepted && matches!(made.call, Call::Sync { .. }) {
            posted(found, board, made.brought().into_iter().chain(made.brought()));
        }
    }),
    ("the last update of each bib alone", |made, found, board| {
        if made.accepted && !matches!(made.call, Call::Fresh { .. }) {
            let brought = made.brought();
            let last = |(place, update): (usize, &Update)| {
                let later = brought[place + 1..].iter().any(|other| other.bib == update.bib);
                (!later).then_some(*update)
            };
            posted(found, board, brought.iter().enumerate().filter_map(last));
        }
    }),
    ("what is brought, applied backwards", |made, found, board| {
        if made.accepted && !matches!(made.call, Call::Fresh { .. }) {
            let mut brought = made.brought();
            brought.reverse();
            posted(found, board, brought);
        }
    }),
    ("a fresh that clears nothing", |made, found, board| {
        if matches!(made.call, Call::Fresh { .. }) {
            board.copy_from_slice(found);
        }
    }),
];

#[test]
fn wrong_boards_are_found() {
    for (name, wrong) in WRONG {
        let kinds = [
            (Profile::SMALL, 60),
            (Profile::SMALL_SINGLE_MAIN, 30),
            (Profile::BUNDLES, 20),
            (Profile::RENEWED, 10),
        ];
        must_find(name, days_of(&kinds), |calls| {
            fault_of_boards(Day::fresh(), calls, 0, |day: &mut Day, board, call| {
                let (before, found) = (day.clone(), board.to_vec());
                let answer = day.call(call);
                board.copy_from_slice(&rightly_left(&before, day, call, &answer, &found));
                let accepted = answer.code == Code::Accepted;
                if call.takes_a_board() && answer.code != Code::WrongBoard {
                    wrong(&Made { before: &before, after: day, call, accepted }, &found, board);
                }
                answer
            })
        });
    }
}

/// What a call with a wrong board answers by a wrong check: of its right answer, and of that with a right
/// board.
type WrongCheck = fn(right: Answer, otherwise: Answer) -> Answer;

/// 19 left out, or in another place among the checks.
const WRONG_CHECKS: [(&str, WrongCheck); 5] = [
    ("19 left out", |_, otherwise| otherwise),
    ("19 after 2", |right, otherwise| match otherwise.code {
        Code::UnknownClient => otherwise,
        _ => right,
    }),
    ("19 after 3", |right, otherwise| match otherwise.code {
        Code::NeverGiven => otherwise,
        _ => right,
    }),
    ("19 last", |right, otherwise| match otherwise.code {
        Code::Accepted => right,
        _ => otherwise,
    }),
    ("19 before 14", |right, _| match right.code {
        Code::WrongBundle => Answer::refused(Code::WrongBoard),
        _ => right,
    }),
];

#[test]
fn wrong_checks_of_the_length_are_found() {
    for (name, wrong) in WRONG_CHECKS {
        let kinds = [(Profile::STRANGE, 150), (Profile::BUNDLES, 200)];
        must_find(name, days_of(&kinds), |calls| {
            fault_of_boards(Day::fresh(), calls, 0, |day: &mut Day, board, call| {
                if let Call::OnBoard { call: inner, .. } = call {
                    return wrong(day.call(call), day.clone().call(inner));
                }
                let (before, found) = (day.clone(), board.to_vec());
                let answer = day.call(call);
                board.copy_from_slice(&rightly_left(&before, day, call, &answer, &found));
                answer
            })
        });
    }
}
