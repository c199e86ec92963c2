//! 02, U10, after every call of a day: a board that was right is right, and any other board has what its
//! promise says, byte by byte.

use calls::{Answer, Call, Code, BOARD};
use literal::{Day, Standing, Update};

use crate::rng::Rng;

/// Bytes of a bib's entry.
const ENTRY: usize = 5;

/// The first call of a day after which a board is wrong, in words. `make` makes one call on a table, with
/// a board lent to it if it takes one. It is asked twice, each time on a copy of the table: with the board
/// that was lent to every call, which must be as worked out afresh, and with one of random bytes. The
/// seed is theirs.
pub fn fault_of_boards<T: Clone + PartialEq>(
    mut table: T,
    calls: &[Call],
    seed: u64,
    make: impl Fn(&mut T, &mut [u8], &Call) -> Answer,
) -> Option<String> {
    let mut rng = Rng::new(seed);
    let mut day = Day::fresh();
    let (mut board, mut any) = (vec![0; BOARD], any_board(&mut rng));
    calls.iter().find_map(|call| {
        // What comes before a call that takes no board is not looked at.
        let before = call.takes_a_board().then(|| day.clone());
        let (any_before, mut other) = (any.clone(), table.clone());
        let right = day.call(call);
        let given = [make(&mut table, &mut board, call), make(&mut other, &mut any, call)];
        let left = rightly_left(before.as_ref().unwrap_or(&day), &day, call, &right, &any_before);
        let fault = if given.iter().any(|given| *given != right) {
            Some(format!("gives {} and {}, not {right}", given[0], given[1]))
        } else if table != other {
            Some("two boards leave two tables".to_string())
        } else {
            difference(&board, &day.board(), "the board")
                .or_else(|| difference(&any, &left, "a board of random bytes"))
        };
        if rng.percent(20) {
            disturb(&mut rng, &mut any);
        }
        fault.map(|fault| format!("`{call}`: {fault}"))
    })
}

/// Whether a call may change what a right board shows: no other closes a transaction, or brings something to
/// box 0.
pub fn may_change_boards(call: &Call, answer: &Answer) -> bool {
    answer.code == Code::Accepted && call.takes_a_board()
}

/// Where two boards first differ, in words.
fn difference(board: &[u8], right: &[u8], what: &str) -> Option<String> {
    if board == right {
        return None;
    }
    let at = board.iter().zip(right).position(|(byte, right)| byte != right)?;
    let entry = at / ENTRY * ENTRY..at / ENTRY * ENTRY + ENTRY;
    let (found, right) = (&board[entry.clone()], &right[entry]);
    Some(format!("{what} has {found:?} for bib {}, not {right:?}", at / ENTRY))
}

/// Any bytes; the first of each entry is 0, 1, 2, 255 or any.
fn any_board(rng: &mut Rng) -> Vec<u8> {
    let mut board = vec![0; BOARD];
    (0..BOARD / ENTRY).for_each(|bib| any_entry(rng, &mut board, bib));
    board
}

/// Other bytes for some of the first bibs, which most updates are of.
fn disturb(rng: &mut Rng, board: &mut [u8]) {
    for _ in 0..4 {
        let bib = rng.below(8);
        any_entry(rng, board, bib);
    }
}

fn any_entry(rng: &mut Rng, board: &mut [u8], bib: usize) {
    let [first, v0, v1, v2, v3, ..] = rng.bits().to_le_bytes();
    let first = rng.pick(&[0, 1, 2, 255, first]);
    let value = if rng.percent(20) { [0; 4] } else { [v0, v1, v2, v3] };
    board[ENTRY * bib] = first;
    board[ENTRY * bib + 1..ENTRY * bib + ENTRY].copy_from_slice(&value);
}

/// What a call has to leave of any board, by the day before and after it: "Fresh clears it; by other
/// calls a board is altered only at bibs that they bring to box 0, where the updates brought are applied
/// in listed order to the entry found (struck if its byte is 1, else its value) and the entry is written
/// anew, value 0 if struck."
pub fn rightly_left(
    before: &Day,
    after: &Day,
    call: &Call,
    answer: &Answer,
    board: &[u8],
) -> Vec<u8> {
    match call {
        _ if !may_change_boards(call, answer) => board.to_vec(),
        Call::Fresh { .. } => vec![0; BOARD],
        _ => {
            let mut left = board.to_vec();
            brought(before, after).into_iter().for_each(|update| post(&mut left, update));
            left
        }
    }
}

/// The updates that a call brings to box 0: what it shows after the call, of closed transactions, behind
/// what it showed before.
pub fn brought(before: &Day, after: &Day) -> Vec<Update> {
    let (shown, shows) = (before.closed(), after.closed());
    assert!(shows.starts_with(&shown), "the list of box 0 grows only at its end");
    shows[shown.len()..].iter().map(|&number| after.updates()[number]).collect()
}

/// Applies an update to the entry found on a board, and writes the entry anew.
pub fn post(board: &mut [u8], update: Update) {
    let entry = &mut board[ENTRY * usize::from(update.bib)..][..ENTRY];
    let value = u32::from_le_bytes([entry[1], entry[2], entry[3], entry[4]]);
    let found = if entry[0] == 1 { Standing::Struck } else { Standing::At(value) };
    let standing = update.applied_to(found);
    entry[0] = u8::from(standing == Standing::Struck);
    entry[1..].copy_from_slice(&standing.value().to_le_bytes());
}
