//! The library's calls as values, and what they are compared with.

use std::sync::LazyLock;

use calls::{Answer, Call, Code, CourseCall, Line, State, COURSES};
use days::tally;
use silttongs::{Board, Course, Day, Federation, Refusal, Standing, Table, BOARD};

use super::{fresh, Lent};

/// What a call left, but for the table and its board.
#[derive(Clone, Debug, PartialEq, Eq)]
pub(crate) struct Given {
    /// Without lines: those of a list are on its sheet.
    pub(crate) answer: Answer,
    /// Of a list, every byte of its sheet; empty for other calls.
    pub(crate) sheet: Vec<u8>,
}

/// The bytes of a table, and of the board that is lent to every call that takes one.
#[derive(Clone, Debug, PartialEq, Eq)]
pub(crate) struct Bytes {
    pub(crate) table: Vec<u8>,
    pub(crate) board: Vec<u8>,
}

impl Bytes {
    pub(crate) fn fresh() -> Self {
        let Lent { table, board } = fresh();
        Bytes { table: table.into_bytes(), board: board.into_bytes() }
    }
}

impl AsRef<[u8]> for Bytes {
    fn as_ref(&self) -> &[u8] {
        &self.table
    }
}

/// The bytes of a fresh table.
pub(crate) fn fresh_bytes() -> Vec<u8> {
    Bytes::fresh().table
}

/// Bytes of which none is like its neighbours; more than any listing needs.
static ANY: LazyLock<Vec<u8>> =
    LazyLock::new(|| (0..50_000).map(|at: usize| (at * 167 + at / 256) as u8).collect());

/// The sheet of a list before the call: as long as the call says, up to more than any listing needs.
pub(crate) fn sheet(call: &Call) -> Vec<u8> {
    match *call {
        Call::List { room, .. } => ANY[..room.min(ANY.len())].to_vec(),
        _ => Vec::new(),
    }
}

/// A call by the methods of a table, to which a board is lent, or by those of a federation, which have a
/// course before their other arguments. A fresh is made by neither.
macro_rules! by_methods {
    ($lent:ident $(, course $course:expr)? $(, board $board:expr)?; $call:expr, $sheet:expr) => {{
        let started = |number| Answer::accepted(u32::from(number));
        match *$call {
            Call::Update { client, revision, kind, bib, v } => {
                $lent.update($($course,)? client, revision, kind, bib, v).map(Answer::accepted)
            }
            Call::Query { client, revision, bib } => {
                $lent.query($($course,)? client, revision, bib).map(found)
            }
            Call::Yield { client } => {
                $lent.yield_($($course,)? $($board,)? client).map(|()| Answer::accepted(0))
            }
            Call::Fork { revision } => $lent.fork($($course,)? revision).map(started),
            Call::Sync { revision } => $lent.sync($($course,)? $($board,)? revision).map(started),
            Call::Mark { revision, ref name } => {
                $lent.mark($($course,)? revision, name).map(started)
            }
            Call::Drop { ref name } => {
                $lent.drop($($course,)? name).map(|()| Answer::accepted(0))
            }
            Call::Join { joiner, joinee } => {
                $lent.join($($course,)? $($board,)? joiner, joinee).map(Answer::accepted)
            }
            Call::List { revision, .. } => {
                $lent.list($($course,)? revision, $sheet).map(Answer::accepted)
            }
            Call::Fill { revision } => $lent
                .fill($($course,)? revision)
                .map(|fill| Answer::filled(u32::from(fill.own), u32::from(fill.total))),
            Call::Bundle { client, revision, ref records } => $lent
                .bundle($($course,)? $($board,)? client, revision, records)
                .map(Answer::accepted),
            Call::Preview { joiner, joinee, bib } => $lent
                .preview($($course,)? joiner, joinee, bib)
                .map(|preview| Answer { gain: preview.gain, ..found(preview.standing) }),
            Call::Verify { ref order } => {
                $lent.verify($($course,)? order).map(|yes| Answer::accepted(u32::from(yes)))
            }
            Call::Bill { member } => $lent.bill($($course,)? member).map(Answer::accepted),
            Call::Fresh { .. } | Call::OnBoard { .. } => unreachable!("made otherwise"),
        }
    }};
}

/// What the library gives. A board is lent to the calls that take one.
pub(crate) fn library(bytes: &mut [u8], board: &mut [u8], call: &Call) -> Given {
    if let Call::OnBoard { length, call } = call {
        return lent_other(*length, call, |board| library(bytes, board, call));
    }
    tally::count("calls on a table", call.name(), 1);
    let mut board = Board::from_bytes(board);
    let mut sheet = sheet(call);
    let answer = if let Call::Fresh { single_main } = *call {
        Table::fresh(bytes, &mut board, choice(single_main)).map(|_| Answer::accepted(0))
    } else {
        let mut table = Table::from_bytes(bytes);
        by_methods!(table, board &mut board; call, &mut sheet)
    };
    Given { answer: answer.unwrap_or_else(refused), sheet }
}

/// What the library gives on a course. Of a number above 3 the wrapper makes none.
pub(crate) fn course_library(
    lent: &mut baseline::Federation,
    CourseCall { course, call }: &CourseCall,
) -> Given {
    let course = match Course::new(*course) {
        Ok(course) => course,
        Err(refusal) => return Given { answer: refused(refusal), sheet: sheet(call) },
    };
    let tables = lent.tables.each_mut().map(Vec::as_mut_slice);
    let boards = lent.boards.each_mut().map(Vec::as_mut_slice);
    let Call::OnBoard { length, call } = call else {
        return on_course(tables, boards, course, call);
    };
    lent_other(*length, call, |board| {
        let mut boards: [&mut [u8]; COURSES] = boards;
        boards[usize::from(course)] = board;
        on_course(tables, boards, course, call)
    })
}

fn on_course(
    tables: [&mut [u8]; COURSES],
    boards: [&mut [u8]; COURSES],
    course: Course,
    call: &Call,
) -> Given {
    tally::count("calls on a course", call.name(), 1);
    let mut federation = Federation::from_bytes(tables, boards.map(Board::from_bytes));
    let mut sheet = sheet(call);
    let answer = if let Call::Fresh { single_main } = *call {
        federation.fresh(course, choice(single_main)).map(|()| Answer::accepted(0))
    } else {
        by_methods!(federation, course course; call, &mut sheet)
    };
    Given { answer: answer.unwrap_or_else(refused), sheet }
}

/// What is given with a board of so many bytes lent. If the call is refused, that board keeps every byte.
fn lent_other(length: usize, call: &Call, make: impl FnOnce(&mut [u8]) -> Given) -> Given {
    let before = &ANY[..length];
    let mut board = before.to_vec();
    let given = make(&mut board);
    let refused = given.answer.code != Code::Accepted;
    assert!(!refused || board == before, "`{call}`: a refusal changes a board of {length} bytes");
    assert!(refused || length == BOARD, "`{call}` is taken with a board of {length} bytes");
    given
}

/// The choice as the wrapper has it.
pub(crate) fn choice(single_main: bool) -> Day {
    if single_main {
        Day::SingleMain
    } else {
        Day::Ordinary
    }
}

/// What the library answers; of a list, with the lines on its sheet.
pub(crate) fn answered(Bytes { table, board }: &mut Bytes, call: &Call) -> Answer {
    library(table, board, call).with_lines()
}

impl Given {
    /// The answer; of a list, with the lines on its sheet.
    pub(crate) fn with_lines(self) -> Answer {
        let (places, _) = self.sheet.as_chunks();
        let listed = places.iter().take(self.answer.value as usize);
        Answer { lines: listed.map(|&place| Line::from_bytes(place)).collect(), ..self.answer }
    }
}

fn found(standing: Standing) -> Answer {
    let state = match standing {
        Standing::Neither => State::Neither,
        Standing::Timed(_) => State::Timed,
        Standing::Struck => State::Struck,
    };
    Answer::found(state, standing.value())
}

/// The answer of a refused call. The wrapper has numbers and names of its own: they are those of 01,
/// and in code those of [`Code`].
pub(crate) fn refused(refusal: Refusal) -> Answer {
    let code = Code::of(refusal.code()).expect("a code of the desk");
    assert_eq!(refusal.name(), code.name());
    assert_eq!(format!("{refusal:?}"), format!("{code:?}"));
    Answer::refused(code)
}

/// What the baseline gives.
pub(crate) fn by_baseline(bytes: &mut [u8], board: &mut [u8], call: &Call) -> Given {
    let mut sheet = sheet(call);
    let answer = match *call {
        Call::List { revision, .. } => {
            baseline::list(bytes, revision, &mut sheet).map(Answer::accepted)
        }
        _ => baseline::call(bytes, board, call),
    };
    Given { answer: answer.unwrap_or_else(Answer::refused), sheet }
}

/// What the literal replay's answer comes to: its lines, and behind them the sheet as it was.
pub(crate) fn as_given(call: &Call, answer: Answer) -> Given {
    let mut sheet = sheet(call);
    for (place, line) in sheet.chunks_exact_mut(Line::BYTES).zip(&answer.lines) {
        place.copy_from_slice(&line.to_bytes());
    }
    Given { answer: Answer { lines: Vec::new(), ..answer }, sheet }
}

/// Whether a call has to leave the table as it is, accepted too.
pub(crate) fn only_reads(call: &Call) -> bool {
    ["list", "fill", "preview", "verify", "bill"].contains(&call.name())
}

/// What is other than expected, in words.
pub(crate) fn difference(given: &Given, expected: &Given) -> Option<String> {
    if given.answer != expected.answer {
        return Some(format!("gives {}, not {}", given.answer, expected.answer));
    }
    let at = first_difference(&given.sheet, &expected.sheet)?;
    Some(format!("byte {at} of the sheet is {}, not {}", given.sheet[at], expected.sheet[at]))
}

/// Where two buffers first differ.
pub(crate) fn first_difference(a: &[u8], b: &[u8]) -> Option<usize> {
    if a == b {
        return None;
    }
    Some(a.iter().zip(b).position(|(x, y)| x != y).unwrap_or(a.len().min(b.len())))
}
