//! The two sides that are compared, and what is run on both.

use std::hint::black_box;

use calls::{Call, Code};
use silttongs::{Board, Course, Day, Federation, Refusal, Standing, Table, BOARD, BYTES, SHEET};

/// Code and value; none for a struck bib. The two numbers of a fill, and value and gain of a preview,
/// are one.
type Given = (u8, Option<u64>);

/// What is lent to the calls.
#[derive(Clone, Debug, PartialEq, Eq)]
pub(crate) struct Lent {
    pub(crate) table: Box<[u8]>,
    pub(crate) board: Box<[u8]>,
    pub(crate) sheet: Box<[u8]>,
    /// If the table is that of course 0: those of the other three.
    pub(crate) others: Option<[Box<[u8]>; 3]>,
}

impl Lent {
    fn new() -> Self {
        let [table, board, sheet] =
            [BYTES, BOARD, SHEET].map(|length| vec![0; length].into_boxed_slice());
        Lent { table, board, sheet, others: None }
    }

    /// Table and board as another has them.
    pub(crate) fn copy(&mut self, other: &Lent) {
        self.table.copy_from_slice(&other.table);
        self.board.copy_from_slice(&other.board);
    }
}

/// What is timed.
#[derive(Clone, Debug)]
pub(crate) enum Step {
    /// A call, with the board lent to it if it takes one.
    Made(Call),
    /// How every bib stands is read from the board.
    Board,
    /// How one bib stands is read from the board.
    Bib(u16),
}

/// One of the sides.
#[derive(Clone, Copy, Debug)]
pub(crate) enum Side {
    Baseline,
    Library,
}

impl Side {
    /// Makes the calls and looks at the board. Nothing is made of the answers, and none is left out.
    pub(crate) fn run(self, lent: &mut Lent, steps: &[Step]) {
        for step in steps {
            match black_box(step) {
                Step::Made(call) => _ = black_box(self.call(lent, call)),
                Step::Board => _ = black_box(self.read_board(black_box(&lent.board))),
                Step::Bib(bib) => _ = black_box(self.read_bib(black_box(&lent.board), *bib)),
            }
        }
    }

    /// Makes one call.
    pub(crate) fn call(self, lent: &mut Lent, call: &Call) -> Given {
        match self {
            Side::Baseline => by_baseline(call_baseline(lent, call)),
            Side::Library => by_library(call_library(lent, call)),
        }
    }

    /// How many bibs are struck, and the sum of all values.
    fn read_board(self, board: &[u8]) -> (usize, u64) {
        let count = |(struck, sum), (is_struck, value): (bool, u32)| {
            (struck + usize::from(is_struck), sum + u64::from(value))
        };
        match self {
            Side::Baseline => {
                baseline::standings(board).map(|s| (s.struck, s.value)).fold((0, 0), count)
            }
            Side::Library => {
                let board = Board::from_bytes(board);
                let standings = board.standings().map(|(_, standing)| standing);
                standings.map(|s| (s == Standing::Struck, s.value())).fold((0, 0), count)
            }
        }
    }

    /// The value of a bib; none if it is struck.
    fn read_bib(self, board: &[u8], bib: u16) -> Option<u32> {
        match self {
            Side::Baseline => {
                baseline::standing(board, bib).filter(|standing| !standing.struck).map(|s| s.value)
            }
            Side::Library => {
                let standing = Board::from_bytes(board).standing(bib);
                standing.filter(|&standing| standing != Standing::Struck).map(Standing::value)
            }
        }
    }
}

fn call_baseline(lent: &mut Lent, call: &Call) -> Result<Option<u64>, Code> {
    let Lent { table, board, sheet, others } = lent;
    let Some([a, b, c]) = others else { return on_baseline(table, 0, board, sheet, call) };
    let mut tables = [&mut table[..], a, b, c];
    let (t, held) = baseline::course(&mut tables, 0)?;
    on_baseline(t, held, board, sheet, call)
}

fn on_baseline(
    t: &mut [u8],
    held: usize,
    board: &mut [u8],
    sheet: &mut [u8],
    call: &Call,
) -> Result<Option<u64>, Code> {
    let stands = |standing: baseline::Standing| (!standing.struck).then_some(standing.value.into());
    match *call {
        Call::Update { client, revision, kind, bib, v } => {
            baseline::update_beside(t, held, client, revision, kind, bib, v).map(one)
        }
        Call::Query { client, revision, bib } => {
            baseline::query(t, client, revision, bib).map(stands)
        }
        Call::Yield { client } => baseline::yield_(t, board, client).map(one),
        Call::Fork { revision } => baseline::fork(t, revision).map(one),
        Call::Join { joiner, joinee } => baseline::join(t, board, joiner, joinee).map(one),
        Call::List { revision, room } => baseline::list(t, revision, &mut sheet[..room]).map(one),
        Call::Fill { revision } => baseline::fill(t, revision).map(|f| both(one(f.own), f.total)),
        Call::Bundle { client, revision, ref records } => {
            baseline::bundle_beside(t, held, board, client, revision, records).map(one)
        }
        Call::Preview { joiner, joinee, bib } => {
            baseline::preview(t, joiner, joinee, bib).map(|p| both(stands(p.standing), p.gain))
        }
        Call::Fresh { single_main } => baseline::fresh(t, board, single_main).map(one),
        Call::Sync { revision } => baseline::sync(t, board, revision).map(one),
        Call::Mark { revision, ref name } => baseline::mark(t, revision, name).map(one),
        Call::Drop { ref name } => baseline::drop(t, name).map(one),
        Call::Verify { ref order } => baseline::verify(t, order).map(one),
        Call::Bill { member } => baseline::bill(t, member).map(one),
        Call::OnBoard { .. } => unreachable!("no case has a wrong board"),
    }
}

fn call_library(lent: &mut Lent, call: &Call) -> Result<Option<u64>, Refusal> {
    let Lent { table: t, board, sheet, others } = lent;
    if let Some([a, b, c]) = others {
        // No call is made on the other three, and none has a board.
        let boards = [&mut board[..], &mut [], &mut [], &mut []].map(Board::from_bytes);
        return on_course(Federation::from_bytes([&mut t[..], a, b, c], boards), sheet, call);
    }
    let mut board = Board::from_bytes(&mut board[..]);
    let stands =
        |standing: Standing| (standing != Standing::Struck).then_some(standing.value().into());
    let mut table = Table::from_bytes(&mut t[..]);
    match *call {
        Call::Update { client, revision, kind, bib, v } => {
            table.update(client, revision, kind, bib, v).map(one)
        }
        Call::Query { client, revision, bib } => table.query(client, revision, bib).map(stands),
        Call::Yield { client } => table.yield_(&mut board, client).map(|()| one(0_u32)),
        Call::Fork { revision } => table.fork(revision).map(one),
        Call::Join { joiner, joinee } => table.join(&mut board, joiner, joinee).map(one),
        Call::List { revision, room } => table.list(revision, &mut sheet[..room]).map(one),
        Call::Fill { revision } => table.fill(revision).map(|f| both(one(f.own), f.total)),
        Call::Bundle { client, revision, ref records } => {
            table.bundle(&mut board, client, revision, records).map(one)
        }
        Call::Preview { joiner, joinee, bib } => {
            table.preview(joiner, joinee, bib).map(|p| both(stands(p.standing), p.gain))
        }
        Call::Sync { revision } => table.sync(&mut board, revision).map(one),
        Call::Mark { revision, ref name } => table.mark(revision, name).map(one),
        Call::Drop { ref name } => table.drop(name).map(|()| one(0_u32)),
        Call::Verify { ref order } => table.verify(order).map(one),
        Call::Bill { member } => table.bill(member).map(one),
        Call::Fresh { single_main } => {
            let day = if single_main { Day::SingleMain } else { Day::Ordinary };
            Table::fresh(&mut t[..], &mut board, day).map(|_| one(0_u32))
        }
        Call::OnBoard { .. } => unreachable!("no case has a wrong board"),
    }
}

/// The calls that are timed on course 0.
fn on_course(
    mut courses: Federation<&mut [u8], &mut [u8]>,
    sheet: &mut [u8],
    call: &Call,
) -> Result<Option<u64>, Refusal> {
    let course = Course::ALL[0];
    let stands =
        |standing: Standing| (standing != Standing::Struck).then_some(standing.value().into());
    match *call {
        Call::Update { client, revision, kind, bib, v } => {
            courses.update(course, client, revision, kind, bib, v).map(one)
        }
        Call::Query { client, revision, bib } => {
            courses.query(course, client, revision, bib).map(stands)
        }
        Call::Yield { client } => courses.yield_(course, client).map(|()| one(0_u32)),
        Call::Fork { revision } => courses.fork(course, revision).map(one),
        Call::List { revision, room } => {
            courses.list(course, revision, &mut sheet[..room]).map(one)
        }
        Call::Bundle { client, revision, ref records } => {
            courses.bundle(course, client, revision, records).map(one)
        }
        _ => unreachable!("no case of a course has `{call}`"),
    }
}

fn one(value: impl Into<u64>) -> Option<u64> {
    Some(value.into())
}

fn both(lower: Option<u64>, upper: impl Into<u64>) -> Option<u64> {
    lower.map(|lower| upper.into() << 32 | lower)
}

fn by_baseline(answer: Result<Option<u64>, Code>) -> Given {
    answer.map_or_else(|code| (code.number(), Some(0)), |value| (0, value))
}

fn by_library(answer: Result<Option<u64>, Refusal>) -> Given {
    answer.map_or_else(|refusal| (refusal.code(), Some(0)), |value| (0, value))
}

/// The same of course 0, with three courses beside it that made these calls too.
pub(crate) fn made_courses(calls: &[Call], others: &[Call]) -> Lent {
    let other = made(others).table;
    Lent { others: Some([other.clone(), other.clone(), other]), ..made(calls) }
}

/// Table and board after these calls, all accepted and none a list.
pub(crate) fn made(calls: &[Call]) -> Lent {
    let mut lent = Lent::new();
    let fresh = Call::Fresh { single_main: false };
    for call in std::iter::once(&fresh).chain(calls) {
        assert_eq!(Side::Library.call(&mut lent, call).0, 0, "`{call}`");
    }
    lent
}
