//! Four tables that share a card: 02, U12.

use calls::{Answer, Call, Code, CourseCall};

use crate::board::BOARD;
use crate::checks::refuse;
use crate::day::call_beside;
use crate::numbers::COURSES;
use crate::parts::BYTES;
use crate::range::checked;

/// Code 1 of the number of a course, or of another course's buffer; else its own table, which its calls
/// check, and how much of the card the others hold.
pub fn course<'t>(
    tables: &'t mut [&mut [u8]; COURSES],
    number: u8,
) -> Result<(&'t mut [u8], usize), Code> {
    let own = usize::from(number);
    refuse(own >= COURSES, Code::NoTable)?;
    let mut others = 0;
    for (place, table) in tables.iter_mut().enumerate() {
        if place != own {
            others += checked(table)?.held();
        }
    }
    Ok((&mut *tables[own], others))
}

/// The table of a course alone, as a fresh finds it: code 1 of the number.
pub fn own_table<'t>(
    tables: &'t mut [&mut [u8]; COURSES],
    number: u8,
) -> Result<&'t mut [u8], Code> {
    tables.get_mut(usize::from(number)).map(|table| &mut **table).ok_or(Code::NoTable)
}

/// Makes one call of a course on any bytes, with any board lent to it if it takes one.
pub fn course_call(
    tables: &mut [&mut [u8]; COURSES],
    board: &mut [u8],
    call: &CourseCall,
) -> Result<Answer, Code> {
    let (table, others) = match call.call.name() {
        "fresh" => (own_table(tables, call.course)?, 0),
        _ => course(tables, call.course)?,
    };
    call_beside(table, others, board, &call.call)
}

/// Four tables, each with a board of its own.
#[derive(Clone, Debug, PartialEq, Eq)]
pub struct Federation {
    /// By the numbers of the courses; any bytes may stand there.
    pub tables: [Vec<u8>; COURSES],
    /// Likewise.
    pub boards: [Vec<u8>; COURSES],
}

impl Federation {
    /// Buffers that are no tables yet.
    pub fn new() -> Self {
        let [tables, boards] = [BYTES, BOARD].map(|length| [(); COURSES].map(|()| vec![0; length]));
        Federation { tables, boards }
    }

    /// All four are made fresh: ordinary days.
    pub fn fresh() -> Self {
        let mut federation = Federation::new();
        for course in 0..COURSES as u8 {
            let call = Call::Fresh { single_main: false };
            assert_eq!(federation.call(&CourseCall { course, call }), Answer::accepted(0));
        }
        federation
    }

    /// Makes one call, with the course's board lent to it if it takes one. A refused one changes nothing.
    pub fn call(&mut self, call: &CourseCall) -> Answer {
        let Federation { tables, boards } = self;
        let mut tables = tables.each_mut().map(Vec::as_mut_slice);
        let board = match boards.get_mut(usize::from(call.course)) {
            Some(board) => board,
            None => &mut vec![0; BOARD],
        };
        course_call(&mut tables, board, call).unwrap_or_else(Answer::refused)
    }
}

impl Default for Federation {
    fn default() -> Self {
        Federation::new()
    }
}
