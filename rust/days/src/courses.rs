//! 02, U12, call by call: what the literal replay of a federation day says of answers and boards, and which
//! bytes a call leaves alone.

use baseline::Federation;
use calls::{Answer, Code, CourseCall, BOARD, COURSES};

use crate::boards::may_change_boards;
use crate::card::CardStep;

/// A federation day, and what is right on it.
pub struct Judged<'a> {
    steps: &'a [CardStep],
    /// Of each call.
    right: Vec<Option<Right>>,
}

/// What is right of a call.
struct Right {
    answer: Answer,
    /// The course's board after it, if it may have changed.
    board: Option<Vec<u8>>,
}

/// Four buffers that are no tables, and boards of other bytes.
pub(crate) fn unmade() -> Federation {
    let mut lent = Federation::new();
    lent.tables.iter_mut().for_each(|table| table.fill(0xa5));
    lent.boards.iter_mut().for_each(|board| board.fill(0x5a));
    lent
}

impl<'a> Judged<'a> {
    /// By the literal replay.
    pub fn new(steps: &'a [CardStep]) -> Self {
        let mut literal = literal::Federation::new();
        let right = |step: &CardStep| match step {
            CardStep::Made(call) => {
                let answer = literal.call(call);
                let changes = may_change_boards(&call.call, &answer);
                let day = literal.day(call.course).filter(|_| changes);
                Some(Right { answer, board: day.map(literal::Day::board) })
            }
            CardStep::Broken(damage) => {
                literal.lose(damage.course);
                None
            }
            CardStep::Scratched(_) => None,
        };
        Judged { steps, right: steps.iter().map(right).collect() }
    }

    /// The first call that is not answered as by the literal replay, or after which its course's board is
    /// not as worked out afresh, in words. `make` makes one call on the four tables, with the boards, or
    /// says what is wrong with it.
    pub fn fault(
        &self,
        mut make: impl FnMut(&mut Federation, &CourseCall) -> Result<Answer, String>,
    ) -> Option<String> {
        let mut lent = unmade();
        self.steps.iter().zip(&self.right).find_map(|(step, right)| {
            let fault = match (step, right) {
                (CardStep::Made(call), Some(right)) => match make(&mut lent, call) {
                    Ok(answer) => right.fault(&lent, call, &answer),
                    Err(fault) => Some(fault),
                },
                (CardStep::Broken(damage) | CardStep::Scratched(damage), _) => {
                    damage.put(&mut lent);
                    None
                }
                (CardStep::Made(_), None) => unreachable!("each call has what is right of it"),
            };
            fault.map(|fault| format!("`{step}`: {fault}"))
        })
    }
}

impl Right {
    fn fault(&self, lent: &Federation, call: &CourseCall, answer: &Answer) -> Option<String> {
        if *answer != self.answer {
            return Some(format!("gives {answer}, not {}", self.answer));
        }
        let board = self.board.as_ref()?;
        let found = &lent.boards[usize::from(call.course)];
        let at = (0..BOARD).find(|&at| found[at] != board[at])?;
        Some(format!("byte {at} of its board is {}, not {}", found[at], board[at]))
    }
}

/// As [`Judged::fault`]; or the first call that changes a byte of another course, or in a refusal one of its
/// own.
pub fn fault_of_courses(
    steps: &[CardStep],
    mut make: impl FnMut(&mut Federation, &CourseCall) -> Answer,
) -> Option<String> {
    Judged::new(steps).fault(|lent, call| {
        let before = lent.clone();
        let answer = make(lent, call);
        let own = match answer.code {
            Code::Accepted => usize::from(call.course),
            _ => COURSES,
        };
        for course in (0..COURSES).filter(|&course| course != own) {
            let same = lent.tables[course] == before.tables[course]
                && lent.boards[course] == before.boards[course];
            if !same {
                return Err(format!("gives {answer} and changes course {course}"));
            }
        }
        Ok(answer)
    })
}
