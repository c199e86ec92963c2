//! The literal replay against the baseline, answer by answer and board by board.

use calls::{Answer, Call, BOARD};
use literal::Day;

use crate::boards::may_change_boards;
use crate::reads::{every_fill, every_list, every_preview};

/// The first call that the two answer differently, or after which their boards differ, in words.
pub fn disagreement(calls: &[Call]) -> Option<String> {
    disagreement_with(calls, |_| Vec::new())
}

/// As [`disagreement`], with the calls made otherwise than by the baseline.
pub fn disagreement_by(calls: &[Call], mut make: impl FnMut(&Call) -> Answer) -> Option<String> {
    let mut literal = Day::fresh();
    calls.iter().find_map(|call| {
        let (right, given) = (literal.call(call), make(call));
        (given != right).then(|| format!("`{call}`: gives {given}, not {right}"))
    })
}

/// As [`disagreement`], with every number read after each call: by a fill, and by a listing with
/// room enough, with just enough, and with one byte less.
pub fn disagreement_with_reads(calls: &[Call]) -> Option<String> {
    disagreement_with(calls, |day| [every_fill(day), every_list(day, usize::MAX)].concat())
}

/// As [`disagreement`], with a preview of each pair of numbers after each call, of these bibs.
pub fn disagreement_with_previews(calls: &[Call], bibs: &[u16]) -> Option<String> {
    disagreement_with(calls, |day| every_preview(day, bibs))
}

/// As [`disagreement`], with these reads after each call.
fn disagreement_with(calls: &[Call], reads: impl Fn(&Day) -> Vec<Call>) -> Option<String> {
    let mut both = Both::fresh();
    calls.iter().find_map(|call| {
        both.differ(call)
            .or_else(|| both.boards_differ(call))
            .or_else(|| reads(&both.literal).iter().find_map(|read| both.differ(read)))
    })
}

struct Both {
    literal: Day,
    baseline: baseline::Day,
    /// As worked out afresh when it may have changed last.
    board: Vec<u8>,
}

impl Both {
    fn fresh() -> Self {
        Both { literal: Day::fresh(), baseline: baseline::Day::fresh(), board: vec![0; BOARD] }
    }

    fn differ(&mut self, call: &Call) -> Option<String> {
        let (literal, baseline) = (self.literal.call(call), self.baseline.call(call));
        if may_change_boards(call, &literal) {
            self.board = self.literal.board();
        }
        (literal != baseline).then(|| format!("`{call}`: literal {literal}, baseline {baseline}"))
    }

    fn boards_differ(&self, call: &Call) -> Option<String> {
        (self.board != self.baseline.board())
            .then(|| format!("`{call}`: the baseline's board is not as worked out afresh"))
    }
}
