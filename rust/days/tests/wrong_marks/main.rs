//! 02, U9: wrong marks and wrong drops are found by the literal replay. Each is the baseline with some
//! cells changed before or after a call, or with another call made in its place.

mod drops;
mod marks;
mod names;
mod refusals;

use calls::{Answer, Call, Code, BOARD};
use days::{disagreement_by, must_find, Profile};

/// Where the parts lie: docs/CELLS.md.
const SEEN: usize = 38_400;
const STATE: usize = 39_040;
const QUEUE: usize = 39_744;
const OPENED: usize = 39_808;
const OUT: usize = 39_826;
const GIVEN: usize = 39_827;
const NAMES: usize = 39_828;
const SINGLE: usize = 40_084;

/// The states of a number.
const NEVER: u8 = 0;
const IS_OUT: u8 = 1;
const JOINED: u8 = 2;
const MARKED: u8 = 3;

/// A table with wrong marks.
#[derive(Clone)]
struct Table {
    bytes: Vec<u8>,
    /// The names that were dropped since fresh.
    dropped: Vec<Vec<u8>>,
    /// The names that were in use when the table was made fresh.
    before_fresh: Vec<Vec<u8>>,
    /// The box from which the latest mark of each number came.
    source: [u8; 64],
}

/// Makes a call, wrongly.
type Wrong = fn(&mut Table, &Call) -> Answer;

impl Table {
    fn fresh() -> Self {
        let bytes = baseline::Day::fresh().bytes().to_vec();
        Table { bytes, dropped: Vec::new(), before_fresh: Vec::new(), source: [0; 64] }
    }

    /// Makes the call as is right.
    fn right(&mut self, call: &Call) -> Answer {
        let marks: Vec<u8> = (1..64).filter(|&number| self.is_marked(number)).collect();
        let in_use = marks.into_iter().map(|number| self.name(number).to_vec()).collect();
        let answer =
            baseline::call(&mut self.bytes, &mut [0; BOARD], call).unwrap_or_else(Answer::refused);
        match *call {
            _ if answer.code != Code::Accepted => {}
            Call::Mark { revision, .. } => self.source[answer.value as usize] = revision,
            Call::Drop { ref name } => self.dropped.push(name.clone()),
            Call::Fresh { .. } => (self.dropped, self.before_fresh) = (Vec::new(), in_use),
            _ => {}
        }
        answer
    }

    /// What would be right.
    fn would_be(&self, call: &Call) -> Answer {
        self.clone().right(call)
    }

    fn state(&mut self, number: u8) -> &mut u8 {
        &mut self.bytes[STATE + usize::from(number)]
    }

    fn is_marked(&self, number: u8) -> bool {
        number < 64 && self.bytes[STATE + usize::from(number)] == MARKED
    }

    /// The number of the mark that bears a name.
    fn bearer(&self, name: &[u8]) -> Option<u8> {
        (1..64).find(|&number| self.is_marked(number) && self.name(number) == name)
    }

    fn name(&self, number: u8) -> &[u8] {
        &self.bytes[NAMES + 4 * usize::from(number)..][..4]
    }

    /// The places of the queue that are in use.
    fn queue(&mut self) -> &mut [u8] {
        let free = usize::from(self.bytes[GIVEN] - self.bytes[OUT]);
        &mut self.bytes[QUEUE..QUEUE + free]
    }

    /// Makes the call on a table in which nobody is at work.
    fn idle(&mut self, call: &Call) -> Answer {
        let open = self.bytes[OPENED..OPENED + 16].to_vec();
        self.bytes[OPENED..OPENED + 16].fill(64);
        let answer = self.right(call);
        self.bytes[OPENED..OPENED + 16].copy_from_slice(&open);
        answer
    }

    /// Makes the call on a day of this choice.
    fn chosen(&mut self, call: &Call, choice: u8) -> Answer {
        let before = std::mem::replace(&mut self.bytes[SINGLE], choice);
        let answer = self.right(call);
        self.bytes[SINGLE] = before;
        answer
    }
}

/// The boxes that a call names.
fn named(call: &Call) -> Vec<u8> {
    match *call {
        Call::Update { revision, .. } | Call::Query { revision, .. } => vec![revision],
        Call::Bundle { revision, .. } | Call::List { revision, .. } => vec![revision],
        Call::Fork { revision } | Call::Fill { revision } => vec![revision],
        Call::Sync { revision } | Call::Mark { revision, .. } => vec![revision],
        Call::Join { joiner, joinee } | Call::Preview { joiner, joinee, .. } => {
            vec![joiner, joinee]
        }
        Call::Yield { .. } | Call::Fresh { .. } | Call::Drop { .. } | Call::Verify { .. } => vec![],
        Call::Bill { .. } | Call::OnBoard { .. } => vec![],
    }
}

#[test]
fn wrong_marks_and_drops_are_found() {
    let kinds = [
        (Profile::MARKED, 300),
        (Profile::CROWDED_MARKED, 12),
        (Profile::RENEWED, 200),
        (Profile::SINGLE_MAIN, 60),
        (Profile::CROWDED_SINGLE_MAIN, 12),
    ];
    let wrong = [refusals::WRONG, names::WRONG, marks::WRONG, drops::WRONG].concat();
    assert_eq!(wrong.len(), 77);
    for (name, wrong) in wrong {
        let by_wrong = |calls: &[Call]| {
            let mut table = Table::fresh();
            disagreement_by(calls, |call| wrong(&mut table, call))
        };
        must_find(name, kinds.iter().flat_map(|&(kind, count)| kind.days(0..count)), by_wrong);
    }
}
