//! A day that owns its table and its board.

use calls::{Answer, Call, Code, Line, State};

use crate::bill::bill;
use crate::board::BOARD;
use crate::bundle::bundle_beside;
use crate::calls::{
    drop, fill, fork, fresh, join, list, mark, preview, query, sync, update_beside, yield_,
};
use crate::calls::{Fill, Preview, LISTED};
use crate::numbers::LOG;
use crate::orders::{line_up, verify};
use crate::parts::BYTES;
use crate::update::Standing;

/// A table and a board of its own, and the calls as values.
#[derive(Clone, Debug, PartialEq, Eq)]
pub struct Day {
    table: Vec<u8>,
    board: Vec<u8>,
}

impl Day {
    /// The main revision alone, every bib 0 and not struck. An ordinary day; the call fresh has the
    /// choice.
    pub fn fresh() -> Self {
        let (mut table, mut board) = (vec![0; BYTES], vec![0; BOARD]);
        assert_eq!(fresh(&mut table, &mut board, false), Ok(0));
        Day { table, board }
    }

    /// The bytes of the table.
    pub fn bytes(&self) -> &[u8] {
        &self.table
    }

    /// The bytes of the board.
    pub fn board(&self) -> &[u8] {
        &self.board
    }

    /// The day's own line-up: the numbers of all its updates.
    pub fn line_up(&self) -> Vec<u16> {
        match line_up(&mut self.table.clone()) {
            Ok(numbers) => numbers,
            Err(code) => unreachable!("a day has a table, and not code {code}"),
        }
    }

    /// Makes one call, with the board lent to it if it takes one. A refused one changes nothing.
    pub fn call(&mut self, call: &Call) -> Answer {
        crate::call(&mut self.table, &mut self.board, call).unwrap_or_else(Answer::refused)
    }
}

/// Makes one call on any bytes, with any board lent to it if it takes one.
pub fn call(t: &mut [u8], board: &mut [u8], call: &Call) -> Result<Answer, Code> {
    call_beside(t, 0, board, call)
}

/// As [`call`], with so much of the card held by other tables.
pub fn call_beside(
    t: &mut [u8],
    others: usize,
    board: &mut [u8],
    call: &Call,
) -> Result<Answer, Code> {
    let value = match *call {
        Call::Update { client, revision, kind, bib, v } => {
            update_beside(t, others, client, revision, kind, bib, v)?
        }
        Call::Query { client, revision, bib } => {
            return query(t, client, revision, bib).map(found);
        }
        Call::Yield { client } => yield_(t, board, client)?,
        Call::Fork { revision } => fork(t, revision)?,
        Call::Join { joiner, joinee } => join(t, board, joiner, joinee)?,
        Call::List { revision, room } => return listed(t, revision, room).map(Answer::listed),
        Call::Fill { revision } => {
            let Fill { own, total } = fill(t, revision)?;
            return Ok(Answer::filled(u32::from(own), u32::from(total)));
        }
        Call::Bundle { client, revision, ref records } => {
            bundle_beside(t, others, board, client, revision, records)?
        }
        Call::Preview { joiner, joinee, bib } => {
            let Preview { standing, gain } = preview(t, joiner, joinee, bib)?;
            return Ok(Answer { gain: u32::from(gain), ..found(standing) });
        }
        Call::Fresh { single_main } => fresh(t, board, single_main)?,
        Call::Sync { revision } => sync(t, board, revision)?,
        Call::Mark { revision, ref name } => mark(t, revision, name)?,
        Call::Drop { ref name } => drop(t, name)?,
        Call::Verify { ref order } => verify(t, order)?,
        Call::Bill { member } => bill(t, member)?,
        Call::OnBoard { length, ref call } => {
            return call_beside(t, others, &mut vec![0; length], call);
        }
    };
    Ok(Answer::accepted(value))
}

/// What a query or a preview answers of a bib that stands so.
fn found(Standing { struck, value }: Standing) -> Answer {
    let state = match (struck, value) {
        (true, _) => State::Struck,
        (false, 0) => State::Neither,
        (false, _) => State::Timed,
    };
    Answer::found(state, value)
}

/// The lines of a listing, read back from the sheet.
fn listed(t: &mut [u8], revision: u8, room: usize) -> Result<Vec<Line>, Code> {
    let mut sheet = vec![0; room.min(LISTED * LOG)];
    let count = list(t, revision, &mut sheet)?;
    let (lines, _) = sheet.as_chunks::<LISTED>();
    Ok(lines[..count as usize].iter().map(|&line| Line::from_bytes(line)).collect())
}
