//! The static library through the wrapper: random days against the literal replay and the baseline,
//! buffers that no day made, 02's requests, a day of 20,100 forks, C, and the stack.

mod bills;
mod boards;
mod bundles;
mod c;
mod cells;
mod courses;
mod damaged;
mod damaged_courses;
mod days;
mod given;
mod light;
mod marks;
mod meeting;
mod numbers;
mod orders;
mod previews;
mod random;
mod single_main;
mod stack;
mod struck;

use std::ops::{Deref, DerefMut};

use silttongs::{Board, Day, Entry, Refusal, Table, BOARD, BYTES};

/// A table, and the board that is lent to every call that takes one.
#[derive(Clone, Debug, PartialEq, Eq)]
struct Lent {
    table: Table<Vec<u8>>,
    board: Board<Vec<u8>>,
}

impl Deref for Lent {
    type Target = Table<Vec<u8>>;

    fn deref(&self) -> &Table<Vec<u8>> {
        &self.table
    }
}

impl DerefMut for Lent {
    fn deref_mut(&mut self) -> &mut Table<Vec<u8>> {
        &mut self.table
    }
}

impl Lent {
    fn yield_(&mut self, client: u8) -> Result<(), Refusal> {
        self.table.yield_(&mut self.board, client)
    }

    fn join(&mut self, joiner: u8, joinee: u8) -> Result<u32, Refusal> {
        self.table.join(&mut self.board, joiner, joinee)
    }

    fn sync(&mut self, revision: u8) -> Result<u8, Refusal> {
        self.table.sync(&mut self.board, revision)
    }

    fn bundle(&mut self, client: u8, revision: u8, records: &[u8]) -> Result<u32, Refusal> {
        self.table.bundle(&mut self.board, client, revision, records)
    }

    fn bundle_entries(
        &mut self,
        client: u8,
        revision: u8,
        entries: &[Entry],
    ) -> Result<u32, Refusal> {
        self.table.bundle_entries(&mut self.board, client, revision, entries)
    }
}

/// A fresh table, on bytes that were something else.
fn fresh() -> Lent {
    fresh_for(Day::Ordinary)
}

/// A fresh table for a day of this choice.
fn fresh_for(day: Day) -> Lent {
    let mut board = Board::from_bytes(vec![0x5a; BOARD]);
    let table = Table::fresh(vec![0xa5; BYTES], &mut board, day).expect("the lengths are right");
    Lent { table, board }
}
