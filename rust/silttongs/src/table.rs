//! The calls as methods.

use crate::board::Board;
use crate::day::Day;
use crate::entry::{records, Entry, BUNDLE};
use crate::exports;
use crate::fill::Fill;
use crate::mark::{marks, Mark};
use crate::preview::Preview;
use crate::refusal::Refusal;
use crate::standing::Standing;

/// The length of a table in bytes.
pub const BYTES: usize = 65_536;

/// The kinds of update, and what each does to a bib.
#[derive(Clone, Copy, Debug, PartialEq, Eq, Hash)]
#[repr(u8)]
pub enum Kind {
    /// The value becomes v. It lifts a strike, with v = 0 too.
    Time = 1,
    /// The smaller of value and v among those that aren't 0. A struck bib stays struck.
    Earliest = 2,
    /// v is added modulo 4,294,967,296, to value 0 nothing. A struck bib stays struck.
    Penalty = 3,
    /// The bib is struck; v isn't looked at.
    Strike = 4,
}

impl From<Kind> for u8 {
    fn from(kind: Kind) -> u8 {
        kind as u8
    }
}

impl TryFrom<u8> for Kind {
    type Error = Refusal;

    /// Code 5 if the number is not 1 to 4.
    fn try_from(number: u8) -> Result<Kind, Refusal> {
        [Kind::Time, Kind::Earliest, Kind::Penalty, Kind::Strike]
            .into_iter()
            .find(|&kind| kind as u8 == number)
            .ok_or(Refusal::BadEntry)
    }
}

/// A table on bytes of its own, as `[u8; BYTES]` or `Box<[u8]>`, or on lent ones, as `&mut [u8]`,
/// or `&[u8]` for what only reads: lists, fills, previews, verifies, bills and [`marks`](Table::marks).
///
/// Nothing but the bytes is kept. A refused call changes none of them. A box is a revision of the
/// table, a tablet is a client. A [`Board`] is lent besides to the calls that may bring updates to box 0.
#[derive(Clone, Copy, Debug, PartialEq, Eq)]
pub struct Table<B>(B);

impl<B: AsMut<[u8]>> Table<B> {
    /// A new day, whatever the bytes were: box 0 alone, every bib 0 and not struck. The board is
    /// cleared, whatever it was.
    ///
    /// ```
    /// use silttongs::{Board, Day, Refusal, Table, BYTES};
    ///
    /// let (mut lent, mut board) = ([0; BYTES], Board::new());
    /// assert!(Table::fresh(&mut lent, &mut board, Day::Ordinary).is_ok());
    /// let short = Table::fresh(&mut lent[1..], &mut board, Day::Ordinary);
    /// assert_eq!(short.err(), Some(Refusal::NoTable));
    /// ```
    ///
    /// On a single-main day boxes come from box 0 and go back to it alone:
    ///
    /// ```
    /// # use silttongs::{Board, Day, Refusal, Table, BYTES};
    /// let mut board = Board::new();
    /// let mut table = Table::fresh([0; BYTES], &mut board, Day::SingleMain)?;
    /// assert_eq!((table.fork(0), table.fork(0)), (Ok(1), Ok(2)));
    /// assert_eq!(table.fork(1), Err(Refusal::OffTheLine));
    /// assert_eq!(table.join(&mut board, 2, 1), Err(Refusal::OffTheLine));
    /// assert_eq!(table.join(&mut board, 0, 1), Ok(0));
    /// # Ok::<(), Refusal>(())
    /// ```
    ///
    /// # Errors
    ///
    /// [`Refusal::NoTable`] if there aren't [`BYTES`] bytes, [`Refusal::WrongBoard`] if the board
    /// hasn't [`BOARD`](crate::BOARD).
    pub fn fresh(
        mut bytes: B,
        board: &mut Board<impl AsMut<[u8]>>,
        day: Day,
    ) -> Result<Self, Refusal> {
        exports::fresh(bytes.as_mut(), board.lent(), day.choice())?;
        Ok(Table(bytes))
    }

    /// Enters an update of a bib on a box, in the tablet's transaction there, which it opens if
    /// need be. Its number is the answer: the count of updates taken before it.
    ///
    /// ```
    /// use silttongs::{Board, Day, Kind, Refusal, Table, BYTES};
    ///
    /// let mut board = Board::new();
    /// let mut table = Table::fresh([0; BYTES], &mut board, Day::Ordinary)?;
    /// assert_eq!(table.update(0, 0, Kind::Time, 7, 61_000), Ok(0));
    /// assert_eq!(table.update(0, 0, Kind::Penalty, 7, 5_000), Ok(1));
    /// assert_eq!(table.update(0, 0, Kind::Strike, 1_000, 0), Err(Refusal::BadEntry));
    /// # Ok::<(), Refusal>(())
    /// ```
    ///
    /// # Errors
    ///
    /// Codes 1 to 4, 16 and 5 to 9, in this order.
    pub fn update(
        &mut self,
        client: u8,
        revision: u8,
        kind: impl Into<u8>,
        bib: u16,
        v: u32,
    ) -> Result<u32, Refusal> {
        exports::update(self.0.as_mut(), client, revision, kind.into(), bib, v)
    }

    /// How a bib stands on a box: struck, timed or neither. It is looked up in the tablet's
    /// transaction there, which is opened if need be. A query is an event: the tablet is tied to
    /// what it saw.
    ///
    /// ```
    /// use silttongs::{Board, Day, Kind, Refusal, Standing, Table, BYTES};
    ///
    /// let mut board = Board::new();
    /// let mut table = Table::fresh([0; BYTES], &mut board, Day::Ordinary)?;
    /// assert_eq!(table.query(0, 0, 7), Ok(Standing::Neither));
    /// table.update(0, 0, Kind::Time, 7, 61_000)?;
    /// assert_eq!(table.query(0, 0, 7), Ok(Standing::Timed(61_000)));
    /// assert_eq!(table.query(0, 0, 7)?.value(), 61_000);
    /// assert_eq!(table.query(1, 0, 7), Err(Refusal::InUse));
    /// # Ok::<(), Refusal>(())
    /// ```
    ///
    /// A struck bib stays struck until a Time:
    ///
    /// ```
    /// # use silttongs::{Board, Day, Kind, Refusal, Standing, Table, BYTES};
    /// # let mut board = Board::new();
    /// # let mut table = Table::fresh([0; BYTES], &mut board, Day::Ordinary)?;
    /// table.update(0, 0, Kind::Strike, 7, 0)?;
    /// table.update(0, 0, Kind::Earliest, 7, 60_000)?;
    /// table.update(0, 0, Kind::Penalty, 7, 5_000)?;
    /// assert_eq!(table.query(0, 0, 7), Ok(Standing::Struck));
    /// table.update(0, 0, Kind::Time, 7, 62_000)?;
    /// assert_eq!(table.query(0, 0, 7), Ok(Standing::Timed(62_000)));
    /// # Ok::<(), Refusal>(())
    /// ```
    ///
    /// # Errors
    ///
    /// Codes 1 to 4, 16 and 5 to 8, in this order.
    pub fn query(&mut self, client: u8, revision: u8, bib: u16) -> Result<Standing, Refusal> {
        exports::query(self.0.as_mut(), client, revision, bib)
    }

    /// The call yield, whose name is a word of the language: closes the tablet's transaction, if it
    /// has one. If that is on box 0, its updates are brought to the board.
    ///
    /// ```
    /// use silttongs::{Board, Day, Refusal, Table, BYTES};
    ///
    /// let mut board = Board::new();
    /// let mut table = Table::fresh([0; BYTES], &mut board, Day::Ordinary)?;
    /// table.query(0, 0, 7)?;
    /// assert_eq!(table.fork(0), Err(Refusal::InUse));
    /// table.yield_(&mut board, 0)?;
    /// assert_eq!(table.fork(0), Ok(1));
    /// # Ok::<(), Refusal>(())
    /// ```
    ///
    /// # Errors
    ///
    /// Codes 1, 19 and 2, in this order.
    pub fn yield_(
        &mut self,
        board: &mut Board<impl AsMut<[u8]>>,
        client: u8,
    ) -> Result<(), Refusal> {
        exports::yield_(self.0.as_mut(), board.lent(), client)
    }

    /// Sends a new box off from a box, marked or not. Its number is the answer: the next that was never used; once
    /// all were, the number handed in or dropped longest ago. A number means the latest box that bore it.
    ///
    /// ```
    /// use silttongs::{Board, Day, Refusal, Table, BYTES};
    ///
    /// let mut board = Board::new();
    /// let mut table = Table::fresh([0; BYTES], &mut board, Day::Ordinary)?;
    /// assert_eq!(table.fork(0), Ok(1));
    /// assert_eq!(table.fork(1), Ok(2));
    /// assert_eq!(table.fork(3), Err(Refusal::NeverGiven));
    /// # Ok::<(), Refusal>(())
    /// ```
    ///
    /// 64 boxes may be out at a time:
    ///
    /// ```
    /// # use silttongs::{Board, Day, Refusal, Table, BYTES};
    /// # let mut board = Board::new();
    /// # let mut table = Table::fresh([0; BYTES], &mut board, Day::Ordinary)?;
    /// for number in 1..64 {
    ///     assert_eq!(table.fork(0), Ok(number));
    /// }
    /// assert_eq!(table.fork(0), Err(Refusal::NoneLeft));
    /// table.join(&mut board, 0, 40)?;
    /// table.join(&mut board, 0, 7)?;
    /// assert_eq!(table.fork(40), Err(Refusal::Joined));
    /// assert_eq!(table.fork(0), Ok(40));
    /// assert_eq!(table.fork(40), Ok(7));
    /// # Ok::<(), Refusal>(())
    /// ```
    ///
    /// # Errors
    ///
    /// Codes 1, 3, 4, 15, 7 and 10, in this order.
    pub fn fork(&mut self, revision: u8) -> Result<u8, Refusal> {
        exports::fork(self.0.as_mut(), revision)
    }

    /// Hands a box in: the joiner takes over the joinee's updates, behind its own. How many it
    /// gained is the answer. However many those are, the table differs from its former bytes at no
    /// more than 256 places. What box 0 gains is brought to the board.
    ///
    /// ```
    /// use silttongs::{Board, Day, Kind, Refusal, Table, BYTES};
    ///
    /// let mut board = Board::new();
    /// let mut table = Table::fresh([0; BYTES], &mut board, Day::Ordinary)?;
    /// table.fork(0)?;
    /// table.update(3, 1, Kind::Time, 7, 61_000)?;
    /// table.yield_(&mut board, 3)?;
    /// assert_eq!(table.join(&mut board, 1, 0), Err(Refusal::NotJoinable));
    /// assert_eq!(table.join(&mut board, 0, 1), Ok(1));
    /// # Ok::<(), Refusal>(())
    /// ```
    ///
    /// # Errors
    ///
    /// Codes 1, 19, 3, 4, 15, 16, 7 and 11, in this order.
    pub fn join(
        &mut self,
        board: &mut Board<impl AsMut<[u8]>>,
        joiner: u8,
        joinee: u8,
    ) -> Result<u32, Refusal> {
        exports::join(self.0.as_mut(), board.lent(), joiner, joinee)
    }

    /// Hands a box in to box 0 and sends a new one off from there, in one call, on any day: as
    /// [`join`](Table::join) and then [`fork`](Table::fork) of box 0, but both or neither. The new
    /// box's number is the answer. The old number is handed in before a new one is taken; so with 64
    /// boxes out it is the same again. The table differs from its former bytes at no more than 512
    /// places. What box 0 gains is brought to the board.
    ///
    /// ```
    /// use silttongs::{Board, Day, Kind, Refusal, Standing, Table, BYTES};
    ///
    /// let mut board = Board::new();
    /// let mut table = Table::fresh([0; BYTES], &mut board, Day::SingleMain)?;
    /// let mut sent = table.fork(0)?;
    /// table.update(3, sent, Kind::Time, 7, 61_000)?;
    /// assert_eq!(table.sync(&mut board, sent), Err(Refusal::InUse));
    /// table.yield_(&mut board, 3)?;
    /// sent = table.sync(&mut board, sent)?;
    /// assert_eq!(sent, 2);
    /// assert_eq!(table.query(3, sent, 7), Ok(Standing::Timed(61_000)));
    /// assert_eq!(table.sync(&mut board, 1), Err(Refusal::Joined));
    /// assert_eq!(table.sync(&mut board, 0), Err(Refusal::NotJoinable));
    /// # Ok::<(), Refusal>(())
    /// ```
    ///
    /// # Errors
    ///
    /// Codes 1, 19, 3, 4, 16, 7 and 11, as for a join into box 0.
    pub fn sync(
        &mut self,
        board: &mut Board<impl AsMut<[u8]>>,
        revision: u8,
    ) -> Result<u8, Refusal> {
        exports::sync(self.0.as_mut(), board.lent(), revision)
    }

    /// Marks a box, marked or not: a new box is sent off from it as by [`fork`](Table::fork), and bears a
    /// name of four letters A to Z. Its number is the answer. It can be listed, filled, forked and
    /// marked, but not written, queried or joined, so that it stays as it is. It counts among the 64 boxes
    /// out.
    ///
    /// The name is a [`Name`](crate::Name), or letters that are checked by the call.
    ///
    /// To come back is to fork the mark: box 0 and all others go on. A box that was forked from a mark is
    /// taken over only by boxes that come later from the same mark, never by box 0; so its list is the
    /// result.
    ///
    /// ```
    /// use silttongs::{Board, Day, Kind, Name, Refusal, Standing, Table, BYTES};
    ///
    /// let mut board = Board::new();
    /// let mut table = Table::fresh([0; BYTES], &mut board, Day::Ordinary)?;
    /// table.update(0, 0, Kind::Time, 7, 60_000)?;
    /// assert_eq!(table.mark(0, "JURY"), Err(Refusal::InUse));
    /// table.yield_(&mut board, 0)?;
    /// assert_eq!(table.mark(0, Name::new("JURY")?), Ok(1));
    /// assert_eq!(table.mark(0, "JURY"), Err(Refusal::BadName));
    /// assert_eq!(table.mark(0, "jury"), Err(Refusal::BadName));
    /// assert_eq!(table.query(1, 1, 7), Err(Refusal::Marked));
    ///
    /// table.update(0, 0, Kind::Strike, 7, 0)?;
    /// table.yield_(&mut board, 0)?;
    /// let back = table.fork(1)?;
    /// assert_eq!(table.query(1, back, 7), Ok(Standing::Timed(60_000)));
    /// table.yield_(&mut board, 1)?;
    /// assert_eq!(table.join(&mut board, 0, back), Err(Refusal::NotJoinable));
    /// # Ok::<(), Refusal>(())
    /// ```
    ///
    /// # Errors
    ///
    /// Codes 1, 3, 4, 15, 7, 10 and 17, in this order; 15 for every box on a single-main day.
    pub fn mark(&mut self, revision: u8, name: impl AsRef<[u8]>) -> Result<u8, Refusal> {
        exports::mark(self.0.as_mut(), revision, name.as_ref())
    }

    /// Drops the mark of a name. Its number is free as if the box were handed in, in the one order of
    /// joins, syncs and drops; its name is free again. Boxes that were forked from it stay.
    ///
    /// ```
    /// use silttongs::{Board, Day, Refusal, Table, BYTES};
    ///
    /// let mut board = Board::new();
    /// let mut table = Table::fresh([0; BYTES], &mut board, Day::Ordinary)?;
    /// assert_eq!(table.mark(0, "JURY"), Ok(1));
    /// table.drop("JURY")?;
    /// assert_eq!(table.drop("JURY"), Err(Refusal::NoSuchMark));
    /// assert_eq!(table.fork(1), Err(Refusal::Joined));
    /// assert_eq!(table.mark(0, "JURY"), Ok(2));
    /// # Ok::<(), Refusal>(())
    /// ```
    ///
    /// # Errors
    ///
    /// Codes 1 and 18; 18 for letters that are no name, too.
    pub fn drop(&mut self, name: impl AsRef<[u8]>) -> Result<(), Refusal> {
        exports::drop(self.0.as_mut(), name.as_ref())
    }

    /// Enters 1 to 64 updates on a box, and closes the tablet's transaction there: as
    /// [`update`](Table::update) one by one and then [`yield_`](Table::yield_), but all or none. The
    /// first entry's number is the answer. On box 0 the transaction is brought to the board, with what
    /// was entered singly before.
    ///
    /// The records have 12 bytes each, laid out as a [`Line`](crate::Line); their tablet and number
    /// aren't looked at.
    ///
    /// ```
    /// use silttongs::{Board, Day, Entry, Kind, Refusal, Table, BYTES};
    ///
    /// let mut board = Board::new();
    /// let mut table = Table::fresh([0; BYTES], &mut board, Day::Ordinary)?;
    /// let time = Entry::new(Kind::Time, 7, 61_000).to_bytes();
    /// let strike = Entry::new(Kind::Strike, 8, 0).to_bytes();
    /// assert_eq!(table.bundle(&mut board, 0, 0, &[time, strike].concat()), Ok(0));
    /// assert_eq!(table.bundle(&mut board, 0, 0, &time), Ok(2));
    /// assert_eq!(table.bundle(&mut board, 0, 0, &time[1..]), Err(Refusal::WrongBundle));
    /// # Ok::<(), Refusal>(())
    /// ```
    ///
    /// # Errors
    ///
    /// Code 1, then 14 if there are no records, more than 64, or bytes left over, then 19. Then that of
    /// the earliest update that would be refused, 2 to 9 or 16; no byte of table and board is changed.
    pub fn bundle(
        &mut self,
        board: &mut Board<impl AsMut<[u8]>>,
        client: u8,
        revision: u8,
        records: &[u8],
    ) -> Result<u32, Refusal> {
        exports::bundle(self.0.as_mut(), board.lent(), client, revision, records)
    }

    /// As [`bundle`](Table::bundle), of a list of entries.
    ///
    /// ```
    /// use silttongs::{Board, Day, Entry, Fill, Kind, Refusal, Standing, Table, BYTES};
    ///
    /// let mut board = Board::new();
    /// let mut table = Table::fresh([0; BYTES], &mut board, Day::Ordinary)?;
    /// let entries = [Entry::new(Kind::Time, 7, 61_000), Entry::new(Kind::Penalty, 7, 5_000)];
    /// assert_eq!(table.bundle_entries(&mut board, 0, 0, &entries), Ok(0));
    /// assert_eq!(table.query(1, 0, 7), Ok(Standing::Timed(66_000)));
    ///
    /// let late = [entries[0], Entry::new(Kind::Strike, 1_000, 0)];
    /// assert_eq!(table.bundle_entries(&mut board, 1, 0, &late), Err(Refusal::BadEntry));
    /// assert_eq!(table.fill(0), Ok(Fill { own: 2, total: 2 }));
    /// assert_eq!(table.bundle_entries(&mut board, 1, 0, &[]), Err(Refusal::WrongBundle));
    /// let many = table.bundle_entries(&mut board, 1, 0, &[entries[0]; 65]);
    /// assert_eq!(many, Err(Refusal::WrongBundle));
    /// # Ok::<(), Refusal>(())
    /// ```
    ///
    /// # Errors
    ///
    /// As [`bundle`](Table::bundle); of 14, the count only.
    pub fn bundle_entries(
        &mut self,
        board: &mut Board<impl AsMut<[u8]>>,
        client: u8,
        revision: u8,
        entries: &[Entry],
    ) -> Result<u32, Refusal> {
        let mut room = [[0; Entry::BYTES]; BUNDLE];
        self.bundle(board, client, revision, records(entries, &mut room))
    }
}

impl<B: AsRef<[u8]>> Table<B> {
    /// Writes the updates visible on a box to the sheet, a [`Line`](crate::Line) of 12 bytes
    /// each, in the order in which they apply, whatever their numbers. How many is the answer. Bytes
    /// of the sheet behind them stay, and so does the table: a list is no event.
    ///
    /// ```
    /// use silttongs::{lines, Board, Day, Kind, Line, Refusal, Table, BYTES, SHEET};
    ///
    /// let mut board = Board::new();
    /// let mut table = Table::fresh([0; BYTES], &mut board, Day::Ordinary)?;
    /// table.fork(0)?;
    /// table.update(3, 1, Kind::Penalty, 7, 5_000)?;
    /// table.yield_(&mut board, 3)?;
    /// table.update(2, 0, Kind::Time, 7, 60_000)?;
    /// table.yield_(&mut board, 2)?;
    /// table.join(&mut board, 0, 1)?;
    ///
    /// let mut sheet = [0; SHEET];
    /// let count = table.list(0, &mut sheet)?;
    /// let time = Line { kind: 1, client: 2, bib: 7, v: 60_000, number: 1 };
    /// let penalty = Line { kind: 3, client: 3, bib: 7, v: 5_000, number: 0 };
    /// assert!(lines(&sheet, count).eq([time, penalty]));
    ///
    /// assert_eq!(table.list(0, &mut sheet[..23]), Err(Refusal::SheetShort));
    /// assert_eq!(Table::from_bytes(table.bytes()).list(0, &mut sheet), Ok(2));
    /// # Ok::<(), Refusal>(())
    /// ```
    ///
    /// # Errors
    ///
    /// Codes 1, 3, 4, 7 and 12.
    pub fn list(&self, revision: u8, sheet: &mut [u8]) -> Result<u32, Refusal> {
        exports::list(self.0.as_ref(), revision, sheet)
    }

    /// How full a box is, busy or not: its own updates, and those taken by the whole table. From
    /// fresh on, through the calls alone, the own updates of all boxes out come to the total. The
    /// table stays: a fill is no event.
    ///
    /// ```
    /// use silttongs::{Board, Day, Fill, Kind, Refusal, Table, BYTES};
    ///
    /// let mut board = Board::new();
    /// let mut table = Table::fresh([0; BYTES], &mut board, Day::Ordinary)?;
    /// table.update(2, 0, Kind::Time, 7, 61_000)?;
    /// table.yield_(&mut board, 2)?;
    /// table.fork(0)?;
    /// table.update(3, 1, Kind::Penalty, 7, 5_000)?;
    /// table.update(3, 1, Kind::Penalty, 8, 5_000)?;
    /// assert_eq!(table.fill(0), Ok(Fill { own: 1, total: 3 }));
    /// assert_eq!(table.fill(1), Ok(Fill { own: 2, total: 3 }));
    ///
    /// table.yield_(&mut board, 3)?;
    /// table.join(&mut board, 0, 1)?;
    /// assert_eq!(table.fill(0), Ok(Fill { own: 3, total: 3 }));
    /// assert_eq!(table.fill(1), Err(Refusal::Joined));
    /// assert_eq!(table.fill(2), Err(Refusal::NeverGiven));
    /// # Ok::<(), Refusal>(())
    /// ```
    ///
    /// # Errors
    ///
    /// Codes 1, 3 and 4.
    pub fn fill(&self, revision: u8) -> Result<Fill, Refusal> {
        exports::fill(self.0.as_ref(), revision)
    }

    /// What a [`join`](Table::join) will bring: how a bib will stand at the joiner, and how many
    /// updates it will gain. The table stays: a preview is no event.
    ///
    /// ```
    /// use silttongs::{Board, Day, Kind, Preview, Refusal, Standing, Table, BYTES};
    ///
    /// let mut board = Board::new();
    /// let mut table = Table::fresh([0; BYTES], &mut board, Day::Ordinary)?;
    /// table.fork(0)?;
    /// table.update(3, 1, Kind::Penalty, 7, 5_000)?;
    /// table.yield_(&mut board, 3)?;
    /// table.update(2, 0, Kind::Time, 7, 60_000)?;
    /// table.yield_(&mut board, 2)?;
    ///
    /// let preview = Preview { standing: Standing::Timed(65_000), gain: 1 };
    /// assert_eq!(table.preview(0, 1, 7), Ok(preview));
    /// assert_eq!(table.preview(1, 0, 7), Err(Refusal::NotJoinable));
    /// assert_eq!(table.preview(0, 1, 1_000), Err(Refusal::BadEntry));
    ///
    /// assert_eq!(table.join(&mut board, 0, 1), Ok(1));
    /// assert_eq!(table.query(2, 0, 7), Ok(Standing::Timed(65_000)));
    /// # Ok::<(), Refusal>(())
    /// ```
    ///
    /// # Errors
    ///
    /// Codes 1, 3, 4, 15, 16, 7 and 11 as for the join, then 5 for the bib.
    pub fn preview(&self, joiner: u8, joinee: u8, bib: u16) -> Result<Preview, Refusal> {
        exports::preview(self.0.as_ref(), joiner, joinee, bib)
    }

    /// Whether an order of updates that other software made fits the table: it has every update taken
    /// exactly once and no other number, and the visible updates of every box out, busy or marked too,
    /// stand in it in listed order. The table stays: a verify is no event.
    ///
    /// The order is a file: a count and an offset, 4 bytes each, then from the offset on the updates'
    /// numbers, 2 bytes each, all with the least significant byte first.
    ///
    /// ```
    /// use silttongs::{Board, Day, Kind, Refusal, Table, BYTES};
    ///
    /// let mut board = Board::new();
    /// let mut table = Table::fresh([0; BYTES], &mut board, Day::Ordinary)?;
    /// table.fork(0)?;
    /// table.update(3, 1, Kind::Penalty, 7, 5_000)?;
    /// table.yield_(&mut board, 3)?;
    /// table.update(2, 0, Kind::Time, 7, 60_000)?;
    /// table.yield_(&mut board, 2)?;
    /// table.join(&mut board, 0, 1)?;
    ///
    /// let [wrong, right] = [[0, 1], [1, 0]].map(|[a, b]| [2, 0, 0, 0, 8, 0, 0, 0, a, 0, b, 0]);
    /// assert_eq!(table.verify(&wrong), Ok(false));
    /// assert_eq!(table.verify(&right), Ok(true));
    /// assert_eq!(table.verify(&right[..11]), Err(Refusal::BadList));
    /// # Ok::<(), Refusal>(())
    /// ```
    ///
    /// # Errors
    ///
    /// Codes 1 and 21.
    pub fn verify(&self, order: &[u8]) -> Result<bool, Refusal> {
        exports::verify(self.0.as_ref(), order)
    }

    /// What the day costs until now, in cents: 350 for each box ever started, box 0 included, and 45 for
    /// each started hundred of updates; a member has 15 percent off, rounded down; 2,000 at least. A number
    /// that is used again counts again, a mark does not, but a fork of it does. The count of boxes stops at
    /// 65,535. No call of the day lowers it. The table stays: a bill is no event.
    ///
    /// ```
    /// use silttongs::{Board, Day, Refusal, Table, BYTES};
    ///
    /// let mut table = Table::fresh([0; BYTES], &mut Board::new(), Day::Ordinary)?;
    /// assert_eq!(table.bill(false), Ok(2_000));
    /// for _ in 0..6 {
    ///     table.fork(0)?;
    /// }
    /// assert_eq!(table.bill(false), Ok(2_450));
    /// assert_eq!(table.bill(true), Ok(2_083));
    /// # Ok::<(), Refusal>(())
    /// ```
    ///
    /// # Errors
    ///
    /// Code 1.
    pub fn bill(&self, member: bool) -> Result<u32, Refusal> {
        exports::bill(self.0.as_ref(), member.into())
    }

    /// The marks that are out, in the order of their numbers, read from the table's cells.
    ///
    /// ```
    /// use silttongs::{Board, Day, Refusal, Table, BYTES};
    ///
    /// let mut board = Board::new();
    /// let mut table = Table::fresh([0; BYTES], &mut board, Day::Ordinary)?;
    /// table.mark(0, "NOON")?;
    /// table.fork(0)?;
    /// table.mark(0, "JURY")?;
    /// let named = |table: &Table<[u8; BYTES]>| -> Result<Vec<(u8, String)>, Refusal> {
    ///     Ok(table.marks()?.map(|mark| (mark.revision, mark.name.to_string())).collect())
    /// };
    /// assert_eq!(named(&table)?, [(1, "NOON".to_string()), (3, "JURY".to_string())]);
    /// table.drop("NOON")?;
    /// assert_eq!(named(&table)?, [(3, "JURY".to_string())]);
    /// # Ok::<(), Refusal>(())
    /// ```
    ///
    /// # Errors
    ///
    /// Code 1.
    pub fn marks(&self) -> Result<impl Iterator<Item = Mark> + '_, Refusal> {
        let bytes = self.0.as_ref();
        // Of bytes that no day made box 0 may be none that is out, but they are a table.
        match exports::fill(bytes, 0) {
            Err(Refusal::NoTable) => Err(Refusal::NoTable),
            _ => Ok(marks(bytes)),
        }
    }

    /// The bytes, to be kept or copied.
    pub fn bytes(&self) -> &[u8] {
        self.0.as_ref()
    }
}

impl<B> Table<B> {
    /// A table that was made before, as one read from a file. Each call checks the bytes anew and
    /// refuses what is no table.
    ///
    /// ```
    /// use silttongs::{Board, Refusal, Table, BYTES};
    ///
    /// let mut table = Table::from_bytes(vec![0; BYTES]);
    /// assert_eq!(table.yield_(&mut Board::new(), 0), Err(Refusal::NoTable));
    /// ```
    pub fn from_bytes(bytes: B) -> Self {
        Table(bytes)
    }

    /// The bytes, given back.
    pub fn into_bytes(self) -> B {
        self.0
    }
}
