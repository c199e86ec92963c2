//! Four courses, one log: the calls on one of four tables as methods.

use crate::board::Board;
use crate::course::{Course, COURSES};
use crate::day::Day;
use crate::entry::{records, Entry, BUNDLE};
use crate::exports::courses as exports;
use crate::fill::Fill;
use crate::mark::{marks, Mark};
use crate::preview::Preview;
use crate::refusal::Refusal;
use crate::standing::Standing;

/// The tables of courses 0 to 3: lent to be written.
type Lent<'a> = [&'a mut [u8]; COURSES];

/// The updates that the card of all four courses holds.
pub const CARD: usize = 8_192;
/// The updates that each course has assured.
pub const ASSURED: usize = 1_024;

/// The four tables of a federation day and their four boards, each on bytes of its own, or on lent ones, as a
/// [`Table`](crate::Table) and a [`Board`] are.
///
/// The methods are those of a table, with a [`Course`] before their other arguments and without the board:
/// a call that takes one is lent that of its course. No byte of the other three tables and boards is changed.
/// Each answers and writes as the call on the course's table does, but for two codes:
///
/// - 1 if any of the four is no table. [`fresh`](Federation::fresh) looks at the length of its own table
///   alone. Until all four are tables, every other call meets 1.
/// - 20, checked after 9, for an [`update`](Federation::update) and for each entry of a
///   [`bundle`](Federation::bundle) in turn: if with it the sum over the four tables of the larger of
///   [`ASSURED`] and the updates taken would be above [`CARD`]. To make a course fresh gives its updates back.
///
/// Once all four were made fresh, and nothing but these calls writes in them, no call meets 1, and a call that
/// would leave its course with no more than [`ASSURED`] updates, if it were taken, is never turned away on
/// account of the others.
///
/// Two courses fill the card. One of them runs into 20, and a third still takes its 1,024th update:
///
/// ```
/// use silttongs::{Board, Course, Day, Entry, Federation, Kind, Refusal, Standing, BYTES};
///
/// let tables = [(); 4].map(|()| vec![0; BYTES]);
/// let mut federation = Federation::from_bytes(tables, [Board::new(); 4]);
/// for course in Course::ALL {
///     federation.fresh(course, Day::Ordinary)?;
/// }
/// let [long, short, juniors, masters] = Course::ALL;
/// let times = [Entry::new(Kind::Time, 7, 61_000); 64];
/// for _ in 0..64 {
///     federation.bundle_entries(long, 0, 0, &times)?;
/// }
/// for _ in 0..32 {
///     federation.bundle_entries(short, 0, 0, &times)?;
/// }
/// for _ in 0..1_023 {
///     federation.update(juniors, 0, 0, Kind::Time, 7, 61_000)?;
/// }
/// // 4,096 and 2,048, and 1,024 for each of the others.
/// assert_eq!(federation.update(long, 0, 0, Kind::Strike, 7, 0), Err(Refusal::LogFull));
/// assert_eq!(federation.update(short, 0, 0, Kind::Strike, 7, 0), Err(Refusal::SharedLogFull));
/// assert_eq!(federation.update(juniors, 0, 0, Kind::Strike, 7, 0), Ok(1_023));
/// assert_eq!(federation.update(juniors, 0, 0, Kind::Strike, 7, 0), Err(Refusal::SharedLogFull));
///
/// federation.fresh(long, Day::Ordinary)?;
/// assert_eq!(federation.update(juniors, 0, 0, Kind::Strike, 7, 0), Ok(1_024));
/// assert_eq!(federation.update(masters, 0, 0, Kind::Strike, 7, 0), Ok(0));
///
/// federation.yield_(masters, 0)?;
/// let shown = Course::ALL.map(|course| federation.board(course).standing(7).unwrap());
/// let timed = Standing::Timed(61_000);
/// assert_eq!(shown, [Standing::Neither, timed, Standing::Neither, Standing::Struck]);
/// # Ok::<(), Refusal>(())
/// ```
#[derive(Clone, Copy, Debug, PartialEq, Eq)]
pub struct Federation<B, C> {
    tables: [B; COURSES],
    boards: [Board<C>; COURSES],
}

impl<B: AsMut<[u8]>, C: AsMut<[u8]>> Federation<B, C> {
    fn tables(&mut self) -> Lent<'_> {
        self.tables.each_mut().map(AsMut::as_mut)
    }

    /// The four tables, and the board of a course.
    fn lent(&mut self, course: Course) -> (Lent<'_>, &mut [u8]) {
        let board = &mut self.boards[usize::from(course)];
        (self.tables.each_mut().map(AsMut::as_mut), board.lent())
    }

    /// Starts a new day on a course, whatever its bytes were, and clears its board. The updates that it had
    /// are given back to the card.
    ///
    /// ```
    /// use silttongs::{Board, Course, Day, Federation, Kind, Refusal, BYTES};
    ///
    /// let tables = [(); 4].map(|()| vec![0; BYTES]);
    /// let mut federation = Federation::from_bytes(tables, [Board::new(); 4]);
    /// let [first, others @ ..] = Course::ALL;
    /// federation.fresh(first, Day::Ordinary)?;
    /// assert_eq!(federation.update(first, 0, 0, Kind::Time, 7, 1), Err(Refusal::NoTable));
    /// for course in others {
    ///     federation.fresh(course, Day::SingleMain)?;
    /// }
    /// assert_eq!(federation.update(first, 0, 0, Kind::Time, 7, 1), Ok(0));
    /// # Ok::<(), Refusal>(())
    /// ```
    ///
    /// # Errors
    ///
    /// [`Refusal::NoTable`] if its table hasn't [`BYTES`](crate::BYTES) bytes, then [`Refusal::WrongBoard`].
    /// The other tables are not looked at.
    pub fn fresh(&mut self, course: Course, day: Day) -> Result<(), Refusal> {
        let (tables, board) = self.lent(course);
        exports::fresh(tables, course.into(), board, day.choice())
    }

    /// As [`Table::update`](crate::Table::update), on a course.
    ///
    /// # Errors
    ///
    /// Codes 1 to 4, 16, 5 to 9 and 20, in this order.
    pub fn update(
        &mut self,
        course: Course,
        client: u8,
        revision: u8,
        kind: impl Into<u8>,
        bib: u16,
        v: u32,
    ) -> Result<u32, Refusal> {
        exports::update(self.tables(), course.into(), client, revision, kind.into(), bib, v)
    }

    /// As [`Table::query`](crate::Table::query), on a course.
    ///
    /// # Errors
    ///
    /// As for a table, and 1 as said [above](Federation).
    pub fn query(
        &mut self,
        course: Course,
        client: u8,
        revision: u8,
        bib: u16,
    ) -> Result<Standing, Refusal> {
        exports::query(self.tables(), course.into(), client, revision, bib)
    }

    /// As [`Table::yield_`](crate::Table::yield_), on a course. Its board is lent.
    ///
    /// # Errors
    ///
    /// As for a table, and 1 as said [above](Federation).
    pub fn yield_(&mut self, course: Course, client: u8) -> Result<(), Refusal> {
        let (tables, board) = self.lent(course);
        exports::yield_(tables, course.into(), board, client)
    }

    /// As [`Table::fork`](crate::Table::fork), on a course.
    ///
    /// # Errors
    ///
    /// As for a table, and 1 as said [above](Federation).
    pub fn fork(&mut self, course: Course, revision: u8) -> Result<u8, Refusal> {
        exports::fork(self.tables(), course.into(), revision)
    }

    /// As [`Table::join`](crate::Table::join), on a course. Its board is lent.
    ///
    /// # Errors
    ///
    /// As for a table, and 1 as said [above](Federation).
    pub fn join(&mut self, course: Course, joiner: u8, joinee: u8) -> Result<u32, Refusal> {
        let (tables, board) = self.lent(course);
        exports::join(tables, course.into(), board, joiner, joinee)
    }

    /// As [`Table::sync`](crate::Table::sync), on a course. Its board is lent.
    ///
    /// # Errors
    ///
    /// As for a table, and 1 as said [above](Federation).
    pub fn sync(&mut self, course: Course, revision: u8) -> Result<u8, Refusal> {
        let (tables, board) = self.lent(course);
        exports::sync(tables, course.into(), board, revision)
    }

    /// As [`Table::mark`](crate::Table::mark), on a course.
    ///
    /// # Errors
    ///
    /// As for a table, and 1 as said [above](Federation).
    pub fn mark(
        &mut self,
        course: Course,
        revision: u8,
        name: impl AsRef<[u8]>,
    ) -> Result<u8, Refusal> {
        exports::mark(self.tables(), course.into(), revision, name.as_ref())
    }

    /// As [`Table::drop`](crate::Table::drop), on a course.
    ///
    /// # Errors
    ///
    /// As for a table, and 1 as said [above](Federation).
    pub fn drop(&mut self, course: Course, name: impl AsRef<[u8]>) -> Result<(), Refusal> {
        exports::drop(self.tables(), course.into(), name.as_ref())
    }

    /// As [`Table::bundle`](crate::Table::bundle), on a course. Its board is lent.
    ///
    /// # Errors
    ///
    /// Codes 1, 14 and 19, then that of the earliest update that would be refused, 2 to 9, 16 or 20; no byte
    /// of tables and board is changed.
    pub fn bundle(
        &mut self,
        course: Course,
        client: u8,
        revision: u8,
        records: &[u8],
    ) -> Result<u32, Refusal> {
        let (tables, board) = self.lent(course);
        exports::bundle(tables, course.into(), board, client, revision, records)
    }

    /// As [`bundle`](Federation::bundle), of a list of entries.
    ///
    /// # Errors
    ///
    /// As [`bundle`](Federation::bundle); of 14, the count only.
    pub fn bundle_entries(
        &mut self,
        course: Course,
        client: u8,
        revision: u8,
        entries: &[Entry],
    ) -> Result<u32, Refusal> {
        let mut room = [[0; Entry::BYTES]; BUNDLE];
        self.bundle(course, client, revision, records(entries, &mut room))
    }
}

impl<B: AsRef<[u8]>, C> Federation<B, C> {
    fn read(&self) -> [&[u8]; COURSES] {
        self.tables.each_ref().map(AsRef::as_ref)
    }

    /// As [`Table::list`](crate::Table::list), on a course.
    ///
    /// # Errors
    ///
    /// As for a table, and 1 as said [above](Federation).
    pub fn list(&self, course: Course, revision: u8, sheet: &mut [u8]) -> Result<u32, Refusal> {
        exports::list(self.read(), course.into(), revision, sheet)
    }

    /// As [`Table::fill`](crate::Table::fill), on a course. The total is that of the course.
    ///
    /// # Errors
    ///
    /// As for a table, and 1 as said [above](Federation).
    pub fn fill(&self, course: Course, revision: u8) -> Result<Fill, Refusal> {
        exports::fill(self.read(), course.into(), revision)
    }

    /// As [`Table::preview`](crate::Table::preview), on a course.
    ///
    /// # Errors
    ///
    /// As for a table, and 1 as said [above](Federation).
    pub fn preview(
        &self,
        course: Course,
        joiner: u8,
        joinee: u8,
        bib: u16,
    ) -> Result<Preview, Refusal> {
        exports::preview(self.read(), course.into(), joiner, joinee, bib)
    }

    /// As [`Table::verify`](crate::Table::verify), on a course.
    ///
    /// # Errors
    ///
    /// As for a table, and 1 as said [above](Federation).
    pub fn verify(&self, course: Course, order: &[u8]) -> Result<bool, Refusal> {
        exports::verify(self.read(), course.into(), order)
    }

    /// As [`Table::bill`](crate::Table::bill), on a course: each has its own.
    ///
    /// # Errors
    ///
    /// As for a table, and 1 as said [above](Federation).
    pub fn bill(&self, course: Course, member: bool) -> Result<u32, Refusal> {
        exports::bill(self.read(), course.into(), member.into())
    }

    /// As [`Table::marks`](crate::Table::marks), on a course.
    ///
    /// # Errors
    ///
    /// Code 1, as said [above](Federation).
    pub fn marks(&self, course: Course) -> Result<impl Iterator<Item = Mark> + '_, Refusal> {
        // Of bytes that no day made box 0 may be none that is out, but they are a table.
        match self.fill(course, 0) {
            Err(Refusal::NoTable) => Err(Refusal::NoTable),
            _ => Ok(marks(self.read()[usize::from(course)])),
        }
    }

    /// The bytes of the four tables, to be kept or copied.
    pub fn bytes(&self) -> [&[u8]; COURSES] {
        self.read()
    }
}

impl<B, C> Federation<B, C> {
    /// Tables that were made before, as some read from files, with the board of each; or such as are made
    /// fresh next. Each call checks the bytes of all tables and the length of its board anew.
    pub fn from_bytes(tables: [B; COURSES], boards: [Board<C>; COURSES]) -> Self {
        Federation { tables, boards }
    }

    /// The tables and their boards, given back.
    pub fn into_bytes(self) -> ([B; COURSES], [Board<C>; COURSES]) {
        (self.tables, self.boards)
    }

    /// The board of a course.
    pub fn board(&self, course: Course) -> &Board<C> {
        &self.boards[usize::from(course)]
    }
}
