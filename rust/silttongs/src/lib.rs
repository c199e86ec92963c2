//! The revision table for timing boxes, as a safe library.
//!
//! The calls are the exports of the crate `exports`, written in Rattle and proved against their
//! definitions; this crate lends them a slice and unpacks their answers. It needs no standard
//! library and no allocator. A call needs up to 96 KiB of stack. An answer that no proved call gives,
//! as a refusal with a value, is a panic: the archive is then another one.
//!
//! Two boxes, one bib: box 1 is sent off and gets a penalty, meanwhile box 0 gets a corrected time.
//! What box 1 has comes behind when it is handed in.
//!
//! ```
//! use silttongs::{Board, Day, Kind, Refusal, Standing, Table, BYTES};
//!
//! let mut board = Board::new();
//! let mut table = Table::fresh(vec![0; BYTES], &mut board, Day::Ordinary)?;
//! table.update(0, 0, Kind::Time, 7, 61_000)?;
//! table.yield_(&mut board, 0)?;
//! let sent = table.fork(0)?;
//! table.update(1, sent, Kind::Penalty, 7, 5_000)?;
//! table.yield_(&mut board, 1)?;
//! table.update(0, 0, Kind::Time, 7, 60_000)?;
//! table.yield_(&mut board, 0)?;
//! assert_eq!(table.query(0, sent, 7), Err(Refusal::Stale));
//! assert_eq!(table.join(&mut board, 0, sent), Ok(1));
//! assert_eq!(table.query(1, 0, 7), Ok(Standing::Timed(65_000)));
//! # Ok::<(), Refusal>(())
//! ```
//!
//! The announcer reads the [`Board`], a second buffer that is lent to the calls by which box 0 gets
//! updates: every bib at once, by closed transactions only.
//!
//! ```
//! use silttongs::{Board, Day, Kind, Refusal, Standing, Table, BYTES};
//!
//! let mut board = Board::new();
//! let mut table = Table::fresh(vec![0; BYTES], &mut board, Day::SingleMain)?;
//! let sent = table.fork(0)?;
//! table.update(1, sent, Kind::Time, 7, 61_000)?;
//! table.update(1, sent, Kind::Strike, 12, 0)?;
//! table.yield_(&mut board, 1)?;
//! table.sync(&mut board, sent)?;
//!
//! let lines: Vec<String> = board
//!     .standings()
//!     .filter(|&(_, standing)| standing != Standing::Neither)
//!     .map(|(bib, standing)| match standing {
//!         Standing::Struck => format!("{bib} struck"),
//!         _ => format!("{bib} {}", standing.value()),
//!     })
//!     .collect();
//! assert_eq!(lines, ["7 61000", "12 struck"]);
//! # Ok::<(), Refusal>(())
//! ```
//!
//! Before the protest: the jury marks box 0, which goes on, and comes back by a fork of the mark. Nothing
//! is rewound. Box 0 never takes over what comes of a mark, so the list of the box that came back is the
//! result.
//!
//! ```
//! use silttongs::{lines, Board, Day, Kind, Line, Name, Refusal, Table, BYTES, SHEET};
//!
//! let mut board = Board::new();
//! let mut table = Table::fresh(vec![0; BYTES], &mut board, Day::Ordinary)?;
//! table.update(0, 0, Kind::Time, 7, 60_000)?;
//! table.yield_(&mut board, 0)?;
//! let name = Name::new("JURY")?;
//! let mark = table.mark(0, name)?;
//! table.update(0, 0, Kind::Strike, 7, 0)?;
//! table.yield_(&mut board, 0)?;
//!
//! let back = table.fork(mark)?;
//! table.update(1, back, Kind::Penalty, 7, 5_000)?;
//! table.yield_(&mut board, 1)?;
//! assert_eq!(table.join(&mut board, 0, back), Err(Refusal::NotJoinable));
//! table.drop(name)?;
//!
//! let mut sheet = vec![0; SHEET];
//! let mut listed = |revision| -> Result<Vec<(u8, u32)>, Refusal> {
//!     let count = table.list(revision, &mut sheet)?;
//!     Ok(lines(&sheet, count).map(|Line { kind, v, .. }| (kind, v)).collect())
//! };
//! assert_eq!(listed(0)?, [(1, 60_000), (4, 0)]);
//! assert_eq!(listed(back)?, [(1, 60_000), (3, 5_000)]);
//! # Ok::<(), Refusal>(())
//! ```
//!
//! On a federation day four tables share one card: see [`Federation`].

#![no_std]
#![deny(unsafe_code)]

mod board;
mod course;
mod day;
mod entry;
mod exports;
mod federation;
mod fill;
mod line;
mod mark;
mod name;
mod preview;
mod refusal;
mod standing;
mod table;

pub use board::{Board, BOARD};
pub use course::{Course, COURSES};
pub use day::Day;
pub use entry::{Entry, BUNDLE};
pub use federation::{Federation, ASSURED, CARD};
pub use fill::Fill;
pub use line::{lines, Line, SHEET};
pub use mark::Mark;
pub use name::Name;
pub use preview::Preview;
pub use refusal::Refusal;
pub use standing::Standing;
pub use table::{Kind, Table, BYTES};
