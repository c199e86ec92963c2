//! Where each part of the table lies: docs/CELLS.md, "The parts" and "The entries".

/// Bytes of a table.
pub const BYTES: usize = 65_536;

pub(crate) const ROWS: usize = 0;
pub(crate) const LOW: usize = 32_256;
pub(crate) const HIGH: usize = 36_352;
pub(crate) const SEEN: usize = 38_400;
pub(crate) const CAUGHT: usize = 38_912;
pub(crate) const STATE: usize = 39_040;
pub(crate) const USED: usize = 39_104;
pub(crate) const LAST: usize = 39_168;
pub(crate) const FIRST: usize = 39_296;
pub(crate) const COUNT: usize = 39_424;
pub(crate) const BASE: usize = 39_552;
pub(crate) const LAYOUT: usize = 39_680;
pub(crate) const QUEUE: usize = 39_744;
pub(crate) const OPENED: usize = 39_808;
pub(crate) const UPDATES: usize = 39_824;
pub(crate) const OUT: usize = 39_826;
pub(crate) const GIVEN: usize = 39_827;
pub(crate) const NAMES: usize = 39_828;
pub(crate) const SINGLE: usize = 40_084;
pub(crate) const SETTLED: usize = 40_085;
pub(crate) const STARTED: usize = 40_087;
pub(crate) const SIGNATURE: usize = 40_952;
pub(crate) const ENTRIES: usize = 40_960;

/// The bytes of the signature.
pub(crate) const SIGNED: [u8; 8] = *b"SILTTONG";

/// Bytes of a row of inherited updates.
pub(crate) const ROW: usize = 512;
/// Bytes of an entry.
pub(crate) const ENTRY: usize = 6;
/// Bytes of a mark's name.
pub(crate) const NAME: usize = 4;

/// In the cell of a client's open transaction: there is none.
pub(crate) const CLOSED: u8 = 64;

/// The states of a revision.
pub(crate) const NEVER: u8 = 0;
pub(crate) const IS_OUT: u8 = 1;
/// Joined or dropped.
pub(crate) const IS_JOINED: u8 = 2;
/// Marked, and out.
pub(crate) const IS_MARKED: u8 = 3;
