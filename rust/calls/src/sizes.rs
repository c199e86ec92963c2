//! 01, "Sizes of a day", and 02's bundle, board and card, for what makes and judges days. The implementations that
//! are compared keep numbers of their own, and the tests of 01's and 02's edges have them written out.

use crate::Line;

/// Revisions that are out at most, and their numbers: 0 to 63.
pub const REVISIONS: u8 = 64;
/// Clients: 0 to 15.
pub const CLIENTS: u8 = 16;
/// Bibs: 0 to 999.
pub const BIBS: u16 = 1_000;
/// Updates, the sum over all revisions.
pub const UPDATES: usize = 4_096;
/// Records of a bundle, of which there is one at least.
pub const BUNDLE: usize = 64;
/// The length of a board, with an entry of five bytes for each bib.
pub const BOARD: usize = 5 * BIBS as usize;
/// Courses of a federation day: 0 to 3.
pub const COURSES: usize = 4;
/// Updates that the card holds for all courses.
pub const CARD: usize = 8_192;
/// Updates that each course has assured.
pub const ASSURED: usize = 1_024;
/// The length of a listing buffer (01: sheet) that every listing fits.
pub const SHEET: usize = UPDATES * Line::BYTES;
