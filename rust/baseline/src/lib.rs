//! The table's calls in plain Rust, on the cells of docs/CELLS.md.
//!
//! The speed of the proved table is compared with it, and it is one of the two sides of the random
//! tests: the same bytes, checks and steps, written from docs/CELLS.md alone, as one would write
//! them without proofs. So it leaves the bytes that the proved table leaves, on every buffer.

#![forbid(unsafe_code)]

mod bill;
mod board;
mod bundle;
mod calls;
mod checks;
mod day;
mod entry;
mod federation;
mod flags;
mod numbers;
mod order;
mod orders;
mod parts;
mod range;
mod standing;
mod steps;
mod table;
mod update;

pub use self::calls::{
    drop, fill, fork, fresh, join, list, mark, preview, query, sync, update, update_beside, yield_,
};
pub use self::calls::{Fill, Preview};
pub use bill::bill;
pub use board::{standing, standings, BOARD};
pub use bundle::{bundle, bundle_beside};
pub use day::{call, call_beside, Day};
pub use federation::{course, course_call, own_table, Federation};
pub use orders::verify;
pub use parts::BYTES;
pub use update::Standing;
