//! A literal replay of 01: the day kept on paper.
//!
//! An explicit graph of vertices and edges, a path search each time a path is asked for, and the
//! effects of 002's Definitions 8 and 9. Nothing is clever and nothing is kept that can be worked
//! out. It is the measure that the table and the baseline are compared with.
//!
//! Revisions go by the order of their starts, without bound; the box numbers of calls and answers
//! are looked up in the record of 02's U7. Four days on one card are a [`Federation`].

#![forbid(unsafe_code)]

mod board;
mod checks;
mod day;
mod diagram;
mod effects;
mod federation;
mod numbering;
mod steps;
mod update;

pub use day::{Day, Name, Revision, Transaction};
pub use diagram::{Diagram, VertexId, VertexKind};
pub use federation::Federation;
pub use update::{Standing, Update};
