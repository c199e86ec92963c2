//! The calls of a day, what they answer with, and how both are written.
//!
//! Words only. No rule of the table stands here: the implementations that are compared with one
//! another share these types and nothing else. The sizes of a day are for what makes and judges days.
//!
//! "01" is the scope document, "02" the change requests, "002" the paper "Eventually Consistent
//! Transactions". Identifiers use the paper's terms: revision (01: box), client (tablet), terminal
//! (line end), joined (handed in), accepted (taken), arbitration order (line-up).

#![forbid(unsafe_code)]

mod answer;
mod call;
mod code;
mod course;
mod order;
mod sizes;

pub use answer::{Answer, Line, State};
pub use call::{Call, KINDS, STRIKE};
pub use code::Code;
pub use course::CourseCall;
pub use order::order_file;
pub use sizes::{ASSURED, BIBS, BOARD, BUNDLE, CARD, CLIENTS, COURSES, REVISIONS, SHEET, UPDATES};
