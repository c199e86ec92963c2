//! Code 1: docs/CELLS.md, "Ranges".

use calls::Code;

use crate::numbers::{CLIENTS, REVISIONS};
use crate::parts::{
    BASE, BYTES, COUNT, FIRST, GIVEN, LAST, LAYOUT, OPENED, OUT, QUEUE, SETTLED, SIGNATURE, SIGNED,
    SINGLE, STATE, UPDATES, USED,
};
use crate::table::Table;

/// The table of these bytes, or code 1.
pub(crate) fn checked(bytes: &mut [u8]) -> Result<Table<'_>, Code> {
    let bytes: &mut [u8; BYTES] = bytes.try_into().map_err(|_| Code::NoTable)?;
    if in_range(bytes) {
        Ok(Table(bytes))
    } else {
        Err(Code::NoTable)
    }
}

fn in_range(t: &[u8; BYTES]) -> bool {
    let bytes = |at: usize, count: usize, most: u8| t[at..at + count].iter().all(|&b| b <= most);
    let words = |at: usize, count: usize, most: u16| {
        let (words, _) = t[at..at + 2 * count].as_chunks::<2>();
        words.iter().all(|&word| u16::from_le_bytes(word) <= most)
    };
    bytes(STATE, REVISIONS, 3)
        && bytes(USED, REVISIONS, 1)
        && words(LAST, REVISIONS, 4_095)
        && words(FIRST, REVISIONS, 4_095)
        && words(COUNT, REVISIONS, 4_096)
        && words(BASE, REVISIONS, 4_096)
        && bytes(LAYOUT, REVISIONS, 63)
        && t[QUEUE..QUEUE + REVISIONS].iter().all(|number| (1..=63).contains(number))
        && bytes(OPENED, CLIENTS, 64)
        && words(UPDATES, 1, 4_096)
        && (1..=64).contains(&t[OUT])
        && (1..=64).contains(&t[GIVEN])
        && bytes(SINGLE, 1, 1)
        && words(SETTLED, 1, 4_096)
        && t[SIGNATURE..SIGNATURE + SIGNED.len()] == SIGNED
}
