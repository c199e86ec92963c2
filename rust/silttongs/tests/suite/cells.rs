//! The ranges of docs/CELLS.md, read from its table of parts.

use std::ops::RangeInclusive;

use silttongs::BYTES;

/// A cell that does not have every value in range.
#[derive(Clone, Debug, PartialEq, Eq)]
pub(crate) struct Cell {
    pub(crate) at: usize,
    /// Bytes, 1 or 2.
    pub(crate) width: usize,
    pub(crate) range: RangeInclusive<u16>,
}

impl Cell {
    pub(crate) fn value(&self, t: &[u8]) -> u16 {
        match self.width {
            1 => u16::from(t[self.at]),
            _ => u16::from_le_bytes([t[self.at], t[self.at + 1]]),
        }
    }

    pub(crate) fn set(&self, t: &mut [u8], v: u16) {
        t[self.at..self.at + self.width].copy_from_slice(&v.to_le_bytes()[..self.width]);
    }

    /// The largest number that its bytes hold.
    pub(crate) fn most(&self) -> u16 {
        [0xff, 0xffff][self.width - 1]
    }
}

/// Every such cell, in the order of the bytes.
pub(crate) fn cells() -> Vec<Cell> {
    let text = include_str!("../../../../docs/CELLS.md");
    let lines = text.lines().skip_while(|line| !line.starts_with("| part | offset |"));
    let rows = lines.skip(2).take_while(|line| line.starts_with('|'));
    let mut cells = Vec::new();
    // Where the next cell of this part begins, for a part that has several rows.
    let mut at = 0;
    for row in rows {
        let columns: Vec<&str> = row.trim_matches('|').split('|').map(str::trim).collect();
        let [_, offset, length, kind, range] = columns[..] else { panic!("five columns: {row}") };
        if range == "any" {
            continue;
        }
        if !offset.is_empty() {
            at = number(offset);
        }
        let width = if kind.starts_with("a word") { 2 } else { 1 };
        let count = if kind.contains("for each") { number(length) / width } else { 1 };
        let ranges: Vec<RangeInclusive<u16>> = match range.split_once(" to ") {
            Some((from, to)) => vec![number(from) as u16..=number(to) as u16; count],
            None => range.split(' ').map(|byte| number(byte) as u16).map(|b| b..=b).collect(),
        };
        for range in ranges {
            cells.push(Cell { at, width, range });
            at += width;
        }
    }
    cells
}

fn number(text: &str) -> usize {
    text.replace(',', "").parse().unwrap_or_else(|_| panic!("`{text}` is a number"))
}

/// Code 1 of every call but fresh: the length, or a cell out of its range.
pub(crate) fn is_table(cells: &[Cell], t: &[u8]) -> bool {
    t.len() == BYTES && cells.iter().all(|cell| cell.range.contains(&cell.value(t)))
}
