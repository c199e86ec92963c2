//! What a call answers with.

use std::fmt;

use crate::Code;

/// How a bib stands: 02, U2. It is struck "or, if not, timed exactly if its value isn't 0".
#[derive(Clone, Copy, Debug, PartialEq, Eq, PartialOrd, Ord)]
pub enum State {
    /// Not struck, and its value is 0.
    Neither,
    /// Not struck, and its value is not 0.
    Timed,
    /// Struck; its value is told as 0.
    Struck,
}

/// The code, the state that a query or a preview finds, the value, the second number of a fill, the
/// gain of a preview, and the lines that an accepted list writes.
#[derive(Clone, Debug, PartialEq, Eq)]
pub struct Answer {
    /// Why the call was refused, or that it was accepted.
    pub code: Code,
    /// How the bib stands; neither but for an accepted query or preview.
    pub state: State,
    /// 0 in a refusal; of a query or a preview, 0 if the bib is struck; of a fill, the revision's
    /// own updates; of a bundle, the first entry's number.
    pub value: u32,
    /// The updates accepted by the whole table; 0 but for an accepted fill.
    pub total: u32,
    /// The updates that the join would gain; 0 but for an accepted preview.
    pub gain: u32,
    /// Empty but for an accepted list.
    pub lines: Vec<Line>,
}

/// One entry of a listing, in the order of its fields there; or a record of a bundle. The wrapper
/// `silttongs` has a type and a reading of its own, which tests compare with this one.
#[derive(Clone, Copy, Debug, PartialEq, Eq)]
pub struct Line {
    /// 1 Time, 2 Earliest, 3 Penalty, 4 Strike.
    pub kind: u8,
    /// The client that entered it.
    pub client: u8,
    /// The bib.
    pub bib: u16,
    /// The argument as it was entered, a Strike's too.
    pub v: u32,
    /// The update's number, counted over all revisions from 0.
    pub number: u32,
}

impl Line {
    /// Bytes of a line, and of a record of a bundle.
    pub const BYTES: usize = 12;

    /// From the bytes of the listing, least significant first.
    pub fn from_bytes(bytes: [u8; Line::BYTES]) -> Self {
        let [kind, client, bib_low, bib_high, v0, v1, v2, v3, number @ ..] = bytes;
        Line {
            kind,
            client,
            bib: u16::from_le_bytes([bib_low, bib_high]),
            v: u32::from_le_bytes([v0, v1, v2, v3]),
            number: u32::from_le_bytes(number),
        }
    }

    /// The bytes in the listing.
    pub fn to_bytes(self) -> [u8; Line::BYTES] {
        let Line { kind, client, bib, v, number } = self;
        let [bib_low, bib_high] = bib.to_le_bytes();
        let [v0, v1, v2, v3] = v.to_le_bytes();
        let [n0, n1, n2, n3] = number.to_le_bytes();
        [kind, client, bib_low, bib_high, v0, v1, v2, v3, n0, n1, n2, n3]
    }
}

impl Answer {
    /// A refusal: state neither, every number 0, nothing written.
    pub fn refused(code: Code) -> Self {
        Answer { code, state: State::Neither, value: 0, total: 0, gain: 0, lines: Vec::new() }
    }

    /// Accepted, with a value.
    pub fn accepted(value: u32) -> Self {
        Answer { value, ..Answer::refused(Code::Accepted) }
    }

    /// An accepted query: how the bib stands, and its value.
    pub fn found(state: State, value: u32) -> Self {
        Answer { state, ..Answer::accepted(value) }
    }

    /// An accepted list: its value is the count of its lines.
    pub fn listed(lines: Vec<Line>) -> Self {
        let count = lines.len() as u32;
        Answer { lines, ..Answer::accepted(count) }
    }

    /// An accepted fill: the revision's own updates, and those of the whole table.
    pub fn filled(own: u32, total: u32) -> Self {
        Answer { total, ..Answer::accepted(own) }
    }

    /// An accepted preview: how the bib will stand, its value, and what the join gains.
    pub fn previewed(state: State, value: u32, gain: u32) -> Self {
        Answer { gain, ..Answer::found(state, value) }
    }
}

/// Code and value, and what else is not as in a refusal.
impl fmt::Display for Answer {
    fn fmt(&self, f: &mut fmt::Formatter<'_>) -> fmt::Result {
        let Answer { code, state, value, total, gain, ref lines } = *self;
        write!(f, "code {}, value {value}", code.number())?;
        if state != State::Neither {
            write!(f, ", state {state:?}")?;
        }
        if total != 0 {
            write!(f, ", total {total}")?;
        }
        if gain != 0 {
            write!(f, ", gain {gain}")?;
        }
        if !lines.is_empty() {
            let numbers: Vec<u32> = lines.iter().map(|line| line.number).collect();
            write!(f, ", updates {numbers:?} of {lines:?}")?;
        }
        Ok(())
    }
}

#[cfg(test)]
mod tests {
    use super::*;

    #[test]
    fn answers_are_written_as_far_as_they_tell() {
        let written = [
            (Answer::refused(Code::NotJoinable), "code 11, value 0"),
            (Answer::found(State::Struck, 0), "code 0, value 0, state Struck"),
            (Answer::filled(1, 2), "code 0, value 1, total 2"),
            (Answer::previewed(State::Timed, 9, 3), "code 0, value 9, state Timed, gain 3"),
        ];
        for (answer, text) in written {
            assert_eq!(answer.to_string(), text);
        }
    }

    #[test]
    fn fields_stand_where_01_puts_them() {
        let bytes = [1, 2, 0xe7, 0x03, 0x0d, 0x0c, 0x0b, 0x0a, 0x04, 0x03, 0x02, 0x01];
        let line = Line { kind: 1, client: 2, bib: 999, v: 0x0a0b_0c0d, number: 0x0102_0304 };
        assert_eq!(Line::from_bytes(bytes), line);
        assert_eq!(line.to_bytes(), bytes);
    }
}
