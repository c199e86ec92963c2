//! The day file: a header of a count and an offset, then records.

use std::fmt;

use crate::record::Record;

/// Bytes of the header.
const HEADER: usize = 8;
/// The longest day file.
pub const LONGEST: usize = 65_536;
/// The most steps that a day file holds.
pub const MOST_STEPS: usize = (LONGEST - HEADER) / Record::SIZE;

/// Why bytes are no day file. The program prints `bad file` in each case.
#[derive(Clone, Copy, Debug, PartialEq, Eq)]
pub enum BadFile {
    /// The length is under 8 or above 65,536.
    Length(usize),
    /// The offset is under 8.
    Offset(u32),
    /// Offset + 12 n isn't the length.
    Count {
        /// Steps n.
        count: u32,
        /// Where the first record begins.
        offset: u32,
        /// The length of the file.
        length: usize,
    },
}

impl fmt::Display for BadFile {
    fn fmt(&self, f: &mut fmt::Formatter<'_>) -> fmt::Result {
        match *self {
            BadFile::Length(length) if length > LONGEST => {
                write!(f, "bad file: longer than {LONGEST} bytes")
            }
            BadFile::Length(length) => {
                write!(f, "bad file: {length} bytes, and the header alone has {HEADER}")
            }
            BadFile::Offset(offset) => {
                write!(f, "bad file: records begin at byte {offset}, within the header")
            }
            BadFile::Count { count, offset, length } => write!(
                f,
                "bad file: {count} records from byte {offset} on end at byte {}, not at {length}",
                end(count, offset)
            ),
        }
    }
}

impl std::error::Error for BadFile {}

/// Offset + 12 n, which may be more than 32 bits hold.
fn end(count: u32, offset: u32) -> u64 {
    u64::from(offset) + Record::SIZE as u64 * u64::from(count)
}

/// The records of a day file. Bytes between header and records aren't looked at.
pub fn read_file(bytes: &[u8]) -> Result<Vec<Record>, BadFile> {
    let length = bytes.len();
    if length > LONGEST {
        return Err(BadFile::Length(length));
    }
    let Some((&[n0, n1, n2, n3, o0, o1, o2, o3], _)) = bytes.split_first_chunk::<HEADER>() else {
        return Err(BadFile::Length(length));
    };
    let count = u32::from_le_bytes([n0, n1, n2, n3]);
    let offset = u32::from_le_bytes([o0, o1, o2, o3]);
    if (offset as usize) < HEADER {
        return Err(BadFile::Offset(offset));
    }
    if end(count, offset) != length as u64 {
        return Err(BadFile::Count { count, offset, length });
    }
    let (records, _) = bytes[offset as usize..].as_chunks::<{ Record::SIZE }>();
    Ok(records.iter().map(|&record| Record::from_bytes(record)).collect())
}

/// The day file of some records, with offset 8; none if there are more than [`MOST_STEPS`].
pub fn write_file(records: &[Record]) -> Option<Vec<u8>> {
    if records.len() > MOST_STEPS {
        return None;
    }
    let mut bytes = Vec::with_capacity(HEADER + Record::SIZE * records.len());
    bytes.extend((records.len() as u32).to_le_bytes());
    bytes.extend((HEADER as u32).to_le_bytes());
    bytes.extend(records.iter().flat_map(|record| record.to_bytes()));
    Some(bytes)
}
