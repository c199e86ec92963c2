//! The lines of a listing.

/// The length of a sheet that every listing fits: 4,096 lines.
pub const SHEET: usize = 4_096 * Line::BYTES;

/// An update as a listing shows it.
///
/// ```
/// use silttongs::{Kind, Line};
///
/// let line = Line::from_bytes([1, 15, 0xe7, 3, 0x48, 0xee, 0, 0, 0xff, 0xf, 0, 0]);
/// assert_eq!(Kind::try_from(line.kind), Ok(Kind::Time));
/// assert_eq!((line.client, line.bib), (15, 999));
/// assert_eq!((line.v, line.number), (61_000, 4_095));
/// ```
#[derive(Clone, Copy, Debug, PartialEq, Eq, Hash)]
pub struct Line {
    /// The number of the [`Kind`](crate::Kind), 1 to 4 in every listing.
    pub kind: u8,
    /// The tablet that entered it.
    pub client: u8,
    /// The bib.
    pub bib: u16,
    /// The argument as it was entered, a Strike's too.
    pub v: u32,
    /// The update's number, counted over all boxes from 0.
    pub number: u32,
}

impl Line {
    /// The length of a line in bytes.
    pub const BYTES: usize = 12;

    /// The line in these bytes of a sheet.
    pub fn from_bytes(bytes: [u8; Line::BYTES]) -> Self {
        let [kind, client, b0, b1, v0, v1, v2, v3, number @ ..] = bytes;
        Line {
            kind,
            client,
            bib: u16::from_le_bytes([b0, b1]),
            v: u32::from_le_bytes([v0, v1, v2, v3]),
            number: u32::from_le_bytes(number),
        }
    }
}

/// The first `count` lines of a sheet, or as many as it has: those of a listing, if `count` is what
/// [`Table::list`](crate::Table::list) answered.
pub fn lines(sheet: &[u8], count: u32) -> impl Iterator<Item = Line> + '_ {
    let (chunks, _) = sheet.as_chunks();
    chunks.iter().take(count as usize).map(|&bytes| Line::from_bytes(bytes))
}
