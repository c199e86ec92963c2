//! The entries of a bundle.

/// A bundle has so many entries at most.
pub const BUNDLE: usize = 64;

/// An update as a bundle has it. Tablet and box are those of the bundle.
///
/// ```
/// use silttongs::{Entry, Kind};
///
/// let entry = Entry::new(Kind::Penalty, 7, 5_000);
/// assert_eq!(entry, Entry { kind: 3, bib: 7, v: 5_000 });
/// assert_eq!(entry.to_bytes(), [3, 0, 7, 0, 0x88, 0x13, 0, 0, 0, 0, 0, 0]);
/// ```
#[derive(Clone, Copy, Debug, PartialEq, Eq, Hash)]
pub struct Entry {
    /// The number of the [`Kind`](crate::Kind).
    pub kind: u8,
    /// The bib.
    pub bib: u16,
    /// The argument.
    pub v: u32,
}

impl Entry {
    /// The length of a record in bytes.
    pub const BYTES: usize = 12;

    /// An entry of this kind.
    pub fn new(kind: impl Into<u8>, bib: u16, v: u32) -> Self {
        Entry { kind: kind.into(), bib, v }
    }

    /// Its record, laid out as a [`Line`](crate::Line), with 0 for what is not looked at: tablet and
    /// number.
    pub fn to_bytes(self) -> [u8; Entry::BYTES] {
        let Entry { kind, bib, v } = self;
        let [b0, b1] = bib.to_le_bytes();
        let [v0, v1, v2, v3] = v.to_le_bytes();
        [kind, 0, b0, b1, v0, v1, v2, v3, 0, 0, 0, 0]
    }
}

/// The records of some entries, in the room lent for them; none if there are more than [`BUNDLE`], so
/// that they are a wrong bundle too.
pub(crate) fn records<'a>(
    entries: &[Entry],
    room: &'a mut [[u8; Entry::BYTES]; BUNDLE],
) -> &'a [u8] {
    let count = if entries.len() <= BUNDLE { entries.len() } else { 0 };
    let places = &mut room[..count];
    for (place, entry) in places.iter_mut().zip(entries) {
        *place = entry.to_bytes();
    }
    places.as_flattened()
}

#[cfg(test)]
mod tests {
    use super::*;

    #[test]
    fn as_many_records_as_entries_up_to_64() {
        let entries = [Entry { kind: 4, bib: 0x0102, v: 0x0304_0506 }; 66];
        for (count, length) in [(0, 0), (1, 12), (2, 24), (64, 768), (65, 0), (66, 0)] {
            let mut room = [[9; Entry::BYTES]; BUNDLE];
            let records = records(&entries[..count], &mut room);
            assert_eq!(records.len(), length);
            assert!(records.chunks(12).all(|record| record == entries[0].to_bytes()));
        }
    }
}
