//! The announcer's board.

use crate::standing::Standing;

/// The length of a board in bytes: five for each of 1,000 bibs.
pub const BOARD: usize = 5_000;

/// How every bib stands at box 0, by closed transactions only: on bytes of its own, as
/// `[u8; BOARD]` or `Box<[u8]>`, or on lent ones, as `&mut [u8]`, or `&[u8]` for what only reads.
///
/// [`Table::fresh`](crate::Table::fresh) clears it. [`yield_`](crate::Table::yield_),
/// [`bundle`](crate::Table::bundle), [`join`](crate::Table::join) and [`sync`](crate::Table::sync) write
/// it anew at the bibs that they bring to box 0. So a board that is lent to all of them is right at every
/// moment. One that was not lent to a call is out of date from then on, and no call tells.
///
/// ```
/// use silttongs::{Board, Day, Kind, Refusal, Standing, Table, BYTES};
///
/// let mut board = Board::new();
/// let mut table = Table::fresh([0; BYTES], &mut board, Day::Ordinary)?;
/// table.update(0, 0, Kind::Time, 7, 61_000)?;
/// table.update(0, 0, Kind::Strike, 8, 0)?;
/// assert_eq!(board.standing(7), Some(Standing::Neither));
/// table.yield_(&mut board, 0)?;
/// assert_eq!(board.standing(7), Some(Standing::Timed(61_000)));
///
/// let known = |&(_, standing): &(u16, Standing)| standing != Standing::Neither;
/// let shown: Vec<(u16, Standing)> = board.standings().filter(known).collect();
/// assert_eq!(shown, [(7, Standing::Timed(61_000)), (8, Standing::Struck)]);
/// # Ok::<(), Refusal>(())
/// ```
#[derive(Clone, Copy, Debug, PartialEq, Eq)]
pub struct Board<B>(B);

impl Board<[u8; BOARD]> {
    /// The board of a fresh table.
    pub const fn new() -> Self {
        Board([0; BOARD])
    }
}

impl Default for Board<[u8; BOARD]> {
    fn default() -> Self {
        Board::new()
    }
}

impl<B: AsMut<[u8]>> Board<B> {
    pub(crate) fn lent(&mut self) -> &mut [u8] {
        self.0.as_mut()
    }
}

impl<B: AsRef<[u8]>> Board<B> {
    /// Every bib from 0 on, and how it stands.
    pub fn standings(&self) -> impl Iterator<Item = (u16, Standing)> + '_ {
        let (entries, _) = self.0.as_ref().as_chunks();
        (0..1_000).zip(entries).map(|(bib, &entry)| (bib, shown(entry)))
    }

    /// How a bib stands; none above 999.
    pub fn standing(&self, bib: u16) -> Option<Standing> {
        let (entries, _) = self.0.as_ref().as_chunks();
        entries[..entries.len().min(1_000)].get(usize::from(bib)).map(|&entry| shown(entry))
    }

    /// The bytes, to be kept or copied: for each bib 1 if it is struck and else 0, then its value in
    /// four bytes, the least significant first.
    pub fn bytes(&self) -> &[u8] {
        self.0.as_ref()
    }
}

impl<B> Board<B> {
    /// A board that was kept, or any bytes. A call to which other than [`BOARD`] bytes are lent is
    /// refused.
    ///
    /// ```
    /// use silttongs::{Board, Day, Refusal, Table, BYTES};
    ///
    /// let mut short = Board::from_bytes([0; 4_999]);
    /// let made = Table::fresh([0; BYTES], &mut short, Day::Ordinary);
    /// assert_eq!(made.err(), Some(Refusal::WrongBoard));
    /// ```
    pub fn from_bytes(bytes: B) -> Self {
        Board(bytes)
    }

    /// The bytes, given back.
    pub fn into_bytes(self) -> B {
        self.0
    }
}

/// How a bib of this entry stands: struck if the first byte is 1, else its value, whatever the bytes are.
fn shown([first, value @ ..]: [u8; 5]) -> Standing {
    match (first, u32::from_le_bytes(value)) {
        (1, _) => Standing::Struck,
        (_, 0) => Standing::Neither,
        (_, value) => Standing::Timed(value),
    }
}

#[cfg(test)]
mod tests {
    use super::*;

    #[test]
    fn an_entry_is_read_whatever_its_bytes_are() {
        let entries = [
            ([0, 0, 0, 0, 0], Standing::Neither),
            ([1, 0, 0, 0, 0], Standing::Struck),
            ([1, 9, 0, 0, 0], Standing::Struck),
            ([0, 4, 3, 2, 1], Standing::Timed(0x0102_0304)),
            ([2, 4, 3, 2, 1], Standing::Timed(0x0102_0304)),
            ([255, 0, 0, 0, 0], Standing::Neither),
        ];
        let mut bytes = [0; BOARD];
        for (place, (entry, _)) in bytes.chunks_exact_mut(5).zip(&entries) {
            place.copy_from_slice(entry);
        }
        let board = Board::from_bytes(bytes);
        let right = entries.iter().map(|&(_, standing)| standing);
        assert!(board.standings().take(6).map(|(_, standing)| standing).eq(right.clone()));
        assert!((0..6).map(|bib| board.standing(bib)).eq(right.map(Some)));
        assert_eq!(board.standings().count(), 1_000);
        assert_eq!(board.standings().last(), Some((999, Standing::Neither)));
        assert_eq!((board.standing(999), board.standing(1_000)), (Some(Standing::Neither), None));
    }
}
