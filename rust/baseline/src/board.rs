//! The announcer's board: five bytes for each bib, written anew where an update is brought.

use calls::Code;

use crate::entry::Entry;
use crate::numbers::{Revision, BIBS, LOG};
use crate::table::Table;
use crate::update::Standing;

/// Bytes of a bib's entry: 1 if it is struck and else 0, then its value.
const ENTRY: usize = 5;
/// Bytes of a board.
pub const BOARD: usize = ENTRY * BIBS as usize;

/// Room for what most calls bring: all that a bundle has.
const FEW: usize = 64;

/// A lent board of the right length.
pub(crate) struct Board<'a>(&'a mut [u8; BOARD]);

/// How every bib from 0 on stands by its entry on a board.
#[inline]
pub fn standings(board: &[u8]) -> impl Iterator<Item = Standing> + '_ {
    board.as_chunks().0.iter().map(|&entry| found(entry))
}

/// How a bib stands by its entry on a board; none if there is none.
#[inline]
pub fn standing(board: &[u8], bib: u16) -> Option<Standing> {
    board.as_chunks().0.get(usize::from(bib)).map(|&entry| found(entry))
}

/// What an entry says: struck if its first byte is 1, else its value.
#[inline]
fn found([first, value @ ..]: [u8; ENTRY]) -> Standing {
    match first {
        1 => Standing { struck: true, value: 0 },
        _ => Standing::at(u32::from_le_bytes(value)),
    }
}

impl<'a> Board<'a> {
    /// Code 19.
    pub(crate) fn checked(bytes: &'a mut [u8]) -> Result<Self, Code> {
        bytes.try_into().map(Board).map_err(|_| Code::WrongBoard)
    }

    /// Of a fresh day.
    pub(crate) fn clear(self) {
        self.0.fill(0);
    }

    /// Applies an update to the entry found. Only entries that no day made have a bib that has none.
    fn post(&mut self, Entry { kind, bib, v, .. }: Entry) {
        let (entries, _) = self.0.as_chunks_mut::<ENTRY>();
        if let Some(entry) = entries.get_mut(usize::from(bib)) {
            let Standing { struck, value } = kind.applied(found(*entry), v);
            let [v0, v1, v2, v3] = value.to_le_bytes();
            *entry = [u8::from(struck), v0, v1, v2, v3];
        }
    }

    /// Applies what was brought to the main revision, of which so many updates were of closed
    /// transactions before. No other update is looked at.
    pub(crate) fn bring(&mut self, t: &Table<'_>, before: u16) {
        match usize::from(t.settled().saturating_sub(before)) {
            0 => {}
            count @ 1..=FEW => self.post_last(t, &mut [0; FEW][..count]),
            count => self.post_last(t, &mut [0; LOG][..count]),
        }
    }

    /// Applies the last updates of the main revision, as many as there is room for, in listed order.
    fn post_last(&mut self, t: &Table<'_>, room: &mut [u16]) {
        let mut u = t.last(Revision::MAIN);
        for place in room.iter_mut().rev() {
            *place = u;
            u = t.link(u);
        }
        room.iter().for_each(|&u| self.post(Entry::from_bytes(t.entry(u))));
    }
}
