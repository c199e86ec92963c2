//! The cells read and written by name: docs/CELLS.md, "What the cells mean".

use crate::flags::Flags;
use crate::numbers::{Client, Revision, CLIENTS, REVISIONS};
use crate::parts::{
    BASE, BYTES, CAUGHT, CLOSED, COUNT, ENTRIES, ENTRY, FIRST, GIVEN, HIGH, IS_OUT, LAST, LAYOUT,
    LOW, NAME, NAMES, OPENED, OUT, QUEUE, ROW, ROWS, SEEN, SETTLED, SIGNATURE, SIGNED, SINGLE,
    STARTED, STATE, UPDATES, USED,
};

/// A lent buffer that passed the check of code 1.
pub(crate) struct Table<'a>(pub(crate) &'a mut [u8; BYTES]);

/// The cells of a fresh table.
pub(crate) fn fresh(t: &mut [u8; BYTES], single_main: bool) {
    t.fill(0);
    t[CAUGHT..STATE].fill(0xff);
    t[STATE] = IS_OUT;
    t[QUEUE..OPENED].fill(1);
    t[OPENED..UPDATES].fill(CLOSED);
    t[OUT] = 1;
    t[GIVEN] = 1;
    t[SINGLE] = u8::from(single_main);
    t[STARTED] = 1;
    t[SIGNATURE..ENTRIES].copy_from_slice(&SIGNED);
}

impl Table<'_> {
    fn word(&self, at: usize) -> u16 {
        u16::from_le_bytes([self.0[at], self.0[at + 1]])
    }

    fn set_word(&mut self, at: usize, v: u16) {
        self.0[at..at + 2].copy_from_slice(&v.to_le_bytes());
    }

    pub(crate) fn state(&self, r: Revision) -> u8 {
        self.0[STATE + r.index()]
    }

    pub(crate) fn set_state(&mut self, r: Revision, v: u8) {
        self.0[STATE + r.index()] = v;
    }

    /// Of a mark that is out; else it means nothing.
    pub(crate) fn name(&self, r: Revision) -> &[u8] {
        let at = NAMES + NAME * r.index();
        &self.0[at..at + NAME]
    }

    pub(crate) fn set_name(&mut self, r: Revision, name: [u8; NAME]) {
        let at = NAMES + NAME * r.index();
        self.0[at..at + NAME].copy_from_slice(&name);
    }

    pub(crate) fn is_used(&self, r: Revision) -> bool {
        self.0[USED + r.index()] == 1
    }

    pub(crate) fn set_used(&mut self, r: Revision, v: bool) {
        self.0[USED + r.index()] = u8::from(v);
    }

    pub(crate) fn last(&self, r: Revision) -> u16 {
        self.word(LAST + 2 * r.index())
    }

    pub(crate) fn set_last(&mut self, r: Revision, u: u16) {
        self.set_word(LAST + 2 * r.index(), u);
    }

    pub(crate) fn first(&self, r: Revision) -> u16 {
        self.word(FIRST + 2 * r.index())
    }

    pub(crate) fn set_first(&mut self, r: Revision, u: u16) {
        self.set_word(FIRST + 2 * r.index(), u);
    }

    pub(crate) fn count(&self, r: Revision) -> u16 {
        self.word(COUNT + 2 * r.index())
    }

    pub(crate) fn set_count(&mut self, r: Revision, n: u16) {
        self.set_word(COUNT + 2 * r.index(), n);
    }

    pub(crate) fn base(&self, r: Revision) -> u16 {
        self.word(BASE + 2 * r.index())
    }

    pub(crate) fn set_base(&mut self, r: Revision, n: u16) {
        self.set_word(BASE + 2 * r.index(), n);
    }

    pub(crate) fn updates(&self) -> u16 {
        self.word(UPDATES)
    }

    pub(crate) fn set_updates(&mut self, n: u16) {
        self.set_word(UPDATES, n);
    }

    pub(crate) fn out(&self) -> u8 {
        self.0[OUT]
    }

    pub(crate) fn set_out(&mut self, n: u8) {
        self.0[OUT] = n;
    }

    pub(crate) fn given(&self) -> u8 {
        self.0[GIVEN]
    }

    pub(crate) fn set_given(&mut self, n: u8) {
        self.0[GIVEN] = n;
    }

    /// The choice given to fresh.
    pub(crate) fn is_single_main(&self) -> bool {
        self.0[SINGLE] == 1
    }

    /// How many of the main revision's own updates are of closed transactions.
    pub(crate) fn settled(&self) -> u16 {
        self.word(SETTLED)
    }

    pub(crate) fn set_settled(&mut self, n: u16) {
        self.set_word(SETTLED, n);
    }

    /// The revisions started, marks not counted, 65,535 at most.
    pub(crate) fn started(&self) -> u16 {
        self.word(STARTED)
    }

    pub(crate) fn set_started(&mut self, n: u16) {
        self.set_word(STARTED, n);
    }

    /// The revisions of all clients' open transactions, by client.
    pub(crate) fn opened(&self) -> &[u8] {
        &self.0[OPENED..OPENED + CLIENTS]
    }

    pub(crate) fn set_opened(&mut self, c: Client, v: u8) {
        self.0[OPENED + c.index()] = v;
    }

    /// All 64 places.
    pub(crate) fn layout(&self) -> &[u8] {
        &self.0[LAYOUT..LAYOUT + REVISIONS]
    }

    pub(crate) fn layout_mut(&mut self) -> &mut [u8] {
        &mut self.0[LAYOUT..LAYOUT + REVISIONS]
    }

    /// All 64 places. The numbers joined or dropped and not used again stand in the first ones.
    pub(crate) fn queue(&self) -> &[u8] {
        &self.0[QUEUE..QUEUE + REVISIONS]
    }

    pub(crate) fn queue_mut(&mut self) -> &mut [u8] {
        &mut self.0[QUEUE..QUEUE + REVISIONS]
    }

    pub(crate) fn link(&self, u: u16) -> u16 {
        let u = usize::from(u);
        let high = self.0[HIGH + u / 2] >> (4 * (u % 2)) & 0x0f;
        u16::from_le_bytes([self.0[LOW + u], high])
    }

    pub(crate) fn set_link(&mut self, u: u16, v: u16) {
        let u = usize::from(u);
        let [low, high] = v.to_le_bytes();
        let shift = 4 * (u % 2);
        self.0[LOW + u] = low;
        let byte = &mut self.0[HIGH + u / 2];
        *byte = *byte & !(0x0f << shift) | high << shift;
    }

    fn flags(&self, at: usize) -> Flags {
        let mut row = [0; 8];
        row.copy_from_slice(&self.0[at..at + 8]);
        Flags::from_bytes(row)
    }

    fn set_flags(&mut self, at: usize, flags: Flags) {
        self.0[at..at + 8].copy_from_slice(&flags.to_bytes());
    }

    pub(crate) fn seen(&self, a: Revision) -> Flags {
        self.flags(SEEN + 8 * a.index())
    }

    pub(crate) fn set_seen(&mut self, a: Revision, flags: Flags) {
        self.set_flags(SEEN + 8 * a.index(), flags);
    }

    pub(crate) fn caught(&self, c: Client) -> Flags {
        self.flags(CAUGHT + 8 * c.index())
    }

    pub(crate) fn set_caught(&mut self, c: Client, flags: Flags) {
        self.set_flags(CAUGHT + 8 * c.index(), flags);
    }

    /// The flags of the updates that r inherited otherwise than by count.
    pub(crate) fn row(&self, r: Revision) -> [u8; ROW] {
        let mut row = [0; ROW];
        if r != Revision::MAIN && self.is_used(r) {
            let at = ROWS + ROW * (r.index() - 1);
            row.copy_from_slice(&self.0[at..at + ROW]);
        }
        row
    }

    /// The row of a revision that is not the main one.
    pub(crate) fn set_row(&mut self, r: Revision, row: &[u8; ROW]) {
        let at = ROWS + ROW * (r.index() - 1);
        self.0[at..at + ROW].copy_from_slice(row);
    }

    pub(crate) fn entry(&self, u: u16) -> [u8; ENTRY] {
        let at = ENTRIES + ENTRY * usize::from(u);
        let mut entry = [0; ENTRY];
        entry.copy_from_slice(&self.0[at..at + ENTRY]);
        entry
    }

    pub(crate) fn set_entry(&mut self, u: u16, entry: [u8; ENTRY]) {
        let at = ENTRIES + ENTRY * usize::from(u);
        self.0[at..at + ENTRY].copy_from_slice(&entry);
    }
}
