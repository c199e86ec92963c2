//! The calls on lent bytes: the checks of each in ascending order, 19 after 1, 15 and 16 after 4, 20 after 9,
//! then what it does.

use calls::Code;

use crate::board::Board;
use crate::entry::Entry;
use crate::numbers::{Bib, Client, Revision, LOG};
use crate::range::checked;
use crate::table::{self, Table};
use crate::update::{Kind, Standing};

/// Bytes of one entry of a listing, and of one record of a bundle.
pub(crate) const LISTED: usize = 12;

/// How full a revision is.
#[derive(Clone, Copy, Debug, PartialEq, Eq)]
pub struct Fill {
    /// The updates accepted on it and on those joined into it.
    pub own: u16,
    /// The updates accepted by the whole table.
    pub total: u16,
}

/// What a join would bring.
#[derive(Clone, Copy, Debug, PartialEq, Eq)]
pub struct Preview {
    /// How the bib will stand at the joiner.
    pub standing: Standing,
    /// How many updates the joiner will gain.
    pub gain: u16,
}

/// A new day, whatever the bytes were; on a single-main one, revisions come from the main one and go
/// back to it alone. The board is cleared.
pub fn fresh(t: &mut [u8], board: &mut [u8], single_main: bool) -> Result<u32, Code> {
    let t = t.try_into().map_err(|_| Code::NoTable)?;
    let board = Board::checked(board)?;

    table::fresh(t, single_main);
    board.clear();
    Ok(0)
}

/// One entry by a client on a revision; its number.
pub fn update(
    t: &mut [u8],
    client: u8,
    revision: u8,
    kind: u8,
    bib: u16,
    v: u32,
) -> Result<u32, Code> {
    update_beside(t, 0, client, revision, kind, bib, v)
}

/// As an update, with so much of the card held by other tables.
pub fn update_beside(
    t: &mut [u8],
    others: usize,
    client: u8,
    revision: u8,
    kind: u8,
    bib: u16,
    v: u32,
) -> Result<u32, Code> {
    let mut t = checked(t)?;
    let client = Client::checked(client)?;
    let revision = t.check_given(revision)?;
    t.check_out(revision)?;
    t.check_unmarked(revision)?;
    let bib = Bib::checked(bib)?;
    let kind = Kind::checked(kind)?;
    t.check_may_enter(client, revision)?;
    t.check_log_after(0)?;
    t.check_card_after(others, 0)?;

    t.enter(client, revision);
    Ok(u32::from(t.append(revision, Entry::new(kind, client, bib, v))))
}

/// A client looks up a bib on a revision; how it stands.
pub fn query(t: &mut [u8], client: u8, revision: u8, bib: u16) -> Result<Standing, Code> {
    let mut t = checked(t)?;
    let client = Client::checked(client)?;
    let revision = t.check_given(revision)?;
    t.check_out(revision)?;
    t.check_unmarked(revision)?;
    let bib = Bib::checked(bib)?;
    t.check_may_enter(client, revision)?;

    t.enter(client, revision);
    Ok(t.standing(revision, bib))
}

/// A client ends its transaction, if it has one; 0.
pub fn yield_(t: &mut [u8], board: &mut [u8], client: u8) -> Result<u32, Code> {
    let mut t = checked(t)?;
    let mut board = Board::checked(board)?;
    let client = Client::checked(client)?;

    let before = t.settled();
    t.close(client);
    board.bring(&t, before);
    Ok(0)
}

/// A new revision starts from this one; its number.
pub fn fork(t: &mut [u8], revision: u8) -> Result<u32, Code> {
    let mut t = checked(t)?;
    let parent = t.check_given(revision)?;
    t.check_out(parent)?;
    t.check_line(parent)?;
    t.check_idle(parent)?;
    let child = t.check_left()?;

    t.fork(parent, child);
    Ok(u32::from(child.0))
}

/// As a fork, and the new revision is marked with a name; its number.
pub fn mark(t: &mut [u8], revision: u8, name: &[u8]) -> Result<u32, Code> {
    let mut t = checked(t)?;
    let parent = t.check_given(revision)?;
    t.check_out(parent)?;
    t.check_ordinary()?;
    t.check_idle(parent)?;
    let child = t.check_left()?;
    let name = t.check_name(name)?;

    t.mark(parent, child, name);
    Ok(u32::from(child.0))
}

/// The mark of a name is out no more; 0.
pub fn drop(t: &mut [u8], name: &[u8]) -> Result<u32, Code> {
    let mut t = checked(t)?;
    let revision = t.check_mark(name)?;

    t.hand_in(revision);
    Ok(0)
}

/// The joiner takes over the joinee's updates; how many.
pub fn join(t: &mut [u8], board: &mut [u8], joiner: u8, joinee: u8) -> Result<u32, Code> {
    let mut t = checked(t)?;
    let mut board = Board::checked(board)?;
    let (joiner, joinee) = t.check_join(joiner, joinee)?;

    let before = t.settled();
    let gained = t.join(joiner, joinee);
    board.bring(&t, before);
    Ok(u32::from(gained))
}

/// The revision is joined into the main one, which then forks; the new number.
pub fn sync(t: &mut [u8], board: &mut [u8], revision: u8) -> Result<u32, Code> {
    let mut t = checked(t)?;
    let mut board = Board::checked(board)?;
    let (main, joinee) = t.check_join(Revision::MAIN.0, revision)?;

    let before = t.settled();
    t.join(main, joinee);
    board.bring(&t, before);
    // The joinee's, if no other.
    let child = t.next();
    t.fork(main, child);
    Ok(u32::from(child.0))
}

/// How a bib will stand at the joiner after a join, and how many updates that gains: the join is made
/// on a copy, and the copy is read. The table stays as it is.
pub fn preview(t: &mut [u8], joiner: u8, joinee: u8, bib: u16) -> Result<Preview, Code> {
    let t = checked(t)?;
    let (joiner, joinee) = t.check_join(joiner, joinee)?;
    let bib = Bib::checked(bib)?;

    let mut copy = *t.0;
    let mut copy = Table(&mut copy);
    let gain = copy.join(joiner, joinee);
    Ok(Preview { standing: copy.standing(joiner, bib), gain })
}

/// Writes the visible updates of a revision to the sheet; how many. The table stays as it is.
pub fn list(t: &mut [u8], revision: u8, sheet: &mut [u8]) -> Result<u32, Code> {
    let t = checked(t)?;
    let revision = t.check_given(revision)?;
    t.check_out(revision)?;
    t.check_idle(revision)?;
    let mut numbers = [0; LOG];
    let order = t.order(revision, &mut numbers);
    if sheet.len() < LISTED * order.len() {
        return Err(Code::SheetShort);
    }

    let (places, _) = sheet.as_chunks_mut::<LISTED>();
    for (place, &u) in places.iter_mut().zip(order) {
        let Entry { kind, client, bib, v } = Entry::from_bytes(t.entry(u));
        place[0] = kind as u8;
        place[1] = client.0;
        place[2..4].copy_from_slice(&bib.to_le_bytes());
        place[4..8].copy_from_slice(&v.to_le_bytes());
        place[8..12].copy_from_slice(&u32::from(u).to_le_bytes());
    }
    Ok(order.len() as u32)
}

/// How full a revision is, busy or not. The table stays as it is.
pub fn fill(t: &mut [u8], revision: u8) -> Result<Fill, Code> {
    let t = checked(t)?;
    let revision = t.check_given(revision)?;
    t.check_out(revision)?;

    Ok(Fill { own: t.count(revision), total: t.updates() })
}
