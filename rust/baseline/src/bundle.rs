//! The call bundle: up to 64 entries at once, all or none.

use calls::Code;

use crate::board::Board;
use crate::calls::LISTED;
use crate::checks::refuse;
use crate::entry::Entry;
use crate::numbers::{Bib, Client};
use crate::range::checked;
use crate::update::Kind;

/// A bundle has so many records at most.
const MOST: usize = 64;

/// Several entries by a client on a revision, and its yield; the first entry's number. All are
/// checked before the first is written.
pub fn bundle(
    t: &mut [u8],
    board: &mut [u8],
    client: u8,
    revision: u8,
    records: &[u8],
) -> Result<u32, Code> {
    bundle_beside(t, 0, board, client, revision, records)
}

/// As a bundle, with so much of the card held by other tables.
pub fn bundle_beside(
    t: &mut [u8],
    others: usize,
    board: &mut [u8],
    client: u8,
    revision: u8,
    records: &[u8],
) -> Result<u32, Code> {
    let mut t = checked(t)?;
    let records = checked_records(records)?;
    let mut board = Board::checked(board)?;
    let client = Client::checked(client)?;
    let revision = t.check_given(revision)?;
    t.check_out(revision)?;
    t.check_unmarked(revision)?;
    for (place, record) in records.iter().enumerate() {
        checked_entry(record, client)?;
        // The first entry opens the transaction or finds it open; so the others find it.
        if place == 0 {
            t.check_may_enter(client, revision)?;
        }
        t.check_log_after(place)?;
        t.check_card_after(others, place)?;
    }

    let (first, before) = (t.updates(), t.settled());
    t.enter(client, revision);
    for record in records {
        t.append(revision, checked_entry(record, client)?);
    }
    t.close(client);
    board.bring(&t, before);
    Ok(u32::from(first))
}

/// Code 14.
fn checked_records(bytes: &[u8]) -> Result<&[[u8; LISTED]], Code> {
    let (records, rest) = bytes.as_chunks();
    let whole = rest.is_empty() && (1..=MOST).contains(&records.len());
    refuse(!whole, Code::WrongBundle)?;
    Ok(records)
}

/// Code 5. The client and the number in the record are not looked at.
fn checked_entry(record: &[u8; LISTED], client: Client) -> Result<Entry, Code> {
    let &[kind, _, b0, b1, v0, v1, v2, v3, ..] = record;
    let bib = Bib::checked(u16::from_le_bytes([b0, b1]))?;
    let kind = Kind::checked(kind)?;
    Ok(Entry::new(kind, client, bib, u32::from_le_bytes([v0, v1, v2, v3])))
}
