//! The call verify: whether an order of updates from another maker fits. And the order that always does.

use calls::Code;

use crate::checks::refuse;
use crate::numbers::{Revision, LOG, REVISIONS};
use crate::order::Numbers;
use crate::parts::{IS_JOINED, NEVER};
use crate::range::checked;
use crate::table::Table;

/// Bytes of a header.
const HEADER: usize = 8;

/// 1 if the order fits, 0 if it does not. The table stays as it is.
pub fn verify(t: &mut [u8], order: &[u8]) -> Result<u32, Code> {
    let t = checked(t)?;
    let numbers = checked_numbers(order)?;

    Ok(u32::from(t.fits(numbers)))
}

/// The own lists of all revisions that are out, the last place of the layout first. What a list begins
/// with stands in those behind it.
pub(crate) fn line_up(t: &mut [u8]) -> Result<Vec<u16>, Code> {
    let t = checked(t)?;
    let mut room = [0; LOG];
    let out = t.layout()[..usize::from(t.out())].iter().rev();
    Ok(out.flat_map(|&r| t.own(Revision(r), &mut room).to_vec()).collect())
}

/// Code 21, or the numbers. The sum is made in 64 bits.
fn checked_numbers(order: &[u8]) -> Result<&[[u8; 2]], Code> {
    let (&[n0, n1, n2, n3, o0, o1, o2, o3], _) =
        order.split_first_chunk::<HEADER>().ok_or(Code::BadList)?;
    let count = u64::from(u32::from_le_bytes([n0, n1, n2, n3]));
    let offset = u32::from_le_bytes([o0, o1, o2, o3]);
    let end = u64::from(offset) + 2 * count;
    refuse((offset as usize) < HEADER || end != order.len() as u64, Code::BadList)?;
    Ok(order[offset as usize..].as_chunks().0)
}

impl Table<'_> {
    /// Every update once and no other, and the list of each revision that is out in its order.
    fn fits(&self, numbers: &[[u8; 2]]) -> bool {
        let Some(places) = self.places(numbers) else { return false };
        let mut room = [0; LOG];
        let mut out = (0..REVISIONS as u8).map(Revision);
        out.all(|r| {
            let state = self.state(r);
            state == NEVER || state == IS_JOINED || rises(self.order(r, &mut room), &places)
        })
    }

    /// The place of each number, from 1 on; none if one is too high, stands there twice or is missing.
    fn places(&self, numbers: &[[u8; 2]]) -> Option<Numbers> {
        let taken = usize::from(self.updates());
        if numbers.len() != taken {
            return None;
        }
        let mut places = [0; LOG];
        for (place, &number) in (1..).zip(numbers) {
            let number = usize::from(u16::from_le_bytes(number));
            if number >= taken || places[number] != 0 {
                return None;
            }
            places[number] = place;
        }
        Some(places)
    }
}

/// Whether the places of a list rise. What has none, on a table that no day made, has 0.
fn rises(list: &[u16], places: &Numbers) -> bool {
    let mut last = 0;
    list.iter().all(|&u| {
        let place = places[usize::from(u)];
        let rises = place > last;
        last = place;
        rises
    })
}
