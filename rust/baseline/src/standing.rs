//! How a bib stands at a revision. No update before the last Time or Strike of the bib counts, so the
//! order is walked from its end.

use crate::entry::Entry;
use crate::numbers::{Bib, Revision, LOG};
use crate::order::{has, Numbers};
use crate::parts::ROW;
use crate::table::Table;
use crate::update::Standing;

/// The numbers of the updates that count, the last one first.
struct Kept {
    numbers: Numbers,
    count: usize,
}

impl Table<'_> {
    /// How a bib stands at a revision.
    pub(crate) fn standing(&self, r: Revision, bib: Bib) -> Standing {
        let behind = self.behind(r);
        let count = |&other: &u8| usize::from(self.count(Revision(other)));
        if count(&r.0) + behind.iter().map(count).sum::<usize>() > LOG {
            return self.standing_along(r, bib);
        }
        let row = self.row(r);
        let mut kept = Kept { numbers: [0; LOG], count: 0 };
        if !self.walk(r, self.count(r), &row, bib, &mut kept) {
            for &other in behind {
                let other = Revision(other);
                if self.walk(other, self.base_in(r, other), &row, bib, &mut kept) {
                    break;
                }
            }
        }
        self.applied(kept.numbers[..kept.count].iter().rev())
    }

    /// Walks through an own list, of which the first `base` and those in the row are seen, from its end;
    /// whether that found an update before which none counts.
    fn walk(&self, list: Revision, base: u16, row: &[u8; ROW], bib: Bib, kept: &mut Kept) -> bool {
        let mut u = self.last(list);
        for place in (0..self.count(list)).rev() {
            if place < base || has(row, u) {
                let entry = Entry::from_bytes(self.entry(u));
                if entry.bib == bib.0 {
                    kept.numbers[kept.count] = u;
                    kept.count += 1;
                    if entry.kind.is_absolute() {
                        return true;
                    }
                }
            }
            u = self.link(u);
        }
        false
    }

    /// The same along the order: where it may be cut off at its end, as on no day.
    fn standing_along(&self, r: Revision, bib: Bib) -> Standing {
        let mut numbers = [0; LOG];
        let order = self.order(r, &mut numbers).iter();
        self.applied(order.filter(|&&u| Entry::from_bytes(self.entry(u)).bib == bib.0))
    }

    /// The updates of some numbers, one after the other.
    fn applied<'n>(&self, numbers: impl Iterator<Item = &'n u16>) -> Standing {
        numbers
            .map(|&u| Entry::from_bytes(self.entry(u)))
            .fold(Standing::at(0), |standing, entry| entry.kind.applied(standing, entry.v))
    }
}
