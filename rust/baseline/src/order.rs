//! The updates visible at a revision, in listed order: docs/CELLS.md, "What the cells mean".

use crate::numbers::{Revision, LOG};
use crate::parts::ROW;
use crate::table::Table;

/// Room for the numbers of all updates.
pub(crate) type Numbers = [u16; LOG];

pub(crate) fn has(row: &[u8; ROW], u: u16) -> bool {
    row[usize::from(u / 8)] >> (u % 8) & 1 == 1
}

pub(crate) fn insert(row: &mut [u8; ROW], u: u16) {
    row[usize::from(u / 8)] |= 1 << (u % 8);
}

impl Table<'_> {
    /// The own list of a revision, gathered backwards along the links.
    pub(crate) fn own<'n>(&self, r: Revision, numbers: &'n mut Numbers) -> &'n [u16] {
        let own = &mut numbers[..usize::from(self.count(r))];
        let mut u = self.last(r);
        for place in own.iter_mut().rev() {
            *place = u;
            u = self.link(u);
        }
        own
    }

    /// The revisions behind r in the layout, the nearest first.
    pub(crate) fn behind(&self, r: Revision) -> &[u8] {
        let outs = &self.layout()[..usize::from(self.out())];
        let place = outs.iter().position(|&other| other == r.0);
        place.map_or(&[][..], |place| &outs[place + 1..])
    }

    /// How many of the first entries of another's own list r inherited by count.
    pub(crate) fn base_in(&self, r: Revision, other: Revision) -> u16 {
        if other == Revision::MAIN {
            self.base(r)
        } else {
            0
        }
    }

    /// The order of a revision: what it inherited of each list behind it in the layout, last place
    /// first, then its own list.
    pub(crate) fn order<'n>(&self, r: Revision, numbers: &'n mut Numbers) -> &'n [u16] {
        let row = self.row(r);
        let mut scratch = [0; LOG];
        let mut count = 0;
        let mut push = |u: u16| {
            if count < LOG {
                numbers[count] = u;
                count += 1;
            }
        };
        for &other in self.behind(r).iter().rev() {
            let other = Revision(other);
            let own = self.own(other, &mut scratch);
            let base = usize::from(self.base_in(r, other));
            let (by_count, others) = own.split_at(own.len().min(base));
            by_count.iter().for_each(|&u| push(u));
            others.iter().filter(|&&u| has(&row, u)).for_each(|&u| push(u));
        }
        self.own(r, &mut scratch).iter().for_each(|&u| push(u));
        &numbers[..count]
    }
}
