//! What each step writes: docs/CELLS.md, "What each step writes".

use crate::entry::Entry;
use crate::flags::Flags;
use crate::numbers::{Client, Revision, CLIENTS, LOG, REVISIONS};
use crate::order::insert;
use crate::parts::{CLOSED, IS_JOINED, IS_MARKED, IS_OUT, NAME};
use crate::table::Table;

/// A count stops at its range. On a day none would pass it.
fn counted(n: u16) -> u16 {
    n.min(LOG as u16)
}

impl Table<'_> {
    /// An event: the transaction is open, and its client has caught up with this revision alone.
    pub(crate) fn enter(&mut self, c: Client, r: Revision) {
        self.set_caught(c, Flags::only(r));
        self.set_opened(c, r.0);
    }

    /// The update goes to the end of a revision's own list; its number.
    pub(crate) fn append(&mut self, r: Revision, entry: Entry) -> u16 {
        let u = self.updates();
        let count = self.count(r);
        self.set_link(u, self.last(r));
        self.set_last(r, u);
        if count == 0 {
            self.set_first(r, u);
        }
        self.set_count(r, counted(count + 1));
        self.set_updates(u + 1);
        self.set_entry(u, entry.to_bytes());
        u
    }

    /// Where the transaction was on the main revision, all updates there are of closed ones.
    pub(crate) fn close(&mut self, c: Client) {
        if self.opened()[c.index()] == Revision::MAIN.0 {
            self.set_settled(self.count(Revision::MAIN));
        }
        self.set_opened(c, CLOSED);
    }

    /// The parent forks the child, one more that was started.
    pub(crate) fn fork(&mut self, parent: Revision, child: Revision) {
        self.branch(parent, child);
        // It stops at 65,535.
        self.set_started(self.started().saturating_add(1));
    }

    /// The child comes from the parent.
    fn branch(&mut self, parent: Revision, child: Revision) {
        self.inherit(parent, child);
        self.set_seen(child, self.seen(parent));
        for number in 0..REVISIONS as u8 {
            let flags = self.seen(Revision(number)).with(child, number == parent.0);
            self.set_seen(Revision(number), flags);
        }
        for client in (0..CLIENTS as u8).map(Client) {
            let flags = self.caught(client);
            self.set_caught(client, flags.with(child, flags.has(parent)));
        }
        self.set_state(child, IS_OUT);
        let layout = self.layout_mut();
        if let Some(place) = layout.iter().position(|&other| other == parent.0) {
            layout.copy_within(place..REVISIONS - 1, place + 1);
            layout[place] = child.0;
        }
        self.take_number();
        self.set_out(self.out() + 1);
    }

    /// The parent forks the child, which is marked and not counted.
    pub(crate) fn mark(&mut self, parent: Revision, child: Revision, name: [u8; NAME]) {
        self.branch(parent, child);
        self.set_state(child, IS_MARKED);
        self.set_name(child, name);
    }

    /// The number of a fork is used: it is one more given out, or it leaves the queue.
    fn take_number(&mut self) {
        let given = self.given();
        if usize::from(given) < REVISIONS {
            self.set_given(given + 1);
        } else {
            let queue = self.queue_mut();
            queue.copy_within(1.., 0);
            queue[REVISIONS - 1] = 1;
        }
    }

    /// From the main revision by count alone, else by count, row and own list.
    fn inherit(&mut self, parent: Revision, child: Revision) {
        if parent == Revision::MAIN {
            self.set_used(child, false);
            self.set_base(child, self.count(parent));
        } else {
            let mut row = self.row(parent);
            for &u in self.own(parent, &mut [0; LOG]) {
                insert(&mut row, u);
            }
            self.set_row(child, &row);
            self.set_used(child, true);
            self.set_base(child, self.base(parent));
        }
        self.set_count(child, 0);
    }

    /// The joiner takes over the joinee's own list; how many updates that are.
    pub(crate) fn join(&mut self, joiner: Revision, joinee: Revision) -> u16 {
        let (before, gained) = (self.count(joiner), self.count(joinee));
        if gained != 0 {
            let first = self.first(joinee);
            self.set_link(first, self.last(joiner));
            self.set_last(joiner, self.last(joinee));
            if before == 0 {
                self.set_first(joiner, first);
            }
        }
        self.set_count(joiner, counted(before + gained));
        if joiner == Revision::MAIN {
            self.set_settled(self.count(joiner));
        }
        self.set_seen(joiner, self.seen(joiner).or(self.seen(joinee)));
        for client in (0..CLIENTS as u8).map(Client) {
            let flags = self.caught(client);
            self.set_caught(client, flags.with(joiner, flags.has(joiner) || flags.has(joinee)));
        }
        self.hand_in(joinee);
        gained
    }

    /// A revision that is joined, or a mark that is dropped, is out no more, and its number is free.
    pub(crate) fn hand_in(&mut self, r: Revision) {
        self.set_state(r, IS_JOINED);
        let layout = self.layout_mut();
        if let Some(place) = layout.iter().position(|&other| other == r.0) {
            layout.copy_within(place + 1.., place);
            layout[REVISIONS - 1] = 0;
        }
        let place = usize::from(self.given().saturating_sub(self.out()));
        self.queue_mut()[place] = r.0;
        // One at least: on a day the main revision is out.
        self.set_out((self.out() - 1).max(1));
    }
}
