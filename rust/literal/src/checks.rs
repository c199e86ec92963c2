//! The checks behind codes 2 to 12 and 14 to 21, each by itself: 01, "Codes of the desk", and 02, U4, U7,
//! U8, U9, U10, U12 and U13.

use calls::Code;

use crate::day::{Day, Name, CLIENTS};
use crate::numbering::NUMBERS;
use crate::update::BIBS;

/// 4,096 updates, the sum over all revisions.
const UPDATES: usize = 4_096;
/// "the card for all four holds 8,192 updates. Each table .. has 1,024 assured."
const CARD: usize = 8_192;
const ASSURED: usize = 1_024;
/// Bytes of one entry of a listing, and of one record of a bundle.
pub(crate) const ENTRY: usize = 12;

/// The code, if the condition in the table of codes holds.
fn refuse_if(condition: bool, code: Code) -> Result<(), Code> {
    if condition {
        Err(code)
    } else {
        Ok(())
    }
}

/// 2: "tablet above 15".
pub(crate) fn client_known(client: usize) -> Result<(), Code> {
    refuse_if(client >= CLIENTS, Code::UnknownClient)
}

/// 5: "bib above 999".
pub(crate) fn bib_known(bib: u16) -> Result<(), Code> {
    refuse_if(usize::from(bib) >= BIBS, Code::BadEntry)
}

/// 5: "update kind not 1 to 4".
pub(crate) fn kind_known(kind: u8) -> Result<(), Code> {
    refuse_if(!(1..=4).contains(&kind), Code::BadEntry)
}

/// 12: "the listing's buffer is smaller than it needs".
pub(crate) fn listing_fits(visible: usize, room: usize) -> Result<(), Code> {
    refuse_if(room < ENTRY * visible, Code::SheetShort)
}

/// 14: "the count is 0 or above 64 or the bytes aren't a multiple of 12".
pub(crate) fn bundle_whole(bytes: usize) -> Result<(), Code> {
    let whole = bytes.is_multiple_of(ENTRY);
    refuse_if(!whole || !(1..=64).contains(&(bytes / ENTRY)), Code::WrongBundle)
}

/// 19: "length other than 5,000".
pub(crate) fn board_whole(bytes: usize) -> Result<(), Code> {
    refuse_if(bytes != 5_000, Code::WrongBoard)
}

/// 21: "if the length or the offset is under 8, or offset + 2 times the count isn't the length"; else the
/// numbers.
pub(crate) fn list_good(order: &[u8]) -> Result<Vec<usize>, Code> {
    refuse_if(order.len() < 8, Code::BadList)?;
    let number = |bytes: &[u8]| bytes.iter().rev().fold(0, |n, &byte| 256 * n + u64::from(byte));
    let (count, offset) = (number(&order[..4]), number(&order[4..8]));
    refuse_if(offset < 8 || offset + 2 * count != order.len() as u64, Code::BadList)?;
    Ok(order[offset as usize..].chunks(2).map(|bytes| number(bytes) as usize).collect())
}

impl Day {
    /// 3: "box number not yet given out"; else the revision that the number means.
    pub(crate) fn given_out(&self, number: u8) -> Result<usize, Code> {
        self.meant(number).ok_or(Code::NeverGiven)
    }

    /// 4: "box already a joinee". Dropping a mark "frees its number as a hand-in does, so that it gives
    /// 4 until used again".
    pub(crate) fn still_out(&self, revision: usize) -> Result<(), Code> {
        refuse_if(!self.revisions[revision].out, Code::Joined)
    }

    /// 15: "for a fork of another box than 0 or a join into one on such a day".
    pub(crate) fn on_the_line(&self, revision: usize) -> Result<(), Code> {
        refuse_if(self.single_main && revision != 0, Code::OffTheLine)
    }

    /// 15: "Single-main days have no marks: mark gives 15."
    pub(crate) fn marks_allowed(&self) -> Result<(), Code> {
        refuse_if(self.single_main, Code::OffTheLine)
    }

    /// 16: a marked box can be "listed and forked but not written, queried or joined, in either role".
    pub(crate) fn unmarked(&self, revision: usize) -> Result<(), Code> {
        refuse_if(self.revisions[revision].mark.is_some(), Code::Marked)
    }

    /// 6: "the tablet's open transaction is on another box".
    pub(crate) fn open_nowhere_else(&self, client: usize, revision: usize) -> Result<(), Code> {
        let open = self.open_revision(client);
        refuse_if(open.is_some_and(|other| other != revision), Code::OpenElsewhere)
    }

    /// 7, update and query: "another tablet has the box busy".
    pub(crate) fn used_by_no_other(&self, client: usize, revision: usize) -> Result<(), Code> {
        let mut others = (0..CLIENTS).filter(|&other| other != client);
        refuse_if(others.any(|other| self.open_revision(other) == Some(revision)), Code::InUse)
    }

    /// 7, fork, list and join: "the box, or either box, is busy".
    pub(crate) fn idle(&self, revision: usize) -> Result<(), Code> {
        let mut clients = 0..CLIENTS;
        refuse_if(clients.any(|client| self.open_revision(client) == Some(revision)), Code::InUse)
    }

    /// 8: "the path from the tablet's last event is missing".
    pub(crate) fn caught_up(&self, client: usize, revision: usize) -> Result<(), Code> {
        let terminal = self.revisions[revision].terminal;
        let last_event = self.clients[client].last_event;
        refuse_if(last_event.is_some_and(|x| !self.diagram.leads(x, terminal)), Code::Stale)
    }

    /// 9: "4,096 updates taken".
    pub(crate) fn log_has_room(&self) -> Result<(), Code> {
        refuse_if(self.updates.len() >= UPDATES, Code::LogFull)
    }

    /// 20: "if afterwards the sum, over the four tables, of the larger of 1,024 and its updates would pass
    /// 8,192". A table without others, of 4,096 updates at most, never has it.
    pub(crate) fn card_has_room(&self, others: &[&Day]) -> Result<(), Code> {
        let afterwards = others.iter().map(|day| day.updates.len()).chain([self.updates.len() + 1]);
        let sum: usize = afterwards.map(|updates| updates.max(ASSURED)).sum();
        refuse_if(sum > CARD, Code::SharedLogFull)
    }

    /// 10: "exactly if 64 boxes are out".
    pub(crate) fn number_left(&self) -> Result<(), Code> {
        let out = self.revisions.iter().filter(|revision| revision.out).count();
        refuse_if(out >= NUMBERS, Code::NoneLeft)
    }

    /// 11: "joinee is box 0, is the joiner, its fork isn't seen, or its start is".
    pub(crate) fn joinable(&self, joiner: usize, joinee: usize) -> Result<(), Code> {
        let terminal = self.revisions[joiner].terminal;
        let start = self.revisions[joinee].start;
        let fork_seen = self.diagram.f_edge(start).is_some_and(|x| self.diagram.leads(x, terminal));
        let start_seen = self.diagram.leads(start, terminal);
        let refused = joinee == 0 || joinee == joiner || !fork_seen || start_seen;
        refuse_if(refused, Code::NotJoinable)
    }

    /// 17: "not four letters, or in use"; else the name.
    pub(crate) fn good_name(&self, name: &[u8]) -> Result<Name, Code> {
        let name = Name::try_from(name).map_err(|_| Code::BadName)?;
        let letters = name.iter().all(|byte| (65..=90).contains(byte));
        refuse_if(!letters || self.bearer(&name).is_some(), Code::BadName)?;
        Ok(name)
    }

    /// 18: "no such mark"; else the marked revision of the name.
    pub(crate) fn marked_so(&self, name: &[u8]) -> Result<usize, Code> {
        self.bearer(name).ok_or(Code::NoSuchMark)
    }

    /// The revision of the mark that is out and bears a name.
    fn bearer(&self, name: &[u8]) -> Option<usize> {
        let mut revisions = self.revisions.iter();
        revisions.position(|revision| {
            revision.out && revision.mark.is_some_and(|mark| mark[..] == *name)
        })
    }

    /// The revision of a client's open transaction.
    fn open_revision(&self, client: usize) -> Option<usize> {
        self.clients[client].open.map(|transaction| self.transactions[transaction].revision)
    }
}
