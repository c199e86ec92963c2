//! The checks that look at cells: codes 3, 4, 6 to 11, 15 to 18 and 20.

use calls::Code;

use crate::numbers::{Client, Revision, ASSURED, CARD, LOG, REVISIONS};
use crate::parts::{CLOSED, IS_JOINED, IS_MARKED, NAME, NEVER};
use crate::table::Table;

impl Table<'_> {
    /// Code 3.
    pub(crate) fn check_given(&self, number: u8) -> Result<Revision, Code> {
        let revision = Revision(number);
        if usize::from(number) < REVISIONS && self.state(revision) != NEVER {
            Ok(revision)
        } else {
            Err(Code::NeverGiven)
        }
    }

    /// Code 4.
    pub(crate) fn check_out(&self, revision: Revision) -> Result<(), Code> {
        refuse(self.state(revision) == IS_JOINED, Code::Joined)
    }

    /// Code 15 of a forker or a joiner.
    pub(crate) fn check_line(&self, revision: Revision) -> Result<(), Code> {
        refuse(self.is_single_main() && revision != Revision::MAIN, Code::OffTheLine)
    }

    /// Code 15 of a mark: a single-main day has none.
    pub(crate) fn check_ordinary(&self) -> Result<(), Code> {
        refuse(self.is_single_main(), Code::OffTheLine)
    }

    /// Code 16.
    pub(crate) fn check_unmarked(&self, revision: Revision) -> Result<(), Code> {
        refuse(self.is_marked(revision), Code::Marked)
    }

    fn is_marked(&self, revision: Revision) -> bool {
        self.state(revision) == IS_MARKED
    }

    /// Codes 6, 7 and 8 of update and query.
    pub(crate) fn check_may_enter(&self, client: Client, revision: Revision) -> Result<(), Code> {
        let opened = self.opened();
        let open = opened[client.index()];
        refuse(open != CLOSED && open != revision.0, Code::OpenElsewhere)?;
        let mut clients = opened.iter().enumerate();
        let by_other = clients.any(|(c, &open)| c != client.index() && open == revision.0);
        refuse(by_other, Code::InUse)?;
        refuse(!self.caught(client).has(revision), Code::Stale)
    }

    /// Code 7 of fork, mark, join and list.
    pub(crate) fn check_idle(&self, revision: Revision) -> Result<(), Code> {
        refuse(self.opened().contains(&revision.0), Code::InUse)
    }

    /// Code 9, once so many more updates are accepted.
    pub(crate) fn check_log_after(&self, more: usize) -> Result<(), Code> {
        refuse(usize::from(self.updates()) + more >= LOG, Code::LogFull)
    }

    /// Code 20, once so many more updates are accepted, where other tables hold so much of the card. A table
    /// alone never has it.
    pub(crate) fn check_card_after(&self, others: usize, more: usize) -> Result<(), Code> {
        let own = usize::from(self.updates()) + more + 1;
        refuse(own.max(ASSURED) + others > CARD, Code::SharedLogFull)
    }

    /// How much of the card the table holds: what is assured, or its updates if they are more.
    pub(crate) fn held(&self) -> usize {
        usize::from(self.updates()).max(ASSURED)
    }

    /// Code 10, or the next revision number.
    pub(crate) fn check_left(&self) -> Result<Revision, Code> {
        refuse(usize::from(self.out()) >= REVISIONS, Code::NoneLeft)?;
        Ok(self.next())
    }

    /// One that was never used, else the one joined or dropped longest ago.
    pub(crate) fn next(&self) -> Revision {
        let given = self.given();
        Revision(if usize::from(given) < REVISIONS { given } else { self.queue()[0] })
    }

    /// All checks of a join, and the two revisions.
    pub(crate) fn check_join(&self, joiner: u8, joinee: u8) -> Result<(Revision, Revision), Code> {
        let (joiner, joinee) = (self.check_given(joiner)?, self.check_given(joinee)?);
        self.check_out(joiner)?;
        self.check_out(joinee)?;
        self.check_line(joiner)?;
        self.check_unmarked(joiner)?;
        self.check_unmarked(joinee)?;
        self.check_idle(joiner)?;
        self.check_idle(joinee)?;
        self.check_joinable(joiner, joinee)?;
        Ok((joiner, joinee))
    }

    /// Code 11.
    fn check_joinable(&self, joiner: Revision, joinee: Revision) -> Result<(), Code> {
        let joinable =
            joinee != Revision::MAIN && joiner != joinee && self.seen(joiner).has(joinee);
        refuse(!joinable, Code::NotJoinable)
    }

    /// Code 17: four letters A to Z, which no mark that is out bears.
    pub(crate) fn check_name(&self, name: &[u8]) -> Result<[u8; NAME], Code> {
        let name = <[u8; NAME]>::try_from(name).map_err(|_| Code::BadName)?;
        refuse(!name.iter().all(u8::is_ascii_uppercase), Code::BadName)?;
        refuse(self.bearer(&name).is_some(), Code::BadName)?;
        Ok(name)
    }

    /// Code 18, or the mark that bears the name.
    pub(crate) fn check_mark(&self, name: &[u8]) -> Result<Revision, Code> {
        self.bearer(name).ok_or(Code::NoSuchMark)
    }

    /// The main revision is no mark. On a day at most one bears a name; else the highest number is meant.
    fn bearer(&self, name: &[u8]) -> Option<Revision> {
        let mut numbers = (1..REVISIONS as u8).rev().map(Revision);
        numbers.find(|&revision| self.is_marked(revision) && self.name(revision) == name)
    }
}

pub(crate) fn refuse(applies: bool, code: Code) -> Result<(), Code> {
    if applies {
        Err(code)
    } else {
        Ok(())
    }
}
