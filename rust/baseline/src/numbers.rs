//! Numbers that passed their range check, so that one is never taken for another.

use calls::Code;

/// Revision numbers are 0 to 63.
pub(crate) const REVISIONS: usize = 64;
/// Client numbers are 0 to 15.
pub(crate) const CLIENTS: usize = 16;
/// The log has room for 4,096 updates, of all revisions together.
pub(crate) const LOG: usize = 4_096;
/// Courses are 0 to 3.
pub(crate) const COURSES: usize = 4;
/// The card of four courses has room for 8,192 updates, of which each has 1,024 assured.
pub(crate) const CARD: usize = 8_192;
pub(crate) const ASSURED: usize = 1_024;
/// Bibs are 0 to 999.
pub(crate) const BIBS: u16 = 1_000;

/// A revision that was given out (01: box).
#[derive(Clone, Copy, Debug, PartialEq, Eq)]
pub(crate) struct Revision(pub(crate) u8);

/// A client (01: tablet).
#[derive(Clone, Copy, Debug, PartialEq, Eq)]
pub(crate) struct Client(pub(crate) u8);

/// A bib.
#[derive(Clone, Copy, Debug, PartialEq, Eq)]
pub(crate) struct Bib(pub(crate) u16);

impl Revision {
    /// The main revision.
    pub(crate) const MAIN: Revision = Revision(0);

    pub(crate) fn index(self) -> usize {
        usize::from(self.0)
    }
}

impl Client {
    /// Code 2.
    pub(crate) fn checked(number: u8) -> Result<Self, Code> {
        if usize::from(number) < CLIENTS {
            Ok(Client(number))
        } else {
            Err(Code::UnknownClient)
        }
    }

    pub(crate) fn index(self) -> usize {
        usize::from(self.0)
    }
}

impl Bib {
    /// Code 5.
    pub(crate) fn checked(number: u16) -> Result<Self, Code> {
        if number < BIBS {
            Ok(Bib(number))
        } else {
            Err(Code::BadEntry)
        }
    }
}
