//! A yes or no for each revision.

use crate::numbers::Revision;

/// One flag a revision, as the bits of a word.
#[derive(Clone, Copy, Debug, PartialEq, Eq)]
pub(crate) struct Flags(u64);

impl Flags {
    pub(crate) fn from_bytes(bytes: [u8; 8]) -> Self {
        Flags(u64::from_le_bytes(bytes))
    }

    pub(crate) fn to_bytes(self) -> [u8; 8] {
        self.0.to_le_bytes()
    }

    pub(crate) fn only(revision: Revision) -> Self {
        Flags(1 << revision.0)
    }

    pub(crate) fn has(self, revision: Revision) -> bool {
        self.0 & Flags::only(revision).0 != 0
    }

    pub(crate) fn or(self, other: Flags) -> Self {
        Flags(self.0 | other.0)
    }

    pub(crate) fn with(self, revision: Revision, yes: bool) -> Self {
        let one = Flags::only(revision).0;
        Flags(if yes { self.0 | one } else { self.0 & !one })
    }
}
