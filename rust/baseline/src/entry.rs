//! An update as it was entered: docs/CELLS.md, "The entries".

use crate::numbers::{Bib, Client};
use crate::parts::ENTRY;
use crate::update::Kind;

/// An update as it was entered.
#[derive(Clone, Copy, Debug)]
pub(crate) struct Entry {
    pub(crate) kind: Kind,
    pub(crate) client: Client,
    pub(crate) bib: u16,
    pub(crate) v: u32,
}

impl Entry {
    pub(crate) fn new(kind: Kind, client: Client, bib: Bib, v: u32) -> Self {
        Entry { kind, client, bib: bib.0, v }
    }

    /// Every six bytes are an entry.
    pub(crate) fn from_bytes(bytes: [u8; ENTRY]) -> Self {
        let [low, packed, v @ ..] = bytes;
        Entry {
            kind: Kind::from_bits(packed >> 2),
            client: Client(packed >> 4),
            bib: u16::from_le_bytes([low, packed & 3]),
            v: u32::from_le_bytes(v),
        }
    }

    pub(crate) fn to_bytes(self) -> [u8; ENTRY] {
        let [low, high] = self.bib.to_le_bytes();
        let packed = self.client.0 << 4 | self.kind.bits() << 2 | high;
        let [v0, v1, v2, v3] = self.v.to_le_bytes();
        [low, packed, v0, v1, v2, v3]
    }
}
