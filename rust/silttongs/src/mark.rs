//! The marks that are out, read from the cells: docs/CELLS.md.

use crate::name::Name;

/// Where the parts lie, and the state of a number that is marked.
const STATE: usize = 39_040;
const NAMES: usize = 39_828;
const MARKED: u8 = 3;

/// A mark that is out: what [`Table::marks`](crate::Table::marks) tells of it.
#[derive(Clone, Copy, Debug, PartialEq, Eq, Hash)]
pub struct Mark {
    /// The number of the marked box.
    pub revision: u8,
    /// Its name.
    pub name: Name,
}

/// The marks of a table, in the order of their numbers. Box 0 is none. Four bytes that are no name stand
/// there on bytes that no day made; they are left out.
pub(crate) fn marks(t: &[u8]) -> impl Iterator<Item = Mark> + '_ {
    (1..64).filter_map(|revision| {
        let number = usize::from(revision);
        let at = NAMES + Name::BYTES * number;
        match t[STATE + number] {
            MARKED => Name::new(&t[at..at + Name::BYTES]).map(|name| Mark { revision, name }).ok(),
            _ => None,
        }
    })
}
