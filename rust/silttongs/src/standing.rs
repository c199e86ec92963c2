//! How a bib stands.

use crate::refusal::{answer, Refusal};

/// How a bib stands: what [`Table::query`](crate::Table::query) answers.
#[derive(Clone, Copy, Debug, PartialEq, Eq, Hash)]
pub enum Standing {
    /// Neither struck nor timed: it has no time.
    Neither,
    /// Not struck, and its value in thousandths of a second, which is not 0.
    Timed(u32),
    /// Struck. Only a [`Kind::Time`](crate::Kind::Time) lifts that.
    Struck,
}

impl Standing {
    /// The value: 0 for no time, and for a struck bib.
    pub fn value(self) -> u32 {
        match self {
            Standing::Timed(value) => value,
            Standing::Neither | Standing::Struck => 0,
        }
    }

    /// From the packed answer of a query: the state from bit 40 on, above code and value.
    pub(crate) fn from_packed(packed: u64) -> Result<Self, Refusal> {
        match (packed >> 40, answer(packed & 0xff_ffff_ffff)) {
            (0, Err(refusal)) => Err(refusal),
            (0, Ok(0)) => Ok(Standing::Neither),
            (1, Ok(value @ 1..)) => Ok(Standing::Timed(value)),
            (2, Ok(0)) => Ok(Standing::Struck),
            (state, answer) => unreachable!("state {state} with {answer:?}"),
        }
    }
}

#[cfg(test)]
mod tests {
    use super::*;

    fn packed(state: u64, code: u64, value: u32) -> u64 {
        state << 40 | code << 32 | u64::from(value)
    }

    #[test]
    fn state_and_value_of_an_answer() {
        let standing = |state, value| Standing::from_packed(packed(state, 0, value));
        assert_eq!(standing(0, 0), Ok(Standing::Neither));
        assert_eq!(standing(1, 1), Ok(Standing::Timed(1)));
        assert_eq!(standing(1, u32::MAX), Ok(Standing::Timed(u32::MAX)));
        assert_eq!(standing(2, 0), Ok(Standing::Struck));
        assert_eq!(Standing::from_packed(packed(0, 8, 0)), Err(Refusal::Stale));
    }

    #[test]
    #[should_panic(expected = "state 2 with Err(InUse)")]
    fn a_refusal_has_no_state() {
        let _ = Standing::from_packed(packed(2, 7, 0));
    }

    #[test]
    #[should_panic(expected = "state 2 with Ok(1)")]
    fn a_struck_bib_has_no_value() {
        let _ = Standing::from_packed(packed(2, 0, 1));
    }
}
