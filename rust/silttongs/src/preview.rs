//! What a join will bring.

use crate::refusal::Refusal;
use crate::standing::Standing;

/// How a bib will stand at the joiner after a join, and what that gains: what
/// [`Table::preview`](crate::Table::preview) answers.
#[derive(Clone, Copy, Debug, PartialEq, Eq, Hash)]
pub struct Preview {
    /// How the bib will stand.
    pub standing: Standing,
    /// How many updates the joiner will gain.
    pub gain: u32,
}

impl Preview {
    /// From a packed answer: the gain from bit 48 on, above what a query answers.
    pub(crate) fn from_packed(packed: u64) -> Result<Self, Refusal> {
        let gain = (packed >> 48) as u32;
        let found = Standing::from_packed(packed & 0xffff_ffff_ffff);
        assert!(found.is_ok() || gain == 0, "a refusal gives gain 0");
        found.map(|standing| Preview { standing, gain })
    }
}

#[cfg(test)]
mod tests {
    use super::*;

    fn packed(gain: u64, state: u64, code: u64, value: u32) -> u64 {
        gain << 48 | state << 40 | code << 32 | u64::from(value)
    }

    #[test]
    fn standing_and_gain_of_an_answer() {
        let cases = [
            (0, 0, 0, Standing::Neither),
            (4_096, 0, 0, Standing::Neither),
            (1, 1, u32::MAX, Standing::Timed(u32::MAX)),
            (65_535, 2, 0, Standing::Struck),
        ];
        for (gain, state, value, standing) in cases {
            let preview = Preview { standing, gain: gain as u32 };
            assert_eq!(Preview::from_packed(packed(gain, state, 0, value)), Ok(preview));
        }
        assert_eq!(Preview::from_packed(packed(0, 0, 11, 0)), Err(Refusal::NotJoinable));
        assert_eq!(Preview::from_packed(packed(0, 0, 5, 0)), Err(Refusal::BadEntry));
    }

    #[test]
    #[should_panic(expected = "a refusal gives gain 0")]
    fn a_refusal_has_no_gain() {
        let _ = Preview::from_packed(packed(1, 0, 7, 0));
    }
}
