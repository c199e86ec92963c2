//! The four kinds of update and their effect on how a bib stands: 01, "Updates", amended by 02, U2
//! and U3.

use calls::State;

/// How many bibs there are: 0 to 999.
pub(crate) const BIBS: usize = 1_000;

/// An update as it was entered.
#[derive(Clone, Copy, Debug, PartialEq, Eq)]
pub struct Update {
    /// 1 to 4.
    pub kind: u8,
    /// The client that entered it.
    pub client: u8,
    /// The bib.
    pub bib: u16,
    /// The argument.
    pub v: u32,
}

/// How a bib stands: "a bib is struck or, if not, timed exactly if its value isn't 0".
#[derive(Clone, Copy, Debug, PartialEq, Eq)]
pub enum Standing {
    /// Struck; it has no value.
    Struck,
    /// Not struck, with this value.
    At(u32),
}

impl Standing {
    /// "A fresh table has 0 for every bib", and none is struck.
    pub const FRESH: Standing = Standing::At(0);

    /// "struck, timed or neither"
    pub fn state(self) -> State {
        match self {
            Standing::Struck => State::Struck,
            Standing::At(0) => State::Neither,
            Standing::At(_) => State::Timed,
        }
    }

    /// "the value, 0 if struck"
    pub fn value(self) -> u32 {
        match self {
            Standing::Struck => 0,
            Standing::At(value) => value,
        }
    }
}

impl Update {
    /// What becomes of its own bib: "Strike makes it struck; Earliest and Penalty leave it so; only
    /// Time lifts it."
    pub fn applied_to(&self, before: Standing) -> Standing {
        match (self.kind, before) {
            // Time: the value becomes v.
            (1, _) => Standing::At(self.v),
            (2 | 3, Standing::Struck) => Standing::Struck,
            // Earliest: the smaller of value and v among those that aren't 0; 0 if both are 0.
            (2, Standing::At(value)) => {
                let times = [value, self.v].into_iter().filter(|&time| time != 0);
                Standing::At(times.min().unwrap_or(0))
            }
            // Penalty: none without a time; else v is added modulo 4,294,967,296.
            (3, Standing::At(0)) => Standing::At(0),
            (3, Standing::At(value)) => {
                let sum = u64::from(value) + u64::from(self.v);
                Standing::At((sum % 4_294_967_296) as u32)
            }
            // Strike: v isn't looked at.
            (4, _) => Standing::Struck,
            _ => unreachable!("an update that was taken has kind 1 to 4"),
        }
    }
}

/// How a bib stands after updates are applied, in this order, to a fresh table.
pub(crate) fn standing_after(updates: impl Iterator<Item = Update>, bib: u16) -> Standing {
    let mut standings = [Standing::FRESH; BIBS];
    for update in updates {
        let standing = &mut standings[usize::from(update.bib)];
        *standing = update.applied_to(*standing);
    }
    standings[usize::from(bib)]
}

#[cfg(test)]
mod tests {
    use super::*;

    fn applied(kind: u8, before: Standing, v: u32) -> Standing {
        Update { kind, client: 0, bib: 0, v }.applied_to(before)
    }

    #[test]
    fn each_kind_does_what_01_says() {
        let cases = [
            (1, 5, 0, 0),
            (1, 5, 9, 9),
            (2, 0, 0, 0),
            (2, 0, 9, 9),
            (2, 9, 0, 9),
            (2, 9, 9, 9),
            (2, 8, 9, 8),
            (2, 9, 8, 8),
            (3, 0, 5, 0),
            (3, 7, 0, 7),
            (3, 1, u32::MAX, 0),
            (3, u32::MAX, u32::MAX, u32::MAX - 1),
        ];
        for (kind, value, v, after) in cases {
            let after = Standing::At(after);
            assert_eq!(applied(kind, Standing::At(value), v), after, "kind {kind}, {value}, {v}");
        }
    }

    #[test]
    fn a_struck_bib_stays_struck_until_a_time() {
        for v in [0, 9, u32::MAX] {
            for before in [Standing::FRESH, Standing::At(7), Standing::Struck] {
                assert_eq!(applied(4, before, v), Standing::Struck, "{before:?}, v {v}");
            }
            assert_eq!(applied(1, Standing::Struck, v), Standing::At(v));
            assert_eq!(applied(2, Standing::Struck, v), Standing::Struck, "Earliest {v}");
            assert_eq!(applied(3, Standing::Struck, v), Standing::Struck, "Penalty {v}");
        }
    }

    #[test]
    fn state_and_value_of_a_standing() {
        let told = |standing: Standing| (standing.state(), standing.value());
        assert_eq!(told(Standing::FRESH), (State::Neither, 0));
        assert_eq!(told(Standing::At(1)), (State::Timed, 1));
        assert_eq!(told(Standing::At(u32::MAX)), (State::Timed, u32::MAX));
        assert_eq!(told(Standing::Struck), (State::Struck, 0));
    }
}
