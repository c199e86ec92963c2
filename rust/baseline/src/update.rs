//! The four kinds of update and their effect on one bib.

use calls::Code;

/// How a bib stands.
#[derive(Clone, Copy, Debug, PartialEq, Eq)]
pub struct Standing {
    /// Whether it is struck.
    pub struck: bool,
    /// Its value, 0 if it is struck.
    pub value: u32,
}

impl Standing {
    /// Of a bib that is not struck.
    pub(crate) fn at(value: u32) -> Self {
        Standing { struck: false, value }
    }
}

/// A kind of update.
#[derive(Clone, Copy, Debug, PartialEq, Eq)]
#[repr(u8)]
pub(crate) enum Kind {
    Time = 1,
    Earliest = 2,
    Penalty = 3,
    Strike = 4,
}

impl Kind {
    /// Code 5.
    pub(crate) fn checked(number: u8) -> Result<Self, Code> {
        match number {
            1 => Ok(Kind::Time),
            2 => Ok(Kind::Earliest),
            3 => Ok(Kind::Penalty),
            4 => Ok(Kind::Strike),
            _ => Err(Code::BadEntry),
        }
    }

    /// Of the two bits in an entry, whatever the others are.
    pub(crate) fn from_bits(bits: u8) -> Self {
        match bits & 3 {
            0 => Kind::Time,
            1 => Kind::Earliest,
            2 => Kind::Penalty,
            _ => Kind::Strike,
        }
    }

    pub(crate) fn bits(self) -> u8 {
        self as u8 - 1
    }

    /// Whether its effect is the same however the bib stood.
    pub(crate) fn is_absolute(self) -> bool {
        matches!(self, Kind::Time | Kind::Strike)
    }

    /// How a bib stands after an update of this kind.
    pub(crate) fn applied(self, bib: Standing, v: u32) -> Standing {
        match self {
            Kind::Time => Standing::at(v),
            Kind::Earliest | Kind::Penalty if bib.struck => bib,
            Kind::Earliest => Standing::at(earliest(bib.value, v)),
            Kind::Penalty => Standing::at(penalized(bib.value, v)),
            Kind::Strike => Standing { struck: true, value: 0 },
        }
    }
}

/// A penalty belongs to a time: without one it has no effect.
fn penalized(value: u32, v: u32) -> u32 {
    match value {
        0 => 0,
        time => time.wrapping_add(v),
    }
}

/// 0 is no time.
fn earliest(value: u32, v: u32) -> u32 {
    match (value, v) {
        (0, time) | (time, 0) => time,
        _ => value.min(v),
    }
}

#[cfg(test)]
mod tests {
    use super::Kind::{Earliest, Penalty, Strike, Time};
    use super::Standing;

    const STRUCK: Standing = Standing { struck: true, value: 0 };

    #[test]
    fn effects() {
        let cases = [
            (Time, 5, 0, 0),
            (Earliest, 0, 0, 0),
            (Earliest, 0, 9, 9),
            (Earliest, 9, 0, 9),
            (Earliest, 9, 8, 8),
            (Earliest, 8, 9, 8),
            (Penalty, 1, u32::MAX, 0),
            (Penalty, 0, 5, 0),
            (Penalty, 7, 0, 7),
        ];
        for (kind, value, v, after) in cases {
            let applied = kind.applied(Standing::at(value), v);
            assert_eq!(applied, Standing::at(after), "{kind:?} {v} on {value}");
        }
        assert_eq!(Strike.applied(Standing::at(7), 9), STRUCK);
    }

    #[test]
    fn effects_on_a_struck_bib() {
        for kind in [Earliest, Penalty, Strike] {
            assert_eq!(kind.applied(STRUCK, 9), STRUCK, "{kind:?}");
        }
        assert_eq!(Time.applied(STRUCK, 9), Standing::at(9));
        assert_eq!(Time.applied(STRUCK, 0), Standing::at(0));
    }
}
