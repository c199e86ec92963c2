//! Why a call was refused.

use core::fmt;

/// A code of the desk but 0. The discriminant is its number; it is displayed by the desk's name.
///
/// ```
/// use silttongs::Refusal;
///
/// assert_eq!(Refusal::UnknownClient.code(), 2);
/// assert_eq!(Refusal::UnknownClient.to_string(), "strange tablet");
/// ```
#[derive(Clone, Copy, Debug, PartialEq, Eq, PartialOrd, Ord, Hash)]
#[non_exhaustive]
#[repr(u8)]
pub enum Refusal {
    /// The bytes are not 65,536, or a cell is out of its range; on four courses also those of another
    /// course, or the course is above 3.
    NoTable = 1,
    /// Tablet above 15.
    UnknownClient = 2,
    /// Box number not yet given out.
    NeverGiven = 3,
    /// The latest box of that number was joined already; or it was a mark, and dropped.
    Joined = 4,
    /// Bib above 999, or update kind not 1 to 4.
    BadEntry = 5,
    /// The tablet's open transaction is on another box.
    OpenElsewhere = 6,
    /// Another tablet has an open transaction on the box; for fork, mark, join, sync and list any tablet.
    InUse = 7,
    /// The box has not seen the tablet's last event.
    Stale = 8,
    /// 4,096 updates were taken.
    LogFull = 9,
    /// 64 boxes are out.
    NoneLeft = 10,
    /// The joinee is box 0 or the joiner, or the joiner has not seen its fork or has seen its start.
    NotJoinable = 11,
    /// The listing needs more bytes.
    SheetShort = 12,
    /// A bundle of no update or of more than 64, or bytes that are not a multiple of 12.
    WrongBundle = 14,
    /// On a [single-main day](crate::Day::SingleMain): a fork of another box than 0, a join into one, or a
    /// mark.
    OffTheLine = 15,
    /// The box is marked: it is not written, queried or joined, in either role.
    Marked = 16,
    /// The name of a mark is not four letters A to Z, or is in use.
    BadName = 17,
    /// No mark that is out has the name.
    NoSuchMark = 18,
    /// A board has another length than [`BOARD`](crate::BOARD).
    WrongBoard = 19,
    /// On four courses: with one update more the [card](crate::CARD) would hold too many. A call that
    /// would leave its course with no more than its [assured](crate::ASSURED) updates, if it were taken, never
    /// meets it.
    SharedLogFull = 20,
    /// The header of an order does not fit its length.
    BadList = 21,
}

/// In the order of their numbers. 13 is given by the program `day` alone.
const ALL: [Refusal; 20] = [
    Refusal::NoTable,
    Refusal::UnknownClient,
    Refusal::NeverGiven,
    Refusal::Joined,
    Refusal::BadEntry,
    Refusal::OpenElsewhere,
    Refusal::InUse,
    Refusal::Stale,
    Refusal::LogFull,
    Refusal::NoneLeft,
    Refusal::NotJoinable,
    Refusal::SheetShort,
    Refusal::WrongBundle,
    Refusal::OffTheLine,
    Refusal::Marked,
    Refusal::BadName,
    Refusal::NoSuchMark,
    Refusal::WrongBoard,
    Refusal::SharedLogFull,
    Refusal::BadList,
];

impl Refusal {
    /// The number of the code.
    pub fn code(self) -> u8 {
        self as u8
    }

    /// The name of the code.
    pub fn name(self) -> &'static str {
        match self {
            Refusal::NoTable => "no table",
            Refusal::UnknownClient => "strange tablet",
            Refusal::NeverGiven => "never sent",
            Refusal::Joined => "handed in",
            Refusal::BadEntry => "bad entry",
            Refusal::OpenElsewhere => "other box open",
            Refusal::InUse => "in use",
            Refusal::Stale => "not caught up",
            Refusal::LogFull => "log full",
            Refusal::NoneLeft => "no box left",
            Refusal::NotJoinable => "not joinable",
            Refusal::SheetShort => "sheet short",
            Refusal::WrongBundle => "wrong bundle",
            Refusal::OffTheLine => "off the line",
            Refusal::Marked => "marked box",
            Refusal::BadName => "bad name",
            Refusal::NoSuchMark => "no such mark",
            Refusal::WrongBoard => "wrong board",
            Refusal::SharedLogFull => "shared log full",
            Refusal::BadList => "bad list",
        }
    }
}

impl fmt::Display for Refusal {
    fn fmt(&self, f: &mut fmt::Formatter<'_>) -> fmt::Result {
        f.write_str(self.name())
    }
}

impl core::error::Error for Refusal {}

/// The answer in a packed number: the code in the upper 32 bits, the value in the lower. A query's
/// is [`Standing::from_packed`](crate::Standing), a preview's [`Preview::from_packed`](crate::Preview).
pub(crate) fn answer(packed: u64) -> Result<u32, Refusal> {
    let code = packed >> 32;
    if code == 0 {
        return Ok(packed as u32);
    }
    assert_eq!(packed as u32, 0, "a refusal gives value 0");
    match ALL.into_iter().find(|&refusal| refusal as u64 == code) {
        Some(refusal) => Err(refusal),
        None => unreachable!("code {code}"),
    }
}

#[cfg(test)]
mod tests {
    use super::*;

    #[test]
    fn each_number_has_its_refusal() {
        assert!(ALL.map(Refusal::code).into_iter().eq((1..=12).chain(14..=21)));
        for refusal in ALL {
            assert_eq!(answer(u64::from(refusal.code()) << 32), Err(refusal));
        }
        assert_eq!(answer(4_294_967_295), Ok(u32::MAX));
    }

    #[test]
    #[should_panic(expected = "code 13")]
    fn no_call_gives_13() {
        let _ = answer(13 << 32);
    }

    #[test]
    #[should_panic(expected = "a refusal gives value 0")]
    fn a_refusal_has_no_value() {
        let _ = answer(7 << 32 | 1);
    }
}
