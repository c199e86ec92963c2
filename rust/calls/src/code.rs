//! The codes of the desk: their numbers and names in 01 and 02. In code they go by the paper's
//! terms, as the refusals of the wrapper `silttongs` do.

use std::fmt;

/// Why a call was refused, or that it was accepted. The discriminant is its number there.
#[derive(Clone, Copy, Debug, PartialEq, Eq, PartialOrd, Ord)]
#[repr(u8)]
pub enum Code {
    /// No check applies.
    Accepted = 0,
    /// The buffer is no table. It arises on buffers only.
    NoTable = 1,
    /// Client above 15.
    UnknownClient = 2,
    /// Revision number not yet given out.
    NeverGiven = 3,
    /// The latest revision that bore the number was joined, or was marked and dropped.
    Joined = 4,
    /// Bib above 999, or update kind not 1 to 4.
    BadEntry = 5,
    /// The client's open transaction is on another revision.
    OpenElsewhere = 6,
    /// Another client has an open transaction there; for fork, mark, join, sync and list any
    /// client.
    InUse = 7,
    /// No path from the client's last event to the terminal.
    Stale = 8,
    /// 4,096 updates were accepted.
    LogFull = 9,
    /// 64 revisions are out.
    NoneLeft = 10,
    /// The join rule does not hold.
    NotJoinable = 11,
    /// The listing buffer is too small.
    SheetShort = 12,
    /// A day file's step byte is not 1 to 5. Given by the program, by no call.
    UnknownStep = 13,
    /// 02, U4: the records of a bundle are none or above 64, or not whole.
    WrongBundle = 14,
    /// 02, U8: on a single-main day, a fork of another revision than the main one, a join into one, or a
    /// mark.
    OffTheLine = 15,
    /// 02, U9: the revision is marked.
    Marked = 16,
    /// 02, U9: the name of a mark is not four letters A to Z, or is in use.
    BadName = 17,
    /// 02, U9: no mark that is out has the name.
    NoSuchMark = 18,
    /// 02, U10: a board has another length than 5,000 bytes.
    WrongBoard = 19,
    /// 02, U12: with one update more, the four tables would hold more than their card does.
    SharedLogFull = 20,
    /// 02, U13: the header of an order does not fit its length.
    BadList = 21,
}

/// Each code with its name, in the order of their numbers.
const NAMED: [(Code, &str); 22] = [
    (Code::Accepted, "taken"),
    (Code::NoTable, "no table"),
    (Code::UnknownClient, "strange tablet"),
    (Code::NeverGiven, "never sent"),
    (Code::Joined, "handed in"),
    (Code::BadEntry, "bad entry"),
    (Code::OpenElsewhere, "other box open"),
    (Code::InUse, "in use"),
    (Code::Stale, "not caught up"),
    (Code::LogFull, "log full"),
    (Code::NoneLeft, "no box left"),
    (Code::NotJoinable, "not joinable"),
    (Code::SheetShort, "sheet short"),
    (Code::UnknownStep, "strange step"),
    (Code::WrongBundle, "wrong bundle"),
    (Code::OffTheLine, "off the line"),
    (Code::Marked, "marked box"),
    (Code::BadName, "bad name"),
    (Code::NoSuchMark, "no such mark"),
    (Code::WrongBoard, "wrong board"),
    (Code::SharedLogFull, "shared log full"),
    (Code::BadList, "bad list"),
];

impl Code {
    /// The code of a number, if there is one.
    pub fn of(number: u8) -> Option<Self> {
        NAMED.iter().map(|&(code, _)| code).find(|code| code.number() == number)
    }

    /// The number.
    pub fn number(self) -> u8 {
        self as u8
    }

    /// The name.
    pub fn name(self) -> &'static str {
        match NAMED.iter().find(|(code, _)| *code == self) {
            Some((_, name)) => name,
            None => unreachable!("each code has its name"),
        }
    }
}

impl fmt::Display for Code {
    fn fmt(&self, f: &mut fmt::Formatter<'_>) -> fmt::Result {
        write!(f, "{} {}", self.number(), self.name())
    }
}

#[cfg(test)]
mod tests {
    use super::*;

    #[test]
    fn each_number_has_its_code() {
        for number in 0..=u8::MAX {
            let known = (number <= 21).then_some(number);
            assert_eq!(Code::of(number).map(Code::number), known);
        }
    }

    #[test]
    fn each_code_has_its_name() {
        assert!(NAMED.iter().all(|&(code, name)| code.name() == name));
    }
}
