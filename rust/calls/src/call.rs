//! A call with its arguments, and its text, as in 01's example.

use std::fmt;

use crate::{order_file, Line};

/// A call with its arguments as they come, in range or not.
#[derive(Clone, Debug, PartialEq, Eq)]
pub enum Call {
    /// One entry by a client on a revision.
    Update {
        /// 01: tablet.
        client: u8,
        /// 01: box.
        revision: u8,
        /// 1 Time, 2 Earliest, 3 Penalty, 4 Strike: see [`KINDS`].
        kind: u8,
        /// The bib that is entered.
        bib: u16,
        /// Thousandths of a second.
        v: u32,
    },
    /// A client looks up a bib on a revision.
    Query {
        /// 01: tablet.
        client: u8,
        /// 01: box.
        revision: u8,
        /// The bib that is looked up.
        bib: u16,
    },
    /// A client ends its transaction.
    Yield {
        /// 01: tablet.
        client: u8,
    },
    /// A new revision starts from this one.
    Fork {
        /// The forker.
        revision: u8,
    },
    /// The joiner takes over the joinee's updates, and the joinee ends.
    Join {
        /// The revision that goes on.
        joiner: u8,
        /// The revision that ends.
        joinee: u8,
    },
    /// The visible updates of a revision. A list is no event, and no step of a day file.
    List {
        /// 01: box.
        revision: u8,
        /// The length of the listing buffer (01: sheet) in bytes.
        room: usize,
    },
    /// How many updates are a revision's own, and how many the whole table took. A fill is no
    /// event, and no step of a day file.
    Fill {
        /// 01: box.
        revision: u8,
    },
    /// Several entries by a client on a revision, and then its yield. No step of a day file.
    Bundle {
        /// 01: tablet.
        client: u8,
        /// 01: box.
        revision: u8,
        /// [`Line::BYTES`] each, laid out as a line of a listing. "their tablet and number aren't
        /// looked at".
        records: Vec<u8>,
    },
    /// What a bib will show at the joiner after a join, and what that gains. A preview is no event,
    /// and no step of a day file.
    Preview {
        /// The revision that would go on.
        joiner: u8,
        /// The revision that would end.
        joinee: u8,
        /// The bib that is looked up.
        bib: u16,
    },
    /// A new day on the same table, whatever was before. No step of a day file.
    Fresh {
        /// Whether revisions come from the main one and go back to it alone.
        single_main: bool,
    },
    /// A revision is joined into the main one, which is then forked: one call. No step of a day file.
    Sync {
        /// The joinee.
        revision: u8,
    },
    /// A new revision starts from this one, which can be listed and forked but not written, queried or
    /// joined. No step of a day file.
    Mark {
        /// The forker.
        revision: u8,
        /// Of the new revision: four letters A to Z, if it is a good one.
        name: Vec<u8>,
    },
    /// The marked revision of a name ends. No step of a day file.
    Drop {
        /// Its name.
        name: Vec<u8>,
    },
    /// Whether an order of updates from another maker fits the day. A verify is no event, and no step of
    /// a day file.
    Verify {
        /// The file: see [`order_file`].
        order: Vec<u8>,
    },
    /// What the day costs. A bill is no event, and no step of a day file.
    Bill {
        /// Whether it is a club member's.
        member: bool,
    },
    /// A call that takes a board, with one of so many bytes lent to it in place of the day's own.
    OnBoard {
        /// The length of that board in bytes.
        length: usize,
        /// Fresh, yield, bundle, join or sync.
        call: Box<Call>,
    },
}

/// The kinds of update by name, kind 1 first. What each makes of a bib, by 01 and 02's U2:
///
/// - Time: the value becomes v, and the bib is no longer struck.
/// - Earliest: the smaller of value and v among those that aren't 0; a struck bib stays struck.
/// - Penalty: v is added modulo 4,294,967,296, on value 0 nothing; a struck bib stays struck.
/// - Strike: the bib is struck; v isn't looked at.
pub const KINDS: [&str; 4] = ["Time", "Earliest", "Penalty", "Strike"];

/// The kind that is written without its argument where that is 0.
pub const STRIKE: u8 = 4;

impl Call {
    /// Its first word.
    pub fn name(&self) -> &'static str {
        match self {
            Call::Update { .. } => "update",
            Call::Query { .. } => "query",
            Call::Yield { .. } => "yield",
            Call::Fork { .. } => "fork",
            Call::Join { .. } => "join",
            Call::List { .. } => "list",
            Call::Fill { .. } => "fill",
            Call::Bundle { .. } => "bundle",
            Call::Preview { .. } => "preview",
            Call::Fresh { .. } => "fresh",
            Call::Sync { .. } => "sync",
            Call::Mark { .. } => "mark",
            Call::Drop { .. } => "drop",
            Call::Verify { .. } => "verify",
            Call::Bill { .. } => "bill",
            Call::OnBoard { call, .. } => call.name(),
        }
    }

    /// Whether a board is lent to it: "Fresh, yield, bundle, join and sync take it, no other call".
    pub fn takes_a_board(&self) -> bool {
        match self {
            Call::Fresh { .. } | Call::Yield { .. } | Call::Bundle { .. } => true,
            Call::Join { .. } | Call::Sync { .. } => true,
            Call::OnBoard { .. } => true,
            Call::Update { .. } | Call::Query { .. } | Call::Fork { .. } | Call::List { .. } => {
                false
            }
            Call::Fill { .. } | Call::Preview { .. } | Call::Mark { .. } | Call::Drop { .. } => {
                false
            }
            Call::Verify { .. } | Call::Bill { .. } => false,
        }
    }
}

impl fmt::Display for Call {
    fn fmt(&self, f: &mut fmt::Formatter<'_>) -> fmt::Result {
        if let Call::OnBoard { length, call } = self {
            return write!(f, "{call}, board of {length} bytes");
        }
        write!(f, "{} ", self.name())?;
        match *self {
            Call::Update { client, revision, kind, bib, v } => {
                write!(f, "{client}/{revision} ")?;
                write_entry(f, kind, bib, v)
            }
            Call::Query { client, revision, bib } => write!(f, "{client}/{revision} bib {bib}"),
            Call::Yield { client } => write!(f, "{client}"),
            Call::Fork { revision } | Call::Fill { revision } | Call::Sync { revision } => {
                write!(f, "box {revision}")
            }
            Call::Join { joiner, joinee } => write!(f, "{joiner} with {joinee}"),
            Call::List { revision, room } => write!(f, "box {revision} room {room}"),
            Call::Bundle { client, revision, ref records } => {
                write!(f, "{client}/{revision}")?;
                write_records(f, records)
            }
            Call::Preview { joiner, joinee, bib } => write!(f, "{joiner} with {joinee} bib {bib}"),
            Call::Fresh { single_main: false } => f.write_str("ordinary"),
            Call::Fresh { single_main: true } => f.write_str("single-main"),
            Call::Mark { revision, ref name } => {
                write!(f, "box {revision} \"{}\"", name.escape_ascii())
            }
            Call::Drop { ref name } => write!(f, "\"{}\"", name.escape_ascii()),
            Call::Verify { ref order } => write_order(f, order),
            Call::Bill { member: false } => f.write_str("ordinary"),
            Call::Bill { member: true } => f.write_str("member"),
            Call::OnBoard { .. } => unreachable!("written above"),
        }
    }
}

/// Kind, bib and argument of an entry.
fn write_entry(f: &mut fmt::Formatter<'_>, kind: u8, bib: u16, v: u32) -> fmt::Result {
    match KINDS.get(usize::from(kind).wrapping_sub(1)) {
        Some(name) => f.write_str(name)?,
        None => write!(f, "{kind}")?,
    }
    write!(f, " bib {bib}")?;
    if kind == STRIKE && v == 0 {
        return Ok(());
    }
    write!(f, " {v}")
}

/// Each record; where a client or number stands in one, that too. Then how many bytes are left over.
fn write_records(f: &mut fmt::Formatter<'_>, records: &[u8]) -> fmt::Result {
    let (whole, rest) = records.as_chunks();
    for &record in whole {
        let Line { kind, client, bib, v, number } = Line::from_bytes(record);
        f.write_str(", ")?;
        write_entry(f, kind, bib, v)?;
        if (client, number) != (0, 0) {
            write!(f, " (tablet {client}, number {number})")?;
        }
    }
    match rest.len() {
        0 => Ok(()),
        left => write!(f, ", {left} bytes"),
    }
}

/// The numbers, if they stand right behind the header; else the bytes.
fn write_order(f: &mut fmt::Formatter<'_>, order: &[u8]) -> fmt::Result {
    let numbers: Vec<u16> = match order.split_at_checked(8) {
        Some((_, numbers)) => {
            numbers.as_chunks().0.iter().map(|&n| u16::from_le_bytes(n)).collect()
        }
        None => Vec::new(),
    };
    if order_file(&numbers) == order {
        write!(f, "order {numbers:?}")
    } else {
        write!(f, "bytes {order:?}")
    }
}

#[cfg(test)]
mod tests {
    use super::*;

    #[test]
    fn calls_are_written_as_in_the_example_of_01() {
        let update = |kind, v| Call::Update { client: 0, revision: 1, kind, bib: 7, v };
        let written = [
            (update(1, 61000), "update 0/1 Time bib 7 61000"),
            (update(4, 0), "update 0/1 Strike bib 7"),
            (update(4, 5), "update 0/1 Strike bib 7 5"),
            (update(0, 0), "update 0/1 0 bib 7 0"),
            (update(5, 1), "update 0/1 5 bib 7 1"),
            (Call::Query { client: 1, revision: 0, bib: 7 }, "query 1/0 bib 7"),
            (Call::Yield { client: 1 }, "yield 1"),
            (Call::Fork { revision: 0 }, "fork box 0"),
            (Call::Join { joiner: 0, joinee: 1 }, "join 0 with 1"),
            (Call::List { revision: 2, room: 12 }, "list box 2 room 12"),
            (Call::Fill { revision: 63 }, "fill box 63"),
            (Call::Preview { joiner: 0, joinee: 1, bib: 7 }, "preview 0 with 1 bib 7"),
            (Call::Fresh { single_main: false }, "fresh ordinary"),
            (Call::Fresh { single_main: true }, "fresh single-main"),
            (Call::Sync { revision: 5 }, "sync box 5"),
            (Call::Mark { revision: 5, name: b"JURY".into() }, "mark box 5 \"JURY\""),
            (Call::Mark { revision: 0, name: vec![] }, "mark box 0 \"\""),
            (Call::Drop { name: b"JURY".into() }, "drop \"JURY\""),
            (Call::Drop { name: b"a\"\xff".into() }, r#"drop "a\"\xff""#),
            (
                Call::OnBoard { length: 4_999, call: Box::new(Call::Yield { client: 1 }) },
                "yield 1, board of 4999 bytes",
            ),
            (Call::Verify { order: order_file(&[0, 4_095]) }, "verify order [0, 4095]"),
            (Call::Verify { order: vec![1, 2] }, "verify bytes [1, 2]"),
            (Call::Bill { member: false }, "bill ordinary"),
            (Call::Bill { member: true }, "bill member"),
            (
                Call::Verify { order: [order_file(&[]), vec![9]].concat() },
                "verify bytes [0, 0, 0, 0, 8, 0, 0, 0, 9]",
            ),
        ];
        for (call, text) in written {
            assert_eq!(call.to_string(), text);
        }
    }

    #[test]
    fn bundles_are_written_with_their_records() {
        let line = |kind, client, number| Line { kind, client, bib: 7, v: 5, number }.to_bytes();
        let bundle =
            |records: &[u8]| Call::Bundle { client: 2, revision: 3, records: records.into() };
        let records = [line(1, 0, 0), line(4, 0, 0), line(9, 15, 8)].concat();
        let written = [
            (bundle(&[]), "bundle 2/3"),
            (bundle(&records[..12]), "bundle 2/3, Time bib 7 5"),
            (bundle(&records[..23]), "bundle 2/3, Time bib 7 5, 11 bytes"),
            (
                bundle(&records),
                "bundle 2/3, Time bib 7 5, Strike bib 7 5, 9 bib 7 5 (tablet 15, number 8)",
            ),
        ];
        for (call, text) in written {
            assert_eq!(call.to_string(), text);
        }
    }
}
