//! The meeting: a day of 20,100 forks, which the program `meeting` runs too. Its output is compared
//! with what each implementation makes of it here.
//!
//! In each round a box is sent off that sends off a box, which sends off a third. The third gets an
//! update and comes back at once, the others up to 20 rounds later. So every number is borne some
//! three hundred times, and half of the time a tablet's last event is on an earlier bearer. The box
//! numbers of the calls are those that the forks answered.

use std::fmt::Write;

use calls::{Answer, Call, Code, BIBS, CLIENTS};

/// Three forks each.
const ROUNDS: usize = 6_700;
/// A box stays out for so many rounds.
const LATE: usize = 20;
/// What it did so far is printed after so many rounds.
const EVERY: usize = 100;
/// The length of the sheet.
const ROOM: usize = 65_536;

/// The output of the meeting, with its calls made by `make` on a fresh table.
pub fn meeting(make: impl FnMut(&Call) -> Answer) -> String {
    let mut meeting = Meeting {
        make,
        sent: [0; LATE],
        nested: [0; LATE],
        forks: 0,
        joins: 0,
        updates: 0,
        sum: 0,
        text: String::new(),
    };
    for round in 0..ROUNDS {
        let a = meeting.round(round);
        if (round + 1).is_multiple_of(EVERY) {
            meeting.print(round, a);
        }
    }
    meeting.text
}

struct Meeting<F> {
    make: F,
    /// The boxes that are out, by the round in which they come back; 0 is none.
    sent: [u8; LATE],
    /// The boxes that those sent off.
    nested: [u8; LATE],
    /// How many were accepted.
    forks: usize,
    joins: usize,
    updates: usize,
    /// Of all codes and values but those that are printed.
    sum: u64,
    text: String,
}

/// The bib of a round.
fn bib(round: usize) -> u16 {
    (round % usize::from(BIBS)) as u16
}

impl<F: FnMut(&Call) -> Answer> Meeting<F> {
    /// Makes the call, and counts its answer; its value.
    fn call(&mut self, call: Call) -> u32 {
        let Answer { code, value, .. } = (self.make)(&call);
        let taken = usize::from(code == Code::Accepted);
        match call {
            Call::Fork { .. } => self.forks += taken,
            Call::Join { .. } => self.joins += taken,
            Call::Update { .. } => self.updates += taken,
            _ => {}
        }
        let term = u64::from(code.number()) * 101 + u64::from(value);
        self.sum = (self.sum * 31 + term) % 1_000_003;
        value
    }

    fn fork(&mut self, revision: u8) -> u8 {
        self.call(Call::Fork { revision }) as u8
    }

    fn join(&mut self, joiner: u8, joinee: u8) {
        self.call(Call::Join { joiner, joinee });
    }

    /// The box that was sent off from box 0.
    fn round(&mut self, i: usize) -> u8 {
        let a = self.fork(0);
        let b = self.fork(a);
        let d = self.fork(b);
        let client = (i % usize::from(CLIENTS)) as u8;
        let bib = bib(i);
        self.call(Call::Update { client, revision: d, kind: 1, bib, v: i as u32 });
        self.call(Call::Yield { client });
        // Eight rounds after its update, or before its next.
        let client = (client + 8) % CLIENTS;
        self.call(Call::Query { client, revision: 0, bib });
        self.call(Call::Yield { client });
        self.join(b, d);
        let joined = i.is_multiple_of(3);
        if joined {
            self.join(a, b);
        }
        let slot = i % LATE;
        for late in [self.sent[slot], self.nested[slot]] {
            if late != 0 {
                self.join(0, late);
            }
        }
        self.sent[slot] = a;
        self.nested[slot] = if joined { 0 } else { b };
        a
    }

    /// What was done so far; then what calls that only look tell of box 0 and of box a.
    fn print(&mut self, i: usize, a: u8) {
        let Meeting { forks, joins, updates, sum, .. } = self;
        let done = format!("forks {forks} joins {joins} updates {updates} sum {sum}");
        self.put(format!("rounds {} {done}", i + 1));
        let mut look = |call: Call| (self.make)(&call);
        let [all, own] = [0, a].map(|revision| look(Call::List { revision, room: ROOM }));
        let fill = look(Call::Fill { revision: a });
        let preview = look(Call::Preview { joiner: 0, joinee: a, bib: bib(i) });
        let told = |answer: &Answer| format!("{} {}", answer.code.number(), answer.value);
        self.put(format!("list {}", told(&all)));
        self.put(format!("fill {} {}", told(&fill), fill.total));
        self.put(format!("preview {} {}", told(&preview), preview.gain));
        self.put(format!("list {}", told(&own)));
    }

    fn put(&mut self, line: String) {
        // Writing to a string does not fail.
        let _ = writeln!(self.text, "{line}");
    }
}
