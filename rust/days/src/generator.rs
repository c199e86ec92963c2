//! Random days. The generator knows no rule of the table: it keeps a picture of the day from the
//! answers alone and picks calls that are likely to be accepted, and some that are not.

use std::collections::BTreeMap;

use calls::{Answer, Call, Code, Line, BOARD, CLIENTS, REVISIONS, SHEET, UPDATES};

use crate::profile::Profile;
use crate::rng::Rng;

/// A random day: its calls, picked by the answers of the baseline.
pub fn random_day(profile: &Profile, seed: u64) -> Vec<Call> {
    let mut generator = Generator::new(profile, seed);
    let count = profile.calls / 2 + generator.rng.below(profile.calls / 2 + 1);
    generator.begin();
    for _ in 0..count {
        let call = generator.pick();
        generator.make(call);
    }
    generator.calls
}

/// The day so far, and what the answers told.
pub(crate) struct Generator<'a> {
    pub(crate) profile: &'a Profile,
    pub(crate) rng: Rng,
    /// For boards of wrong lengths: the other calls of a day are the same without them.
    boards: Rng,
    /// For bills, likewise.
    bills: Rng,
    day: baseline::Day,
    calls: Vec<Call>,
    /// The revisions that are out, in the order of their starts.
    pub(crate) out: Vec<u8>,
    /// How many numbers were given out.
    pub(crate) given: usize,
    /// Who forked the latest revision of each number, or took over the one that did.
    pub(crate) forker: [u8; REVISIONS as usize],
    /// The marks that are out: their numbers and names.
    pub(crate) marks: BTreeMap<u8, Vec<u8>>,
    /// The revision of each client's open transaction.
    open: [Option<u8>; CLIENTS as usize],
    /// Where each client was last, or who took that over.
    pub(crate) last: [u8; CLIENTS as usize],
    pub(crate) updates: usize,
    /// So many updates the table may have.
    pub(crate) most: usize,
    /// The numbers that are out, and the updates of each, as they stand in one arbitration order.
    pub(crate) row: Vec<u8>,
    pub(crate) own: [Vec<u16>; REVISIONS as usize],
    /// What was picked together with the call before it.
    pub(crate) next: Option<Call>,
}

/// Picks a call of some name.
type Pick<'a> = fn(&mut Generator<'a>) -> Call;

impl<'a> Generator<'a> {
    pub(crate) fn new(profile: &'a Profile, seed: u64) -> Self {
        Generator {
            profile,
            rng: Rng::new(seed),
            boards: Rng::new(!seed),
            bills: Rng::new(!seed.rotate_left(32)),
            day: baseline::Day::fresh(),
            calls: Vec::new(),
            out: vec![0],
            given: 1,
            forker: [0; REVISIONS as usize],
            marks: BTreeMap::new(),
            open: [None; CLIENTS as usize],
            last: [0; CLIENTS as usize],
            updates: 0,
            most: UPDATES,
            row: vec![0],
            own: [const { Vec::new() }; REVISIONS as usize],
            next: None,
        }
    }

    /// Makes a call, with what comes around it.
    pub(crate) fn make(&mut self, call: Call) {
        self.around(call).into_iter().for_each(|call| self.made(call));
    }

    /// The call; now and then one that takes a board with a wrong one before it, and a bill after it.
    pub(crate) fn around(&mut self, call: Call) -> Vec<Call> {
        let often = match call {
            Call::Fresh { .. } => 20,
            Call::Bundle { .. } => 10,
            _ => 2,
        };
        let mut calls = Vec::new();
        if call.takes_a_board() && self.boards.percent(often) {
            // With the right length it would be taken, and the day's own board left out of date.
            let any = Some(self.boards.below(2 * BOARD)).filter(|&any| any != BOARD).unwrap_or(2);
            let length = self.boards.pick(&[0, 1, BOARD - 1, BOARD + 1, any]);
            calls.push(Call::OnBoard { length, call: Box::new(call.clone()) });
        }
        calls.push(call);
        if self.bills.percent(4) {
            calls.push(Call::Bill { member: self.bills.percent(50) });
        }
        calls
    }

    fn made(&mut self, call: Call) {
        let answer = self.day.call(&call);
        self.learn(&call, &answer);
        self.calls.push(call);
    }

    pub(crate) fn learn(&mut self, call: &Call, answer: &Answer) {
        if answer.code != Code::Accepted {
            return;
        }
        match *call {
            Call::Update { client, revision, .. } => {
                self.entered(client, revision);
                self.took(revision, 1);
            }
            Call::Query { client, revision, .. } => self.entered(client, revision),
            Call::Yield { client } => self.open[usize::from(client)] = None,
            Call::Fork { revision } => self.forked(revision, answer.value as u8),
            Call::Join { joiner, joinee } => self.joined(joiner, joinee),
            Call::Sync { revision } => {
                self.joined(0, revision);
                self.forked(0, answer.value as u8);
            }
            Call::Bundle { client, revision, ref records } => {
                self.entered(client, revision);
                self.open[usize::from(client)] = None;
                self.took(revision, records.len() / Line::BYTES);
            }
            Call::Fresh { .. } => self.renewed(),
            Call::Mark { revision, ref name } => {
                self.forked(revision, answer.value as u8);
                self.marks.insert(answer.value as u8, name.clone());
            }
            Call::Drop { ref name } => self.dropped(name),
            Call::List { .. } | Call::Fill { .. } | Call::Preview { .. } => {}
            Call::Verify { .. } | Call::Bill { .. } | Call::OnBoard { .. } => {}
        }
    }

    fn entered(&mut self, client: u8, revision: u8) {
        self.open[usize::from(client)] = Some(revision);
        self.last[usize::from(client)] = revision;
    }

    fn took(&mut self, revision: u8, count: usize) {
        let numbers = self.updates..self.updates + count;
        self.own[usize::from(revision)].extend(numbers.map(|number| number as u16));
        self.updates += count;
    }

    fn forked(&mut self, forker: u8, number: u8) {
        self.out.push(number);
        let place = self.row.iter().position(|&other| other == forker);
        self.row.insert(place.map_or(0, |place| place + 1), number);
        self.forker[usize::from(number)] = forker;
        self.given = self.given.max(usize::from(number) + 1);
    }

    fn joined(&mut self, joiner: u8, joinee: u8) {
        self.handed_in(joinee);
        let gained = std::mem::take(&mut self.own[usize::from(joinee)]);
        self.own[usize::from(joiner)].extend(gained);
        let moved = self.last.iter_mut().chain(&mut self.forker);
        moved.filter(|revision| **revision == joinee).for_each(|place| *place = joiner);
    }

    fn dropped(&mut self, name: &[u8]) {
        let mut marks = self.marks.iter();
        if let Some((&number, _)) = marks.find(|(_, borne)| *borne == name) {
            self.marks.remove(&number);
            self.handed_in(number);
        }
    }

    fn handed_in(&mut self, number: u8) {
        self.out.retain(|&revision| revision != number);
        self.row.retain(|&revision| revision != number);
    }

    /// What the answers told was of the day before.
    fn renewed(&mut self) {
        let fresh = Generator::new(self.profile, 0);
        (self.out, self.given, self.forker) = (fresh.out, fresh.given, fresh.forker);
        (self.open, self.last, self.updates) = (fresh.open, fresh.last, fresh.updates);
        (self.row, self.own, self.marks) = (fresh.row, fresh.own, fresh.marks);
    }

    pub(crate) fn pick(&mut self) -> Call {
        if let Some(call) = self.next.take() {
            return call;
        }
        if self.profile.renewed > 0 && self.rng.percent(self.profile.renewed) {
            return Call::Fresh { single_main: self.rng.percent(50) };
        }
        let call = self.likely();
        if self.rng.percent(self.profile.strange) {
            self.spoilt(call)
        } else {
            call
        }
    }

    /// A call with numbers in range. Where one that is picked may not be made, the next is.
    fn likely(&mut self) -> Call {
        let w = self.profile.weights;
        let (start, fork) = (self.may_start(), self.may_fork());
        let yields = |generator: &mut Self| Call::Yield { client: generator.client() };
        let picks: [(usize, bool, Pick<'a>); 13] = [
            (w.update, true, Self::update),
            (w.query, true, Self::query),
            (w.yields, true, yields),
            (w.fork, fork, Self::fork),
            (w.join, true, Self::join),
            (w.sync, start, Self::sync),
            (w.mark, fork, Self::mark),
            (w.drop, true, Self::drop_mark),
            (w.list, true, Self::list),
            (w.bundle, true, Self::bundle),
            (w.preview, true, Self::preview),
            (w.fill, true, Self::fill),
            (w.verify, true, Self::verify),
        ];
        let mut at = self.rng.below(picks.iter().map(|(weight, ..)| weight).sum());
        for (weight, allowed, pick) in picks {
            if at < weight && allowed {
                return pick(self);
            }
            at = at.saturating_sub(weight);
        }
        self.fill()
    }

    fn may_fork(&self) -> bool {
        self.may_start() && self.out.len() < self.profile.out
    }

    fn may_start(&self) -> bool {
        self.given < self.profile.revisions
    }

    pub(crate) fn client(&mut self) -> u8 {
        self.rng.below(usize::from(self.profile.clients)) as u8
    }

    /// Any of these revisions, or one of the newest, so that others stay out for long.
    fn any_of(&mut self, revisions: &[u8]) -> u8 {
        let near = self.profile.recent > 0 && self.rng.percent(self.profile.recent);
        let from = if near { revisions.len().saturating_sub(5) } else { 0 };
        self.rng.pick(&revisions[from..])
    }

    pub(crate) fn any_out(&mut self) -> u8 {
        let out = self.out.clone();
        self.any_of(&out)
    }

    /// The revisions that are out and not marked, in the order of their starts.
    pub(crate) fn unmarked(&self) -> Vec<u8> {
        let mut unmarked = self.out.clone();
        unmarked.retain(|revision| !self.marks.contains_key(revision));
        unmarked
    }

    pub(crate) fn any_unmarked(&mut self) -> u8 {
        let unmarked = self.unmarked();
        self.any_of(&unmarked)
    }

    /// For what marked revisions refuse: in most cases one that is not.
    pub(crate) fn likely_out(&mut self) -> u8 {
        if self.rng.percent(self.profile.to_marks) {
            self.any_out()
        } else {
            self.any_unmarked()
        }
    }

    /// Where a client goes on or starts.
    pub(crate) fn place(&mut self, client: u8) -> u8 {
        let at = usize::from(client);
        let here = self.open[at].unwrap_or(self.last[at]);
        let roam = match self.open[at] {
            Some(_) => self.profile.roam / 8,
            None => self.profile.roam,
        };
        if self.rng.percent(roam) || !self.out.contains(&here) {
            self.likely_out()
        } else {
            here
        }
    }

    pub(crate) fn bib(&mut self) -> u16 {
        self.rng.below(usize::from(self.profile.bibs)) as u16
    }

    pub(crate) fn update(&mut self) -> Call {
        let client = self.client();
        let revision = self.place(client);
        let (kind, bib, v) = self.entry();
        let call = Call::Update { client, revision, kind, bib, v };
        self.settled(Some(client), &[revision], call)
    }

    /// Kind, bib and argument of an update.
    pub(crate) fn entry(&mut self) -> (u8, u16, u32) {
        let kind = self.rng.pick(self.profile.kinds);
        let any = self.rng.bits() as u32;
        let small = self.rng.below(100_000) as u32;
        let v = self.rng.pick(&[0, 1, small, small, small, any, u32::MAX]);
        (kind, self.bib(), v)
    }

    fn query(&mut self) -> Call {
        let client = self.client();
        let revision = self.place(client);
        let call = Call::Query { client, revision, bib: self.bib() };
        self.settled(Some(client), &[revision], call)
    }

    /// In most cases, the yield of another client that keeps one of these revisions busy.
    pub(crate) fn settled(&mut self, caller: Option<u8>, revisions: &[u8], call: Call) -> Call {
        let busy = (0..CLIENTS).find(|&client| {
            let open = self.open[usize::from(client)];
            Some(client) != caller && open.is_some_and(|revision| revisions.contains(&revision))
        });
        match busy {
            Some(client) if self.rng.percent(self.profile.settle) => Call::Yield { client },
            _ => call,
        }
    }

    fn list(&mut self) -> Call {
        let revision = self.any_out();
        let some = Line::BYTES * self.rng.below(self.updates + 2);
        let room = self.rng.pick(&[SHEET, SHEET, some, some + Line::BYTES - 1]);
        self.settled(None, &[revision], Call::List { revision, room })
    }

    /// In most cases of a revision that is out, busy or not.
    fn fill(&mut self) -> Call {
        let out = self.any_out();
        let any = self.any_number();
        Call::Fill { revision: if self.rng.percent(75) { out } else { any } }
    }

    /// A number for a revision: one that was given out, one that is out no more, the first that was not
    /// given out, the first out of range, or any.
    pub(crate) fn any_number(&mut self) -> u8 {
        let given = self.rng.below(self.given) as u8;
        let mut gone: Vec<u8> = (0..self.given as u8).collect();
        gone.retain(|number| !self.out.contains(number));
        let gone = if gone.is_empty() { given } else { self.rng.pick(&gone) };
        let any = self.rng.bits() as u8;
        self.rng.pick(&[given, gone, gone, self.given as u8, REVISIONS, any])
    }
}
