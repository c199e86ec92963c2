//! How the generator picks forks, joins, syncs and previews, and what is marked.

use calls::{Call, BIBS};

use crate::generator::Generator;

impl Generator<'_> {
    pub(crate) fn fork(&mut self) -> Call {
        let revision = self.source();
        self.settled(None, &[revision], Call::Fork { revision })
    }

    /// What is forked or marked.
    pub(crate) fn source(&mut self) -> u8 {
        if !self.marks.is_empty() && self.rng.percent(self.profile.from_marks) {
            let marks: Vec<u8> = self.marks.keys().copied().collect();
            return self.rng.pick(&marks);
        }
        let newest = self.unmarked().last().copied().unwrap_or(0);
        let any = self.any_unmarked();
        let revision = if self.rng.percent(self.profile.newest) { newest } else { any };
        match self.profile.main > 0 && self.rng.percent(self.profile.main) {
            true => 0,
            false => revision,
        }
    }

    pub(crate) fn join(&mut self) -> Call {
        let (joiner, joinee) = self.pair();
        self.settled(None, &[joiner, joinee], Call::Join { joiner, joinee })
    }

    /// A joiner and a joinee: in most cases a revision with one that may take it over, else any two.
    fn pair(&mut self) -> (u8, u8) {
        let joinee = self.likely_out();
        let any = self.likely_out();
        let likely = self.rng.percent(self.profile.back);
        (if likely { self.taker(joinee) } else { any }, joinee)
    }

    /// The forker of a revision; of one that came from a mark, which joins none, the last revision that
    /// came from there too.
    fn taker(&self, joinee: u8) -> u8 {
        let forker = |revision: u8| self.forker[usize::from(revision)];
        let (from, unmarked) = (forker(joinee), self.unmarked());
        let beside = |&other: &u8| other != joinee && forker(other) == from;
        match unmarked.contains(&from) {
            true => from,
            false => unmarked.into_iter().rfind(beside).unwrap_or(from),
        }
    }

    /// A join of a revision with its forker, which is accepted where neither is in use.
    pub(crate) fn back(&mut self) -> Call {
        let joinee = self.rng.pick(&self.out[1..]);
        Call::Join { joiner: self.forker[usize::from(joinee)], joinee }
    }

    /// In most cases of a revision that came from the main one, else of any.
    pub(crate) fn sync(&mut self) -> Call {
        let mut sent = self.unmarked();
        sent.retain(|&revision| revision != 0 && self.forker[usize::from(revision)] == 0);
        let any = self.likely_out();
        let likely = !sent.is_empty() && self.rng.percent(80);
        let revision = if likely { self.rng.pick(&sent) } else { any };
        self.settled(None, &[0, revision], Call::Sync { revision })
    }

    /// In many cases of a revision that some client entered on last, with its forker; and the join
    /// comes next.
    pub(crate) fn preview(&mut self) -> Call {
        let entered = self.last[usize::from(self.client())];
        let (joiner, joinee) = match self.rng.percent(50) && self.out.contains(&entered) {
            true => (self.taker(entered), entered),
            false => self.pair(),
        };
        let strange = self.rng.pick(&[BIBS, u16::MAX]);
        let bib = if self.rng.percent(5) { strange } else { self.bib() };
        let call = Call::Preview { joiner, joinee, bib };
        let call = self.settled(None, &[joiner, joinee], call);
        if matches!(call, Call::Preview { .. }) && self.rng.percent(40) {
            self.next = Some(Call::Join { joiner, joinee });
        }
        call
    }
}
