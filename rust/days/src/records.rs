//! How the generator makes the records of a bundle.

use calls::{Call, Line, BIBS, BUNDLE, CLIENTS};

use crate::generator::Generator;

impl Generator<'_> {
    /// 64 good entries of client 0 on the main revision.
    pub(crate) fn first(&mut self) -> Call {
        let records = (0..BUNDLE).flat_map(|_| self.line().to_bytes()).collect();
        Call::Bundle { client: 0, revision: 0, records }
    }

    /// Of most sizes that are right, and of some that are not.
    pub(crate) fn bundle(&mut self) -> Call {
        let client = self.client();
        let revision = self.place(client);
        let few = 1 + self.rng.below(6);
        let any = 1 + self.rng.below(BUNDLE);
        let mut counts = vec![1, few, few, few, few, any, any, BUNDLE - 1, BUNDLE, BUNDLE];
        // All that there is room for, and one more.
        let room = self.most - self.updates;
        counts
            .extend([room, room, room + 1].into_iter().filter(|room| (1..=BUNDLE).contains(room)));
        let count = self.rng.pick(&counts);
        let mut records = self.records(count);
        if self.rng.percent(8) {
            self.resized(&mut records);
        }
        let call = Call::Bundle { client, revision, records };
        self.settled(Some(client), &[revision], call)
    }

    /// More entries than there is room for, where that is fewer than 64. In many cases one of them is bad: the
    /// first that finds no room, one behind it, or one before it.
    pub(crate) fn overfull(&mut self) -> Call {
        let room = self.most - self.updates;
        let count = room + 1 + self.rng.below(BUNDLE - room);
        let client = self.client();
        let revision = self.place(client);
        let mut lines: Vec<Line> = (0..count).map(|_| self.line()).collect();
        if self.rng.percent(70) {
            let [before, behind] = [self.rng.below(room + 1), room + self.rng.below(count - room)];
            let place = self.rng.pick(&[room, behind, behind, before]);
            self.spoil(&mut lines[place]);
        }
        let records = lines.into_iter().flat_map(Line::to_bytes).collect();
        let call = Call::Bundle { client, revision, records };
        self.settled(Some(client), &[revision], call)
    }

    /// So many records; in some cases one of them, or two, with a bad kind or bib.
    fn records(&mut self, count: usize) -> Vec<u8> {
        let mut lines: Vec<Line> = (0..count).map(|_| self.line()).collect();
        while self.rng.percent(12) {
            let place = self.rng.below(count);
            self.spoil(&mut lines[place]);
        }
        lines.into_iter().flat_map(Line::to_bytes).collect()
    }

    /// A bad kind or bib, in most cases.
    fn spoil(&mut self, line: &mut Line) {
        let any = self.rng.bits();
        match self.rng.percent(50) {
            true => line.kind = self.rng.pick(&[0, 5, any as u8]),
            false => line.bib = self.rng.pick(&[BIBS, 1_024, any as u16]),
        }
    }

    /// Any client and number stand in the record.
    fn line(&mut self) -> Line {
        let (kind, bib, v) = self.entry();
        let any = self.rng.bits();
        let client = self.rng.pick(&[0, 3, CLIENTS - 1, CLIENTS, any as u8]);
        let number = self.rng.pick(&[0, 1, (any >> 32) as u32]);
        Line { kind, client, bib, v, number }
    }

    /// No record, 65 or more, or some bytes too few or too many.
    fn resized(&mut self, records: &mut Vec<u8>) {
        let one_more = (BUNDLE + 1) * Line::BYTES;
        let some = self.rng.below(one_more + Line::BYTES);
        let odd = (records.len() + self.rng.below(2 * Line::BYTES)).saturating_sub(Line::BYTES);
        let most = 256 * Line::BYTES;
        let length = self.rng.pick(&[0, one_more, one_more, odd, odd, some, most]);
        while records.len() < length {
            records.extend(self.line().to_bytes());
        }
        records.truncate(length);
    }
}
