//! The days with marks meet what they are for.

use std::collections::BTreeMap;

use calls::{Answer, Call, Code};
use literal::{Day, Revision, Transaction};

use super::KINDS;

/// What the days met, each by name and how often.
#[derive(Default)]
struct Met {
    times: BTreeMap<&'static str, usize>,
    /// The names that were dropped since fresh.
    dropped: Vec<Vec<u8>>,
}

impl Met {
    fn note(&mut self, what: &'static str, met: bool) {
        *self.times.entry(what).or_default() += usize::from(met);
    }

    /// A call, with the day before it.
    fn call(&mut self, day: &Day, call: &Call, answer: &Answer) {
        let code = answer.code;
        let taken = code == Code::Accepted;
        match call {
            Call::Mark { revision, name } => self.mark(day, *revision, name, code),
            Call::Drop { name } => self.drop(name, code),
            Call::Fork { revision } => {
                let of_mark = taken && is_marked(day, *revision);
                self.note("a fork of a mark", of_mark);
                let [mark, main] = [*revision, 0].map(|number| shown(day, number));
                self.note("a fork of a mark that shows less than box 0", of_mark && mark < main);
            }
            Call::Join { joiner, joinee } => self.join(day, *joiner, *joinee, code),
            Call::List { revision, .. } => {
                self.note("a list of a mark", taken && is_marked(day, *revision));
            }
            Call::Fresh { .. } => {
                self.note("a fresh with marks out", day.revisions().iter().any(is_mark));
                self.dropped.clear();
            }
            _ => {}
        }
        let marked = code == Code::Marked;
        self.note("16 of an update", marked && call.name() == "update");
        self.note("16 of a query", marked && call.name() == "query");
        self.note("16 of a bundle", marked && call.name() == "bundle");
        self.note("16 of a preview", marked && call.name() == "preview");
        self.note("16 of a sync", marked && call.name() == "sync");
    }

    fn mark(&mut self, day: &Day, revision: u8, name: &[u8], code: Code) {
        let taken = code == Code::Accepted;
        self.note("a mark of a mark", taken && is_marked(day, revision));
        let again = self.dropped.iter().any(|dropped| dropped == name);
        self.note("a name that was dropped is used again", taken && again);
        let bad = code == Code::BadName;
        self.note("17 for no letter", bad && name.is_empty());
        self.note("17 for three letters", bad && name.len() == 3);
        self.note("17 for five letters", bad && name.len() == 5);
        let lower = name.len() == 4 && name.iter().any(u8::is_ascii_lowercase);
        self.note("17 for lower-case letters", bad && lower);
        let good = four_letters(name);
        self.note("17 for a name in use", bad && good);
        self.note("7 of a mark with an ill-formed name", code == Code::InUse && !good);
        self.note("10 of a mark with an ill-formed name", code == Code::NoneLeft && !good);
        self.note("15 of a mark of box 0", code == Code::OffTheLine && revision == 0);
    }

    fn drop(&mut self, name: &[u8], code: Code) {
        let taken = code == Code::Accepted;
        self.note("a drop", taken);
        let good = four_letters(name);
        self.note("18 for an ill-formed name", !taken && !good);
        self.note("18 for a name that no mark has", !taken && good);
        let again = self.dropped.iter().any(|dropped| dropped == name);
        self.note("18 for a name that was dropped", !taken && again);
        if taken {
            self.dropped.push(name.to_vec());
        }
    }

    fn join(&mut self, day: &Day, joiner: u8, joinee: u8, code: Code) {
        let marked = code == Code::Marked;
        self.note("16 of a join for the joiner", marked && is_marked(day, joiner));
        self.note("16 of a join for the joinee", marked && is_marked(day, joinee));
        let busy = [joiner, joinee].into_iter().any(|number| {
            let open = |t: &Transaction| t.is_open() && day.meant(number) == Some(t.revision);
            day.transactions().iter().any(open)
        });
        self.note("16 of a join while the other box is busy", marked && busy);
        let came = came_of_a_mark(day, joinee);
        self.note("a join of what came of a mark", code == Code::Accepted && came);
        let refused = code == Code::NotJoinable && joiner == 0;
        self.note("11 for box 0 and what came of a mark", refused && came);
    }
}

fn four_letters(name: &[u8]) -> bool {
    name.len() == 4 && name.iter().all(u8::is_ascii_uppercase)
}

/// How many updates are visible on the box that a number means.
fn shown(day: &Day, number: u8) -> usize {
    day.meant(number).map_or(0, |revision| day.visible(revision).len())
}

fn revision_of(day: &Day, number: u8) -> Option<Revision> {
    day.meant(number).map(|revision| day.revisions()[revision])
}

/// Whether a revision is a mark that is out.
fn is_mark(revision: &Revision) -> bool {
    revision.out && revision.mark.is_some()
}

fn is_marked(day: &Day, number: u8) -> bool {
    revision_of(day, number).is_some_and(|revision| is_mark(&revision))
}

/// Whether a mark forked the box that a number means.
fn came_of_a_mark(day: &Day, number: u8) -> bool {
    let start = revision_of(day, number).map(|revision| revision.start);
    let fork = start.and_then(|start| day.diagram().f_edge(start));
    fork.is_some_and(|fork| day.revisions()[day.revision_of(fork)].mark.is_some())
}

#[test]
fn days_with_marks_meet_what_they_are_for() {
    let mut met = Met::default();
    for sample in KINDS.into_iter().flat_map(|(kind, count)| kind.days(0..count)) {
        met.dropped.clear();
        let (mut day, mut table) = (Day::fresh(), baseline::Day::fresh());
        for call in &sample.calls {
            met.call(&day, call, &table.call(call));
            day.call(call);
        }
    }
    let times = met.times;
    assert_eq!(times.len(), 28, "{times:#?}");
    assert!(times.values().all(|&times| times >= 30), "{times:#?}");
}
