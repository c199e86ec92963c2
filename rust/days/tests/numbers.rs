//! 02, U7, on random days: which number a fork gives and what a number means, by the order of the
//! hand-ins. And the days reach what they are for.

use std::collections::BTreeMap;

use calls::{Answer, Call, Code, REVISIONS};
use days::{chains_of_joins, fault_of_numbers, must_pass, one_in, seeds, Profile, Sample};
use literal::{Day, Revision, VertexId};

/// The kinds of day on which numbers are borne many times.
const REUSED: [Profile; 3] = [Profile::REUSED, Profile::REUSED_NESTED, Profile::CROWDED];

/// By the literal replay, and by the baseline.
fn by_either(calls: &[Call]) -> Option<String> {
    fault_of_numbers(Day::fresh(), calls, Day::call)
        .or_else(|| fault_of_numbers(baseline::Day::fresh(), calls, baseline::Day::call))
}

#[test]
fn numbers_go_by_the_order_of_the_hand_ins() {
    must_pass(one_in(2), by_either);
    must_pass(Profile::SMALL_REUSED.days(seeds(60)), by_either);
    must_pass(Profile::SMALL_MARKED.days(seeds(200)), by_either);
    must_pass(chains_of_joins(seeds(30)), by_either);
}

/// What a day of reused numbers met, each by name and how often.
#[derive(Default)]
struct Met {
    /// The numbers joined or dropped and not used again, the one that was longest ago first.
    free: Vec<u8>,
    /// Those of them that were dropped.
    dropped: Vec<u8>,
    forks: usize,
    /// Code 10 was given, and no fork was accepted since.
    full: bool,
    times: BTreeMap<&'static str, usize>,
}

impl Met {
    fn of(calls: &[Call]) -> Self {
        let mut met = Met::default();
        let (mut day, mut table) = (Day::fresh(), baseline::Day::fresh());
        for call in calls {
            let answer = table.call(call);
            met.call(&day, call, &answer);
            assert_eq!(day.call(call), answer);
        }
        met
    }

    fn note(&mut self, what: &'static str, met: bool) {
        *self.times.entry(what).or_default() += usize::from(met);
    }

    /// A call, with the day before it.
    fn call(&mut self, day: &Day, call: &Call, answer: &Answer) {
        let &Answer { code, value, .. } = answer;
        let accepted = code == Code::Accepted;
        match *call {
            Call::Fork { revision } => match code {
                Code::Accepted => self.forked(day, revision, value as u8),
                _ => self.full |= code == Code::NoneLeft,
            },
            Call::Join { joiner, joinee } => match code {
                Code::Accepted => self.joined(day, joinee),
                Code::NotJoinable => self.refused(day, joiner, joinee),
                _ => {}
            },
            Call::Update { client, revision, .. } | Call::Query { client, revision, .. } => {
                self.entered(day, client, revision, code);
            }
            Call::List { revision, .. } => self.on("lists", day, accepted, revision),
            Call::Fill { revision } => self.on("fills", day, accepted, revision),
            Call::Bundle { revision, .. } => self.on("bundles", day, accepted, revision),
            Call::Preview { joinee, .. } => self.on("previews", day, accepted, joinee),
            Call::Sync { revision } => match code {
                Code::Accepted => self.synced(day, revision, value as u8),
                Code::NotJoinable => self.refused(day, 0, revision),
                _ => {}
            },
            Call::Mark { revision, .. } if accepted => self.marked(day, revision, value as u8),
            Call::Drop { ref name } if accepted => self.dropped(day, name),
            Call::Mark { .. } | Call::Drop { .. } | Call::Yield { .. } | Call::Verify { .. } => {}
            Call::Bill { .. } | Call::OnBoard { .. } => {}
            Call::Fresh { .. } => unreachable!("a day on reused numbers is one day"),
        }
    }
}

/// Whether the revision that a number means is not the first that bore it.
fn reused(day: &Day, number: u8) -> bool {
    day.meant(number).is_some_and(|revision| revision >= usize::from(REVISIONS))
}

/// The revisions that bore a number before the one that it means.
fn earlier(day: &Day, number: u8) -> impl Iterator<Item = usize> + '_ {
    let meant = day.meant(number).unwrap_or(0);
    (0..meant).filter(move |&revision| day.number_of(revision) == number)
}

/// A client's last event, and where it is.
fn last_event(day: &Day, client: u8) -> Option<(VertexId, usize)> {
    let mut transactions = day.transactions().iter().rev();
    let last = transactions.find(|t| t.client == usize::from(client))?;
    Some((*last.events.last()?, last.revision))
}

impl Met {
    fn on(&mut self, what: &'static str, day: &Day, accepted: bool, number: u8) {
        self.note(what, accepted && reused(day, number));
    }

    fn forked(&mut self, before: &Day, forker: u8, number: u8) {
        let smallest = self.free.iter().min() == Some(&number);
        let used = self.free.contains(&number);
        let out = before.revisions().iter().filter(|revision| revision.out).count();
        self.note("a never-used number while others are free", !used && !self.free.is_empty());
        self.note("a number that is not the smallest free one", used && !smallest);
        self.note("a number handed in before others", used && self.free.len() > 1);
        self.note("the only free number", used && out == usize::from(REVISIONS) - 1);
        self.note("a fork once one is handed in after code 10", self.full);
        self.note("a third bearer", used && earlier(before, number).count() >= 1);
        self.note("a fork of a reused number", reused(before, forker));
        let dropped = self.dropped.contains(&number);
        self.note("a number dropped before others were joined", dropped && self.free.len() > 1);
        self.full = false;
        self.forks += 1;
        self.free.retain(|&free| free != number);
        self.dropped.retain(|&free| free != number);
    }

    fn joined(&mut self, before: &Day, joinee: u8) {
        self.free.push(joinee);
        let meant = before.meant(joinee).unwrap();
        self.note("a reused number handed in again", reused(before, joinee));
        self.note("a revision that was out for 100 forks", before.revisions().len() - meant > 100);
    }

    fn synced(&mut self, before: &Day, revision: u8, number: u8) {
        self.joined(before, revision);
        let mut joined = before.clone();
        joined.call(&Call::Join { joiner: 0, joinee: revision });
        self.forked(&joined, 0, number);
        self.note("a sync that gives the number it was given", number == revision);
        self.note("a sync that gives another number", number != revision);
    }

    fn marked(&mut self, before: &Day, forker: u8, number: u8) {
        self.note("a mark that takes a number joined before", self.free.contains(&number));
        self.forked(before, forker, number);
    }

    fn dropped(&mut self, before: &Day, name: &[u8]) {
        let borne = |revision: &Revision| revision.mark.is_some_and(|mark| mark[..] == *name);
        let revision = before.revisions().iter().rposition(borne).unwrap();
        let number = before.number_of(revision);
        self.note("a drop behind other hand-ins", !self.free.is_empty());
        self.note("a drop of a reused number", reused(before, number));
        self.free.push(number);
        self.dropped.push(number);
    }

    /// A stale flag of the joiner would have let it join.
    fn refused(&mut self, before: &Day, joiner: u8, joinee: u8) {
        let terminal = before.revisions()[before.meant(joiner).unwrap()].terminal;
        let diagram = before.diagram();
        let joinable = |earlier: usize| {
            let start = before.revisions()[earlier].start;
            let fork = diagram.f_edge(start).unwrap();
            diagram.leads(fork, terminal) && !diagram.leads(start, terminal)
        };
        let stale = joiner != joinee && joinee != 0 && earlier(before, joinee).any(joinable);
        self.note("11 where an earlier bearer was joinable", stale);
    }

    fn entered(&mut self, before: &Day, client: u8, number: u8, code: Code) {
        let accepted = code == Code::Accepted;
        self.note("updates and queries", accepted && reused(before, number));
        let Some((event, place)) = last_event(before, client) else { return };
        let caught =
            |earlier: usize| before.diagram().leads(event, before.revisions()[earlier].terminal);
        let stale = code == Code::Stale && earlier(before, number).any(caught);
        self.note("8 where a client had caught up with an earlier bearer", stale);
        let bearer = before.number_of(place);
        let meant = before.meant(bearer).unwrap();
        let borne_again = meant != place && before.revisions()[meant].out;
        self.note("taken, its client's last event on an earlier bearer", accepted && borne_again);
        let stale = code == Code::Stale && borne_again;
        self.note("refused, its client's last event on an earlier bearer", stale);
    }
}

/// What some days met, all together.
fn tally(days: impl Iterator<Item = Sample>, forks: usize) -> BTreeMap<&'static str, usize> {
    let mut times = BTreeMap::new();
    for day in days {
        let met = Met::of(&day.calls);
        assert!(met.forks >= forks, "{day}: {} forks", met.forks);
        met.times.into_iter().for_each(|(what, met)| *times.entry(what).or_default() += met);
    }
    times
}

/// Each day of these kinds has 500 forks at least, and the days meet both cases of the rule and all
/// that an earlier bearer could spoil.
#[test]
fn days_on_reused_numbers_meet_what_they_are_for() {
    let times = tally(REUSED.into_iter().flat_map(|kind| kind.days(0..12)), 500);
    assert_eq!(times.len(), 24);
    assert!(times.values().all(|&met| met >= 80), "{times:#?}");
}

/// The small ones begin with all numbers given out.
#[test]
fn small_days_on_reused_numbers_meet_what_they_are_for() {
    let mut times = tally(Profile::SMALL_REUSED.days(0..300), 63);
    for long in
        ["a never-used number while others are free", "a revision that was out for 100 forks"]
    {
        assert_eq!(times.remove(long), Some(0), "{long}");
    }
    assert!(times.values().all(|&met| met >= 5), "{times:#?}");
}
