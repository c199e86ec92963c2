//! 02, U8, on random days: a sync is the join into box 0 and the fork of it, and single-main days have
//! what is to be shown of them. And the days reach what they are for.

use std::collections::BTreeMap;

use calls::{Answer, Call, Code, BOARD, REVISIONS};
use days::{
    days_of, fault_of_syncs, must_find, must_pass, one_in, strange_code, unseen_by_a_start, Profile,
};
use literal::Day;

/// The kinds of single-main day, and how many days of each are replayed.
const KINDS: [(Profile, u64); 3] = [
    (Profile::SMALL_SINGLE_MAIN, 300),
    (Profile::SINGLE_MAIN, 100),
    (Profile::CROWDED_SINGLE_MAIN, 20),
];

#[test]
fn syncs_are_the_join_and_the_fork() {
    let by_baseline =
        |calls: &[Call]| fault_of_syncs(baseline::Day::fresh(), calls, baseline::Day::call);
    must_pass(one_in(4), by_baseline);
    must_pass(days_of(&KINDS), by_baseline);
}

/// "On these days show that 11 arises only with joinee 0, and that sync never meets 10."
#[test]
fn single_main_days_have_their_codes() {
    must_pass(days_of(&KINDS), strange_code);
    must_find("an ordinary day", Profile::NESTED.days(0..30), strange_code);
}

/// "anything yielded on a box before its taken sync is visible to every box that starts with that sync
/// or after it"
#[test]
fn what_was_synced_is_seen_by_later_starts() {
    must_pass(days_of(&KINDS), unseen_by_a_start);
    must_find("an ordinary day", Profile::NESTED.days(0..30), unseen_by_a_start);
}

/// Where cells lie: docs/CELLS.md.
const COUNT: usize = 39_424;
const OUT: usize = 39_826;
const SINGLE: usize = 40_084;

/// The bytes after three forks of the main revision, on an ordinary day.
fn three_forks() -> Vec<u8> {
    let mut day = baseline::Day::fresh();
    (0..3).for_each(|_| _ = day.call(&Call::Fork { revision: 0 }));
    day.bytes().to_vec()
}

/// Makes a call by the baseline; a refused one leaves every byte.
fn code(t: &mut [u8], call: &Call) -> Code {
    let before = t.to_vec();
    match baseline::call(t, &mut [0; BOARD], call) {
        Ok(_) => Code::Accepted,
        Err(code) => {
            assert!(*t == before, "`{call}` is refused and changes a byte");
            code
        }
    }
}

/// The choice is what its cell says, 0 or 1; any other byte there is no table, but to fresh.
#[test]
fn the_cell_of_the_choice() {
    let off = [
        Call::Fork { revision: 2 },
        Call::Join { joiner: 2, joinee: 1 },
        Call::Preview { joiner: 2, joinee: 1, bib: 7 },
    ];
    for choice in 0..=u8::MAX {
        let mut t = three_forks();
        t[SINGLE] = choice;
        let asked = |call: &Call| code(&mut t.clone(), call);
        let [of_two, of_sync] = match choice {
            0 => [Code::Accepted, Code::Accepted],
            1 => [Code::OffTheLine, Code::Accepted],
            _ => [Code::NoTable, Code::NoTable],
        };
        assert_eq!(off.each_ref().map(asked), [of_two; 3], "{choice}");
        assert_eq!(asked(&Call::Sync { revision: 2 }), of_sync, "{choice}");
        for single_main in [false, true] {
            let mut fresh = baseline::Day::fresh().bytes().to_vec();
            fresh[SINGLE] = u8::from(single_main);
            let mut renewed = t.clone();
            assert_eq!(code(&mut renewed, &Call::Fresh { single_main }), Code::Accepted);
            assert!(renewed == fresh, "{choice}");
        }
    }
}

/// On cells that no day made, a sync whose counts stop at their range is taken.
#[test]
fn a_sync_whose_counts_stop() {
    let sync = Call::Sync { revision: 1 };
    for counts in [[4_000, 96], [4_000, 97]] {
        let mut t = three_forks();
        for (revision, count) in counts.into_iter().enumerate() {
            t[COUNT + 2 * revision..][..2].copy_from_slice(&u16::to_le_bytes(count));
        }
        assert_eq!(code(&mut t, &sync), Code::Accepted, "{counts:?}");
    }
    let mut t = three_forks();
    t[OUT] = 1;
    assert_eq!(code(&mut t, &sync), Code::Accepted);
}

/// What the days met, each by name and how often.
#[derive(Default)]
struct Met(BTreeMap<&'static str, usize>);

impl Met {
    fn note(&mut self, what: &'static str, met: bool) {
        *self.0.entry(what).or_default() += usize::from(met);
    }

    /// A call, with the day before it.
    fn call(&mut self, day: &Day, call: &Call, answer: &Answer) {
        let off = answer.code == Code::OffTheLine;
        match *call {
            Call::Sync { revision } => self.sync(day, revision, answer),
            Call::Fork { revision } => {
                self.note("a fork off the line of a busy box", off && busy(day, revision));
                self.note("a fork off the line with 64 out", off && all_out(day));
            }
            Call::Join { joiner, joinee } => {
                self.note("a join off the line of a busy box", off && busy(day, joiner));
                self.note("a join of box 0 off the line", off && joinee == 0);
            }
            Call::Preview { bib, .. } => {
                self.note("a preview off the line of a strange bib", off && bib >= calls::BIBS);
            }
            Call::Fresh { single_main } => {
                let before = day.is_single_main();
                self.note("an ordinary day after a single-main one", before && !single_main);
                self.note("a single-main day after an ordinary one", !before && single_main);
            }
            _ => {}
        }
    }

    fn sync(&mut self, day: &Day, revision: u8, answer: &Answer) {
        let taken = answer.code == Code::Accepted;
        let own = day.meant(revision).map_or(0, |meant| day.own(meant).len());
        let single_main = day.is_single_main();
        self.note("a sync on an ordinary day", taken && !single_main);
        self.note("a sync on a single-main day", taken && single_main);
        self.note("a sync that brings updates", taken && own > 0);
        let all_given = day.meant(REVISIONS - 1).is_some();
        let other = answer.value != u32::from(revision);
        self.note("a sync while never-used numbers remain", taken && !all_given);
        self.note("a sync with 64 out", taken && all_out(day));
        self.note("a sync that gives another used number", taken && all_given && other);
        let in_use = answer.code == Code::InUse;
        self.note("a sync while box 0 is busy", in_use && busy(day, 0));
        self.note("a sync of a busy box", in_use && busy(day, revision));
        let refused = answer.code == Code::NotJoinable;
        self.note("a sync of box 0", refused && revision == 0);
        self.note("a sync of a box that box 0 has not seen", refused && revision != 0);
    }
}

/// Whether the box that a number means has an open transaction.
fn busy(day: &Day, number: u8) -> bool {
    let meant = day.meant(number);
    day.transactions().iter().any(|t| t.is_open() && Some(t.revision) == meant)
}

fn all_out(day: &Day) -> bool {
    day.revisions().iter().filter(|revision| revision.out).count() == usize::from(REVISIONS)
}

#[test]
fn syncs_and_codes_of_every_kind_are_met() {
    let mut met = Met::default();
    let kinds = [
        Profile::MIXED,
        Profile::FORKS,
        Profile::SINGLE_MAIN,
        Profile::CROWDED_SINGLE_MAIN,
        Profile::RENEWED,
    ];
    for sample in kinds.into_iter().flat_map(|kind| kind.days(0..200)) {
        let (mut day, mut table) = (Day::fresh(), baseline::Day::fresh());
        for call in &sample.calls {
            met.call(&day, call, &table.call(call));
            day.call(call);
        }
    }
    let Met(times) = met;
    assert_eq!(times.len(), 17, "{times:#?}");
    assert!(times.values().all(|&times| times >= 20), "{times:#?}");
}
