//! Kinds of day: what a random day is mostly made of.

use calls::{BIBS, CLIENTS, REVISIONS};

/// How often each call is tried, against the others.
#[derive(Clone, Copy, Debug)]
pub struct Weights {
    /// Updates.
    pub update: usize,
    /// Queries.
    pub query: usize,
    /// Yields.
    pub yields: usize,
    /// Forks.
    pub fork: usize,
    /// Joins.
    pub join: usize,
    /// Lists.
    pub list: usize,
    /// Fills.
    pub fill: usize,
    /// Bundles.
    pub bundle: usize,
    /// Previews.
    pub preview: usize,
    /// Syncs.
    pub sync: usize,
    /// Marks.
    pub mark: usize,
    /// Drops.
    pub drop: usize,
    /// Verifies.
    pub verify: usize,
}

/// A kind of day.
#[derive(Clone, Copy, Debug)]
pub struct Profile {
    /// Printed with the seed.
    pub name: &'static str,
    /// A single-main day: it begins with a fresh of that choice.
    pub single_main: bool,
    /// A day begins with so many bundles of 64 good entries on the main revision.
    pub first: usize,
    /// If it is not 0, every number is given out next, and then one of these revisions is handed in, or
    /// up to so many.
    pub handed_in: usize,
    /// Then it has so many calls at most, and at least half of them.
    pub calls: usize,
    /// In so many of a hundred calls, the table is made fresh, with either choice.
    pub renewed: u32,
    /// Clients that take part.
    pub clients: u8,
    /// Bibs that are entered.
    pub bibs: u16,
    /// The kinds of update, each as often as it stands here.
    pub kinds: &'static [u8],
    /// No fork, mark or sync is tried with so many numbers given out.
    pub revisions: usize,
    /// No fork or mark is tried with so many revisions out.
    pub out: usize,
    /// What is tried.
    pub weights: Weights,
    /// In so many of a hundred forks, the newest revision is forked.
    pub newest: u32,
    /// In so many of a hundred forks, the main revision is forked, whatever else was picked.
    pub main: u32,
    /// In so many of a hundred forks and marks, a marked revision is forked, if one is out.
    pub from_marks: u32,
    /// In so many of a hundred cases, a call that marked revisions refuse may name one.
    pub to_marks: u32,
    /// In so many of a hundred joins, a revision goes back to its forker, not to any.
    pub back: u32,
    /// In so many of a hundred cases, one of the newest revisions is picked, so that others stay out.
    pub recent: u32,
    /// In so many of a hundred cases, a busy revision is yielded on first.
    pub settle: u32,
    /// In so many of a hundred cases, a client starts on any revision, not where it was last.
    pub roam: u32,
    /// In so many of a hundred calls, one argument is any number that fits its bytes.
    pub strange: u32,
}

/// Every kind of update equally often.
const ALIKE: &[u8] = &[1, 2, 3, 4];

impl Profile {
    /// A bit of everything. The other kinds tell in what they differ from it.
    pub const MIXED: Profile = Profile {
        name: "mixed",
        single_main: false,
        first: 0,
        handed_in: 0,
        calls: 200,
        renewed: 0,
        clients: CLIENTS,
        bibs: 5,
        kinds: ALIKE,
        revisions: REVISIONS as usize + 1,
        out: REVISIONS as usize + 1,
        weights: Weights {
            update: 35,
            query: 15,
            yields: 20,
            fork: 10,
            join: 12,
            list: 8,
            fill: 6,
            bundle: 5,
            preview: 6,
            sync: 5,
            mark: 5,
            drop: 3,
            verify: 6,
        },
        newest: 20,
        main: 0,
        from_marks: 25,
        to_marks: 15,
        back: 60,
        recent: 0,
        settle: 60,
        roam: 40,
        strange: 5,
    };

    /// Short days that brute force can judge, on few revisions and bibs, without marks.
    pub const SMALL: Profile = Profile {
        name: "small",
        calls: 64,
        clients: 3,
        bibs: 2,
        revisions: 7,
        weights: Weights {
            update: 30,
            query: 14,
            yields: 22,
            fork: 14,
            join: 16,
            list: 4,
            fill: 6,
            bundle: 4,
            preview: 8,
            sync: 6,
            mark: 0,
            drop: 0,
            verify: 8,
        },
        newest: 30,
        settle: 80,
        strange: 2,
        ..Profile::MIXED
    };

    /// Revisions that fork revisions of their own.
    pub const NESTED: Profile = Profile {
        name: "nested",
        clients: 6,
        bibs: 2,
        weights: Weights {
            update: 25,
            query: 8,
            yields: 20,
            fork: 20,
            join: 24,
            list: 3,
            fill: 4,
            bundle: 4,
            preview: 8,
            sync: 6,
            mark: 4,
            drop: 3,
            verify: 4,
        },
        newest: 75,
        settle: 90,
        roam: 70,
        strange: 1,
        ..Profile::MIXED
    };

    /// Clients that leave without a yield, or start where they are not caught up.
    pub const STALE: Profile = Profile {
        name: "stale",
        bibs: 3,
        weights: Weights {
            update: 35,
            query: 20,
            yields: 15,
            fork: 12,
            join: 14,
            list: 4,
            fill: 4,
            bundle: 5,
            preview: 6,
            sync: 5,
            mark: 4,
            drop: 3,
            verify: 4,
        },
        settle: 15,
        roam: 90,
        strange: 1,
        ..Profile::MIXED
    };

    /// Transactions of queries alone.
    pub const QUERIES: Profile = Profile {
        name: "queries",
        calls: 150,
        clients: 5,
        bibs: 2,
        weights: Weights {
            update: 8,
            query: 40,
            yields: 22,
            fork: 12,
            join: 15,
            list: 3,
            fill: 4,
            bundle: 2,
            preview: 6,
            sync: 5,
            mark: 4,
            drop: 3,
            verify: 2,
        },
        newest: 30,
        settle: 80,
        roam: 60,
        strange: 1,
        ..Profile::MIXED
    };

    /// Strikes of a single bib on revisions that are soon joined, and queries among them.
    pub const STRIKES: Profile = Profile {
        name: "strikes",
        calls: 150,
        clients: 10,
        bibs: 1,
        kinds: &[1, 2, 3, 4, 4, 4],
        revisions: 10,
        weights: Weights {
            update: 26,
            query: 22,
            yields: 16,
            fork: 14,
            join: 24,
            list: 1,
            fill: 1,
            bundle: 3,
            preview: 12,
            sync: 5,
            mark: 2,
            drop: 2,
            verify: 2,
        },
        newest: 30,
        settle: 95,
        roam: 80,
        strange: 1,
        ..Profile::MIXED
    };

    /// 64 revisions out and the fork that is refused.
    pub const FORKS: Profile = Profile {
        name: "forks",
        calls: 400,
        clients: 4,
        bibs: 2,
        weights: Weights {
            update: 12,
            query: 5,
            yields: 12,
            fork: 50,
            join: 18,
            list: 3,
            fill: 4,
            bundle: 2,
            preview: 6,
            sync: 4,
            mark: 6,
            drop: 5,
            verify: 2,
        },
        newest: 40,
        settle: 95,
        roam: 60,
        strange: 1,
        ..Profile::MIXED
    };

    /// Arguments out of their range.
    pub const STRANGE: Profile = Profile {
        name: "strange",
        calls: 150,
        bibs: BIBS,
        weights: Weights {
            update: 30,
            query: 15,
            yields: 15,
            fork: 15,
            join: 15,
            list: 10,
            fill: 12,
            bundle: 12,
            preview: 15,
            sync: 14,
            mark: 10,
            drop: 8,
            verify: 14,
        },
        roam: 50,
        strange: 40,
        ..Profile::MIXED
    };

    /// A log that fills up, and what goes on after it.
    pub const FULL: Profile = Profile {
        name: "full",
        calls: 14_000,
        clients: 4,
        bibs: 20,
        revisions: 40,
        weights: Weights {
            update: 900,
            query: 10,
            yields: 60,
            fork: 5,
            join: 8,
            list: 2,
            fill: 10,
            bundle: 4,
            preview: 4,
            sync: 4,
            mark: 4,
            drop: 3,
            verify: 2,
        },
        newest: 30,
        settle: 90,
        roam: 8,
        strange: 0,
        ..Profile::MIXED
    };

    /// Bundles of all sizes.
    pub const BUNDLES: Profile = Profile {
        name: "bundles",
        calls: 100,
        clients: 5,
        bibs: 10,
        revisions: 12,
        weights: Weights {
            update: 12,
            query: 4,
            yields: 12,
            fork: 4,
            join: 4,
            list: 1,
            fill: 1,
            bundle: 60,
            preview: 4,
            sync: 3,
            mark: 3,
            drop: 2,
            verify: 2,
        },
        newest: 30,
        settle: 80,
        roam: 30,
        strange: 2,
        ..Profile::MIXED
    };

    /// Bundles that fill the log to its last place, or find it full in their midst.
    pub const NEARLY_FULL: Profile = Profile { name: "nearly full", first: 61, ..Profile::BUNDLES };
}
