//! Kinds of day on which numbers are borne many times: 02, U7.

use calls::{CLIENTS, REVISIONS};

use crate::profile::{Profile, Weights};

impl Profile {
    /// Hundreds of forks on a few revisions, so that each number is borne many times. Some revisions
    /// stay out for long.
    pub const REUSED: Profile = Profile {
        name: "reused",
        calls: 4_800,
        clients: 8,
        bibs: 3,
        out: 16,
        weights: Weights {
            update: 12,
            query: 8,
            yields: 14,
            fork: 34,
            join: 34,
            list: 10,
            fill: 3,
            bundle: 3,
            preview: 4,
            sync: 4,
            mark: 4,
            drop: 4,
            verify: 4,
        },
        newest: 40,
        main: 25,
        // What comes of a mark is never joined into the main revision: few of them, or all stay out.
        from_marks: 2,
        back: 85,
        recent: 50,
        settle: 95,
        roam: 60,
        strange: 1,
        ..Profile::MIXED
    };

    /// The same with revisions that fork revisions of their own, and clients that roam.
    pub const REUSED_NESTED: Profile = Profile {
        name: "reused, nested",
        clients: CLIENTS,
        out: 30,
        newest: 75,
        roam: 90,
        ..Profile::REUSED
    };

    /// Hundreds of forks with nearly all revisions out: a number is free for a short time only.
    pub const CROWDED: Profile = Profile {
        name: "crowded",
        out: REVISIONS as usize + 1,
        weights: Weights { fork: 55, sync: 8, ..Profile::REUSED.weights },
        strange: 2,
        ..Profile::REUSED
    };

    /// Short days on numbers that were all borne before, for what looks at them after each step.
    pub const SMALL_REUSED: Profile = Profile {
        name: "small, reused",
        handed_in: 8,
        calls: 80,
        clients: CLIENTS,
        revisions: REVISIONS as usize + 1,
        weights: Weights {
            fork: 20,
            join: 20,
            sync: 3,
            mark: 4,
            drop: 4,
            verify: 4,
            ..Profile::SMALL.weights
        },
        newest: 40,
        main: 25,
        back: 80,
        recent: 90,
        roam: 60,
        ..Profile::SMALL
    };
}
