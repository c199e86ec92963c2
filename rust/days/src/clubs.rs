//! Kinds of single-main day: 02, U8. Some of the forks and joins, and all marks, are off the line.

use calls::REVISIONS;

use crate::profile::{Profile, Weights};

impl Profile {
    /// A bit of everything.
    pub const SINGLE_MAIN: Profile = Profile {
        name: "single-main",
        single_main: true,
        weights: Weights {
            fork: 12,
            join: 12,
            preview: 20,
            sync: 14,
            mark: 8,
            drop: 4,
            verify: 4,
            ..Profile::MIXED.weights
        },
        main: 60,
        back: 60,
        settle: 50,
        strange: 12,
        ..Profile::MIXED
    };

    /// Short days that brute force can judge.
    pub const SMALL_SINGLE_MAIN: Profile = Profile {
        name: "small, single-main",
        single_main: true,
        revisions: 9,
        weights: Weights {
            fork: 14,
            join: 8,
            sync: 18,
            mark: 4,
            drop: 2,
            verify: 4,
            ..Profile::SMALL.weights
        },
        main: 75,
        back: 80,
        roam: 60,
        ..Profile::SMALL
    };

    /// All 64 revisions are out in most cases when one is synced.
    pub const CROWDED_SINGLE_MAIN: Profile = Profile {
        name: "crowded, single-main",
        single_main: true,
        handed_in: 3,
        calls: 500,
        out: REVISIONS as usize + 1,
        weights: Weights { fork: 24, join: 12, sync: 24, ..Profile::REUSED.weights },
        main: 70,
        settle: 70,
        strange: 4,
        ..Profile::REUSED
    };

    /// Several days one after the other on one table, single-main or not.
    pub const RENEWED: Profile = Profile {
        name: "renewed",
        renewed: 4,
        weights: Weights {
            fork: 16,
            join: 14,
            sync: 12,
            mark: 12,
            drop: 6,
            verify: 4,
            ..Profile::MIXED.weights
        },
        main: 40,
        ..Profile::MIXED
    };
}
