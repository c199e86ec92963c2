//! Kinds of day with many marks and drops: 02, U9. Other kinds have a few.

use calls::REVISIONS;

use crate::profile::{Profile, Weights};

impl Profile {
    /// A bit of everything.
    pub const MARKED: Profile = Profile {
        name: "marked",
        weights: Weights {
            fork: 18,
            join: 20,
            bundle: 16,
            preview: 14,
            sync: 12,
            mark: 16,
            drop: 10,
            verify: 4,
            ..Profile::MIXED.weights
        },
        from_marks: 40,
        to_marks: 60,
        roam: 90,
        strange: 15,
        ..Profile::MIXED
    };

    /// Short days that brute force can judge.
    pub const SMALL_MARKED: Profile = Profile {
        name: "small, marked",
        revisions: 11,
        weights: Weights { fork: 16, join: 16, mark: 14, drop: 8, ..Profile::SMALL.weights },
        from_marks: 40,
        to_marks: 30,
        roam: 60,
        ..Profile::SMALL
    };

    /// All 64 revisions are out in most cases, marked ones among them, and the numbers of dropped marks
    /// are used again beside those of joined revisions.
    pub const CROWDED_MARKED: Profile = Profile {
        name: "crowded, marked",
        handed_in: 8,
        calls: 700,
        out: REVISIONS as usize + 1,
        weights: Weights { fork: 26, join: 28, mark: 30, drop: 26, ..Profile::REUSED.weights },
        from_marks: 6,
        settle: 85,
        strange: 4,
        ..Profile::REUSED
    };
}
