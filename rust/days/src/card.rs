//! Kinds of federation day, and what happens on one: four tables on one card (02, U12).

use std::fmt;
use std::ops::Range;

use baseline::Federation;
use calls::{CourseCall, COURSES};

use crate::federating::federation_day;
use crate::profile::{Profile, Weights};
use crate::sample::Sample;

/// A step of a federation day.
#[derive(Clone, Debug, PartialEq, Eq)]
pub enum CardStep {
    /// A call.
    Made(CourseCall),
    /// A cell of a table is put out of its range.
    Broken(Damage),
    /// A byte that nothing reads is changed; the table stays one.
    Scratched(Damage),
}

/// A byte of a course's table that something else than a call writes.
#[derive(Clone, Copy, Debug, PartialEq, Eq)]
pub struct Damage {
    /// 0 to 3.
    pub course: u8,
    /// Its place in the table.
    pub at: usize,
    /// What stands there afterwards.
    pub byte: u8,
}

impl Damage {
    /// Writes the byte.
    pub fn put(self, federation: &mut Federation) {
        federation.tables[usize::from(self.course)][self.at] = self.byte;
    }
}

impl fmt::Display for CardStep {
    fn fmt(&self, f: &mut fmt::Formatter<'_>) -> fmt::Result {
        match self {
            CardStep::Made(call) => call.fmt(f),
            CardStep::Broken(Damage { course, at, byte }) => {
                write!(f, "course {course}: byte {at} becomes {byte}, out of range")
            }
            CardStep::Scratched(Damage { course, at, byte }) => {
                write!(f, "course {course}: byte {at}, which is not read, becomes {byte}")
            }
        }
    }
}

/// A kind of federation day.
#[derive(Clone, Copy, Debug)]
pub struct CardProfile {
    /// Printed with the seed.
    pub name: &'static str,
    /// What the calls of each course are like.
    pub courses: Profile,
    /// Once all four are fresh, each takes so many bundles of 64 good entries. Which course is the first
    /// here goes by the seed.
    pub first: [usize; COURSES],
    /// Then the day has so many steps at most, and at least half of them.
    pub steps: usize,
    /// In so many of a hundred steps, a course is made fresh.
    pub renewed: u32,
    /// In so many of a hundred steps, a byte of a table is changed.
    pub damaged: u32,
    /// So many of a hundred calls are made with a number that is no course's, too.
    pub strange: u32,
}

/// A course with many bundles and few numbers: 63, whose row is scratched, is never given.
const COURSE: Profile = Profile {
    name: "course",
    clients: 4,
    bibs: 4,
    revisions: 14,
    weights: Weights {
        update: 40,
        query: 8,
        yields: 12,
        fork: 10,
        join: 8,
        list: 3,
        fill: 4,
        bundle: 40,
        preview: 4,
        sync: 3,
        mark: 3,
        drop: 3,
        verify: 3,
    },
    settle: 50,
    roam: 60,
    strange: 12,
    ..Profile::MIXED
};

impl CardProfile {
    /// A bit of everything on nearly empty tables.
    pub const OPEN: CardProfile = CardProfile {
        name: "open card",
        courses: COURSE,
        first: [0; COURSES],
        steps: 160,
        renewed: 2,
        damaged: 5,
        strange: 4,
    };

    /// The card has room for two bundles more, beside the 1,024 of each course.
    pub const FULL: CardProfile = CardProfile {
        name: "full card",
        first: [45, 35, 30, 12],
        renewed: 1,
        damaged: 1,
        ..CardProfile::OPEN
    };

    /// The card is full and one table too; one course is short of its 1,024.
    pub const FULL_TABLE: CardProfile =
        CardProfile { name: "full card and table", first: [64, 32, 16, 15], ..CardProfile::FULL };

    /// As [`FULL`](CardProfile::FULL), and nothing but calls writes in a table.
    pub const UNDAMAGED: CardProfile =
        CardProfile { name: "full card, undamaged", damaged: 0, ..CardProfile::FULL };

    /// The random days of this kind with these seeds.
    pub fn days(self, seeds: Range<u64>) -> impl Iterator<Item = Sample<CardStep>> {
        let day = move |seed| federation_day(&self, seed);
        seeds.map(move |seed| Sample { kind: self.name, seed, calls: day(seed) })
    }
}
