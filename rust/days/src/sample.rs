//! Days to be judged, and which of them a test runs through.

use std::fmt;
use std::ops::Range;

use calls::Call;

use crate::card::{CardProfile, CardStep};
use crate::generator::random_day;
use crate::profile::Profile;

/// What days are made of.
pub trait Steps: Clone + fmt::Display {
    /// What such days are called in the figures of a run.
    const DAYS: &'static str;
}

impl Steps for Call {
    const DAYS: &'static str = "random days";
}

impl Steps for CardStep {
    const DAYS: &'static str = "federation days";
}

/// A day, and what tells it from the others.
#[derive(Clone, Debug, PartialEq, Eq)]
pub struct Sample<C = Call> {
    /// The name of its kind.
    pub kind: &'static str,
    /// Its seed; without one, its place among the days of its kind.
    pub seed: u64,
    /// Its calls; of a federation day, its steps.
    pub calls: Vec<C>,
}

impl<C> fmt::Display for Sample<C> {
    fn fmt(&self, f: &mut fmt::Formatter<'_>) -> fmt::Result {
        write!(f, "day `{}`, seed {}", self.kind, self.seed)
    }
}

/// So many seeds from 0 on, times the number in the environment variable `DAYS_FACTOR`, if there is
/// one: for longer runs.
///
/// # Panics
///
/// If the variable is not a number, or there is no seed.
pub fn seeds(count: u64) -> Range<u64> {
    0..times(count, "DAYS_FACTOR").unwrap_or(count)
}

/// So many seeds of federation days: times the number in `CARDS_FACTOR`, or else as [`seeds`].
fn card_seeds(count: u64) -> Range<u64> {
    times(count, "CARDS_FACTOR").map_or_else(|| seeds(count), |count| 0..count)
}

/// So many times the number in an environment variable, if there is one.
fn times(count: u64, variable: &str) -> Option<u64> {
    let factor: u64 = std::env::var(variable).ok()?.parse().expect(variable);
    assert_ne!(count * factor, 0, "{variable}: nothing would be drawn");
    Some(count * factor)
}

impl Profile {
    /// The random days of this kind with these seeds.
    pub fn days(self, seeds: Range<u64>) -> impl Iterator<Item = Sample> {
        seeds.map(move |seed| Sample { kind: self.name, seed, calls: random_day(&self, seed) })
    }
}

/// How many days of each kind are a thorough replay. Small days come besides: they are short enough
/// to be looked at after each step.
const KINDS: [(Profile, u64); 18] = [
    (Profile::MIXED, 600),
    (Profile::NESTED, 600),
    (Profile::STALE, 400),
    (Profile::QUERIES, 400),
    (Profile::STRIKES, 400),
    (Profile::FORKS, 200),
    (Profile::STRANGE, 400),
    (Profile::FULL, 12),
    (Profile::BUNDLES, 200),
    (Profile::NEARLY_FULL, 60),
    (Profile::REUSED, 40),
    (Profile::REUSED_NESTED, 40),
    (Profile::CROWDED, 40),
    (Profile::SINGLE_MAIN, 400),
    (Profile::CROWDED_SINGLE_MAIN, 60),
    (Profile::RENEWED, 300),
    (Profile::MARKED, 400),
    (Profile::CROWDED_MARKED, 60),
];

/// The random days of a thorough replay, or one in so many of each kind.
pub fn one_in(part: u64) -> impl Iterator<Item = Sample> {
    KINDS.into_iter().flat_map(move |(profile, count)| profile.days(seeds(count.div_ceil(part))))
}

/// As [`one_in`], whatever the factor: for tests of what the days reach.
pub fn once_in(part: u64) -> impl Iterator<Item = Sample> {
    KINDS.into_iter().flat_map(move |(profile, count)| profile.days(0..count.div_ceil(part)))
}

/// The federation days of several kinds, with so many seeds of each, times the number in the environment
/// variable `CARDS_FACTOR`, or else in `DAYS_FACTOR`.
pub fn card_days_of(kinds: &[(CardProfile, u64)]) -> impl Iterator<Item = Sample<CardStep>> + '_ {
    kinds.iter().flat_map(|&(profile, count)| profile.days(card_seeds(count)))
}

/// The random days of several kinds, with so many [`seeds`] of each.
pub fn days_of(kinds: &[(Profile, u64)]) -> impl Iterator<Item = Sample> + '_ {
    kinds.iter().flat_map(|&(profile, count)| profile.days(seeds(count)))
}
