//! Random federation days: a generator for each course, whose calls are answered on one card.

use baseline::Federation;
use calls::{Call, CourseCall, ASSURED, BUNDLE, CARD, COURSES, UPDATES};

use crate::card::{CardProfile, CardStep, Damage};
use crate::generator::Generator;
use crate::rng::Rng;

/// Bytes and values that put a cell out of its range: docs/CELLS.md.
const BREAKS: [(usize, u8); 9] = [
    // The states of numbers 0 and 63, the count of number 0, the queue's first place.
    (39_040, 4),
    (39_103, 255),
    (39_425, 17),
    (39_744, 0),
    // The client's open transaction, the updates taken, the numbers out, the choice, the signature.
    (39_808, 65),
    (39_825, 17),
    (39_826, 65),
    (40_084, 2),
    (40_952, 0),
];
/// The row of number 63, and the bytes that are kept free.
const UNREAD: [(usize, usize); 2] = [(31_744, 512), (40_089, 863)];

/// A random federation day: its steps, picked by the answers of the baseline.
pub(crate) fn federation_day(profile: &CardProfile, seed: u64) -> Vec<CardStep> {
    let mut day = Card {
        profile,
        rng: Rng::new(seed),
        courses: [0, 1, 2, 3].map(|n| Generator::new(&profile.courses, seed << 2 | n)),
        lent: Federation::new(),
        broken: [false; COURSES],
        steps: Vec::new(),
    };
    day.begin(seed);
    for _ in 0..profile.steps / 2 + day.rng.below(profile.steps / 2 + 1) {
        day.step();
    }
    day.steps
}

/// The day so far.
struct Card<'a> {
    profile: &'a CardProfile,
    rng: Rng,
    courses: [Generator<'a>; COURSES],
    lent: Federation,
    /// Whose table has a cell out of its range.
    broken: [bool; COURSES],
    steps: Vec<CardStep>,
}

impl Card<'_> {
    /// All four are made fresh, in any order and with some calls between; then they take their bundles.
    fn begin(&mut self, seed: u64) {
        for course in self.shuffled((0..COURSES).collect()) {
            while self.rng.percent(40) {
                let any = self.rng.below(COURSES);
                let call = self.courses[any].pick();
                self.make(any, call);
            }
            self.fresh(course);
        }
        let bundles = |course| {
            let first = self.profile.first[(course + seed as usize) % COURSES];
            vec![course; first]
        };
        let bundles = (0..COURSES).flat_map(bundles).collect();
        for course in self.shuffled(bundles) {
            let call = self.courses[course].first();
            self.make(course, call);
        }
    }

    /// In another order.
    fn shuffled(&mut self, mut courses: Vec<usize>) -> Vec<usize> {
        for place in 1..courses.len() {
            courses.swap(place, self.rng.below(place + 1));
        }
        courses
    }

    fn step(&mut self) {
        let course = self.rng.below(COURSES);
        if self.rng.percent(self.profile.damaged) {
            self.damage(course);
        } else if self.broken[course] && self.rng.percent(70)
            || self.rng.percent(self.profile.renewed)
        {
            self.fresh(course);
        } else {
            let call = self.pick(course);
            self.make(course, call);
        }
    }

    /// In half of the cases the table is one no more.
    fn damage(&mut self, course: usize) {
        let damage = |(at, byte)| Damage { course: course as u8, at, byte };
        let step = if self.rng.percent(50) {
            self.broken[course] = true;
            CardStep::Broken(damage(self.rng.pick(&BREAKS)))
        } else {
            let (from, length) = self.rng.pick(&UNREAD);
            let at = from + self.rng.below(length);
            CardStep::Scratched(damage((at, self.rng.bits() as u8 | 1)))
        };
        if let CardStep::Broken(damage) | CardStep::Scratched(damage) = step {
            damage.put(&mut self.lent);
        }
        self.steps.push(step);
    }

    fn fresh(&mut self, course: usize) {
        let single_main = self.rng.percent(20);
        self.make(course, Call::Fresh { single_main });
        self.broken[course] = false;
    }

    /// A call of a course; where there is room for less than a bundle, in many cases one with more entries.
    fn pick(&mut self, course: usize) -> Call {
        let others = (0..COURSES).filter(|&other| other != course);
        let held: usize = others.map(|other| self.courses[other].updates.max(ASSURED)).sum();
        let generator = &mut self.courses[course];
        generator.most = UPDATES.min(CARD - held);
        match generator.most - generator.updates {
            0..BUNDLE if self.rng.percent(30) => generator.overfull(),
            _ => generator.pick(),
        }
    }

    /// Makes a call, with what comes around it.
    fn make(&mut self, course: usize, call: Call) {
        for call in self.courses[course].around(call) {
            if self.rng.percent(self.profile.strange) {
                let any = self.rng.bits() as u8 | 4;
                let strange = self.rng.pick(&[4, 4 + course as u8, any]);
                self.made(CourseCall { course: strange, call: call.clone() });
            }
            self.made(CourseCall { course: course as u8, call });
        }
    }

    fn made(&mut self, call: CourseCall) {
        let answer = self.lent.call(&call);
        if let Some(generator) = self.courses.get_mut(usize::from(call.course)) {
            generator.learn(&call.call, &answer);
        }
        self.steps.push(CardStep::Made(call));
    }
}
