//! 02, U12, on random federation days: the baseline answers as four literal replays on one card do, writes in
//! no other course's table, and has what 02 asks to show. And the days reach what they are for.

use std::collections::BTreeMap;

use baseline::Federation;
use calls::{Answer, Call, Code, CourseCall, Line, ASSURED, CARD, COURSES};
use days::{
    fault_of_agreement, fault_of_claims, fault_of_courses, must_pass, seeds, CardProfile, CardStep,
    Sample,
};

/// How many days there are of each kind.
const KINDS: [(CardProfile, u64); 4] = [
    (CardProfile::OPEN, 150),
    (CardProfile::FULL, 50),
    (CardProfile::FULL_TABLE, 40),
    (CardProfile::UNDAMAGED, 12),
];

fn federation_days() -> impl Iterator<Item = Sample<CardStep>> {
    KINDS.into_iter().flat_map(|(profile, count)| profile.days(seeds(count)))
}

#[test]
fn courses_answer_as_four_literal_replays() {
    must_pass(federation_days(), |steps| fault_of_courses(steps, Federation::call));
}

#[test]
fn courses_have_what_02_asks_to_show() {
    must_pass(federation_days(), |steps| fault_of_claims(steps, Federation::call));
}

#[test]
fn days_that_agree_in_a_course_agree_in_its_answers() {
    let days = |seeds| CardProfile::UNDAMAGED.days(seeds);
    must_pass(days(seeds(12)), |steps| fault_of_agreement(steps, Federation::call));
    let twenties = days(0..12).map(|day| {
        let mut lent = Federation::new();
        let codes = day.calls.iter().map(|step| match step {
            CardStep::Made(call) => lent.call(call).code,
            _ => panic!("{step}"),
        });
        codes.filter(|&code| code == Code::SharedLogFull).count()
    });
    assert!(twenties.sum::<usize>() >= 100);
}

/// How often something is met.
#[derive(Default)]
struct Met {
    times: BTreeMap<&'static str, usize>,
    lent: Federation,
    broken: [bool; COURSES],
    scratched: [bool; COURSES],
    /// Whose last update got 20.
    turned: [bool; COURSES],
    /// Of those, whether another course was made fresh since.
    given_back: [bool; COURSES],
}

impl Met {
    fn note(&mut self, what: &'static str) {
        *self.times.entry(what).or_default() += 1;
    }

    fn updates(&self, course: usize) -> usize {
        let table = &self.lent.tables[course];
        usize::from(u16::from_le_bytes([table[39_824], table[39_825]]))
    }

    /// How many updates the card still holds for a course.
    fn room(&self, course: usize) -> usize {
        let others = (0..COURSES).filter(|&other| other != course);
        let held: usize = others.map(|other| self.updates(other).max(ASSURED)).sum();
        (CARD - held).saturating_sub(self.updates(course))
    }

    fn step(&mut self, step: &CardStep) {
        match step {
            CardStep::Made(CourseCall { course, call }) if usize::from(*course) < COURSES => {
                self.call(usize::from(*course), call);
            }
            CardStep::Made(_) => self.note("wrong number"),
            CardStep::Broken(damage) => {
                self.broken[usize::from(damage.course)] = true;
                damage.put(&mut self.lent);
            }
            CardStep::Scratched(damage) => {
                self.scratched[usize::from(damage.course)] = true;
                damage.put(&mut self.lent);
            }
        }
    }

    fn call(&mut self, course: usize, call: &Call) {
        let others = |of: &[bool; COURSES]| (0..COURSES).any(|other| other != course && of[other]);
        let (beside_broken, beside_scratched) = (others(&self.broken), others(&self.scratched));
        let tables = !self.broken.contains(&true);
        let (updates, room) = (self.updates(course), if tables { self.room(course) } else { 0 });
        let made = CourseCall { course: course as u8, call: call.clone() };
        let Answer { code, .. } = self.lent.call(&made);
        if let (Call::Fresh { .. }, Code::Accepted) = (call, code) {
            self.note(if beside_broken { "fresh beside a broken table" } else { "fresh" });
            self.broken[course] = false;
            self.given_back = self.turned;
        }
        match code {
            Code::NoTable => return self.note("no table"),
            Code::Accepted if tables && beside_scratched => {
                self.note("taken beside a scratched table");
            }
            _ => {}
        }
        match call {
            Call::Update { .. } => self.update(updates, room, code),
            Call::Bundle { records, .. } => self.bundle(room, records, code),
            _ => return,
        }
        if self.given_back[course] && code == Code::Accepted {
            self.note("taken once another gave back");
        }
        self.turned[course] = code == Code::SharedLogFull;
        self.given_back[course] &= self.turned[course];
    }

    fn update(&mut self, updates: usize, room: usize, code: Code) {
        match code {
            Code::SharedLogFull if updates == ASSURED => self.note("20 for the 1,025th"),
            Code::SharedLogFull => self.note("20 for an update"),
            Code::LogFull if room == 0 => self.note("9 on a full card"),
            Code::BadEntry if room == 0 => self.note("5 on a full card"),
            Code::InUse | Code::Stale if room == 0 => self.note("7 or 8 on a full card"),
            Code::Accepted if updates < ASSURED && room <= ASSURED => self.note("one of the 1,024"),
            _ => {}
        }
    }

    fn bundle(&mut self, room: usize, records: &[u8], code: Code) {
        let (records, _) = records.as_chunks();
        let bad = |&record: &[u8; 12]| {
            let Line { kind, bib, .. } = Line::from_bytes(record);
            !(1..=4).contains(&kind) || bib > 999
        };
        let first_bad = records.iter().position(bad);
        match (code, first_bad) {
            (Code::SharedLogFull, Some(_)) => self.note("20 before a 5"),
            (Code::SharedLogFull, None) if room > 0 => self.note("20 in the midst"),
            (Code::SharedLogFull, None) => self.note("20 for a bundle"),
            (Code::BadEntry, Some(place)) if place == room => self.note("5 and 20 of one entry"),
            (Code::BadEntry, Some(place)) if place < room && room < records.len() => {
                self.note("5 before a 20");
            }
            (Code::Accepted, _) if room == records.len() => self.note("a bundle that just fits"),
            _ => {}
        }
    }
}

/// Federation days are worth replaying: every case of the rule is met many times.
#[test]
fn every_case_is_met() {
    let mut times: BTreeMap<&str, usize> = BTreeMap::new();
    let days = KINDS.into_iter().flat_map(|(profile, count)| profile.days(0..count));
    for day in days {
        let mut met = Met { broken: [true; COURSES], ..Met::default() };
        day.calls.iter().for_each(|step| met.step(step));
        met.times.into_iter().for_each(|(what, count)| *times.entry(what).or_default() += count);
    }
    let cases = [
        "20 before a 5",
        "20 for a bundle",
        "20 for an update",
        "20 for the 1,025th",
        "20 in the midst",
        "5 and 20 of one entry",
        "5 before a 20",
        "5 on a full card",
        "7 or 8 on a full card",
        "9 on a full card",
        "a bundle that just fits",
        "fresh",
        "fresh beside a broken table",
        "no table",
        "one of the 1,024",
        "taken beside a scratched table",
        "taken once another gave back",
        "wrong number",
    ];
    assert!(times.keys().eq(&cases), "{times:#?}");
    assert!(times.values().all(|&count| count >= 10), "{times:#?}");
}
