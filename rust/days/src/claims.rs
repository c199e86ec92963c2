//! What 02's U12 asks to show of four courses, by the calls and their answers.

use baseline::Federation;
use calls::{Answer, Call, Code, CourseCall, Line, ASSURED, BUNDLE, CARD, COURSES};
use literal::Day;

use crate::card::CardStep;
use crate::courses::unmade;

/// The courses of a federation day, each as if it were alone.
struct Alone {
    /// The plain day of each course; none where its buffer is no table. "they are refused in it and change
    /// nothing": of calls that got 1 or 20.
    days: [Option<Day>; COURSES],
}

/// How many updates a call enters, if it is taken.
fn enters(call: &Call) -> usize {
    match call {
        Call::Update { .. } => 1,
        Call::Bundle { records, .. } => records.len() / Line::BYTES,
        _ => 0,
    }
}

impl Alone {
    /// "the sum, over the four tables, of the larger of 1,024 and its updates", with so many more of one.
    fn sum(&self, own: usize, more: usize) -> usize {
        let updates = |(course, day): (usize, &Option<Day>)| {
            let taken = day.as_ref().map_or(0, |day| day.updates().len());
            (taken + if course == own { more } else { 0 }).max(ASSURED)
        };
        self.days.iter().enumerate().map(updates).sum()
    }

    /// What an answer has against 02, in words.
    fn fault(&mut self, call: &CourseCall, answer: &Answer) -> Option<String> {
        let own = usize::from(call.course);
        let fresh = call.call.name() == "fresh";
        let one = own >= COURSES || !fresh && self.days.iter().any(Option::is_none);
        if one || answer.code == Code::NoTable {
            return (!one || *answer != Answer::refused(Code::NoTable))
                .then(|| format!("gives {answer}; 1 is {}", if one { "right" } else { "wrong" }));
        }
        if answer.code == Code::SharedLogFull {
            return self.fault_of_twenty(own, &call.call, answer);
        }
        let right = match &mut self.days[own] {
            Some(day) if !fresh => day.call(&call.call),
            day => {
                let mut made = Day::fresh();
                let right = made.call(&call.call);
                *day = if right.code == Code::Accepted { Some(made) } else { day.take() };
                right
            }
        };
        if *answer != right {
            return Some(format!("gives {answer}, its plain day {right}"));
        }
        let sum = self.sum(own, 0);
        (sum > CARD).then(|| format!("the sum is {sum}"))
    }

    /// "a call that would leave its course with no more than its 1,024 is never turned away on account of
    /// the others"; and what is turned away would pass 8,192.
    fn fault_of_twenty(&self, own: usize, call: &Call, answer: &Answer) -> Option<String> {
        let taken = self.days[own].as_ref().map_or(0, |day| day.updates().len());
        let (after, sum) = (taken + enters(call), self.sum(own, enters(call)));
        let wrong = *answer != Answer::refused(Code::SharedLogFull)
            || enters(call) == 0
            || after <= ASSURED
            || sum <= CARD;
        wrong.then(|| format!("gives {answer} with {after} updates after it, and a sum of {sum}"))
    }
}

/// The first call of a federation day whose answer is against 02, in words. Every course goes by its plain
/// day, which is told which of its calls got 1 or 20; 1 comes by a wrong number or until all four are made
/// fresh alone; 20 never comes up to 1,024, and the sum never passes 8,192. `make` makes one call on the four
/// tables.
pub fn fault_of_claims(
    steps: &[CardStep],
    mut make: impl FnMut(&mut Federation, &CourseCall) -> Answer,
) -> Option<String> {
    let mut alone = Alone { days: [const { None }; COURSES] };
    let mut lent = unmade();
    steps.iter().find_map(|step| {
        let fault = match step {
            CardStep::Made(call) => alone.fault(call, &make(&mut lent, call)),
            CardStep::Broken(damage) => {
                alone.days[usize::from(damage.course)] = None;
                damage.put(&mut lent);
                None
            }
            CardStep::Scratched(damage) => {
                damage.put(&mut lent);
                None
            }
        };
        fault.map(|fault| format!("`{step}`: {fault}"))
    })
}

/// "two days that begin by making all four fresh and agree in one course's calls, and in which of them got 20,
/// agree in all its answers": the first call of a course that does not, in words. No step may be damage.
/// `make` makes one call on the four tables.
pub fn fault_of_agreement(
    steps: &[CardStep],
    make: impl Fn(&mut Federation, &CourseCall) -> Answer,
) -> Option<String> {
    (0..COURSES as u8).find_map(|course| {
        let [day, other] = agreeing_days(steps, course).map(|calls| {
            let mut lent = unmade();
            let answers: Vec<Answer> = calls.iter().map(|call| make(&mut lent, call)).collect();
            let own = calls.into_iter().zip(answers).filter(|(call, _)| call.course == course);
            own.collect::<Vec<(CourseCall, Answer)>>()
        });
        assert_eq!(day.len(), other.len(), "the days agree in the course's calls");
        day.iter().zip(&other).find(|(a, b)| a != b).map(|((call, answer), (_, other))| {
            format!("`{call}`: gives {answer}, on a day that agrees in this course {other}")
        })
    })
}

/// A federation day, and another that begins by making all four fresh and agrees in one course's calls, and
/// in which of them got 20. The other three are made fresh where they were. At a call that got 20 they have
/// entered so many updates of their own that the sum is the same; at all others it is the same or smaller.
fn agreeing_days(steps: &[CardStep], course: u8) -> [Vec<CourseCall>; 2] {
    let mut lent = Federation::new();
    let (mut day, mut other) = (Vec::new(), Vec::new());
    let mut taken = [Taken::default(); COURSES];
    let mut made = [false; COURSES];
    for step in steps {
        let CardStep::Made(call) = step else { panic!("{step}") };
        let code = lent.call(call).code;
        let makes = code == Code::Accepted && call.call.name() == "fresh";
        // A day begins with calls that make a table fresh alone.
        if !makes && made.contains(&false) {
            continue;
        }
        day.push(call.clone());
        if call.course == course {
            if code == Code::SharedLogFull {
                other.extend(
                    (0..).zip(&mut taken).flat_map(|(course, taken)| taken.made_up(course)),
                );
            }
            other.push(call.clone());
        } else if code == Code::Accepted {
            other.push(taken[usize::from(call.course)].instead(call));
        }
        if makes {
            made[usize::from(call.course)] = true;
        }
    }
    [day, other]
}

/// The updates of a course that is not looked at.
#[derive(Clone, Copy, Default)]
struct Taken {
    /// On the first day.
    there: usize,
    /// On the other day, never more.
    here: usize,
}

impl Taken {
    /// What is made in place of a call that was taken.
    fn instead(&mut self, CourseCall { course, call }: &CourseCall) -> CourseCall {
        let call = if let Call::Fresh { single_main } = *call {
            *self = Taken::default();
            Call::Fresh { single_main: !single_main }
        } else {
            self.there += enters(call);
            Call::Fill { revision: 0 }
        };
        CourseCall { course: *course, call }
    }

    /// Bundles after which the course counts as much as on the first day. Up to 1,024 they make no difference.
    fn made_up(&mut self, course: u8) -> Vec<CourseCall> {
        let mut steps = Vec::new();
        while self.there > ASSURED && self.here < self.there {
            let count = BUNDLE.min(self.there - self.here);
            let line = Line { kind: 4, client: 9, bib: 900, v: self.here as u32, number: 7 };
            let records = line.to_bytes().repeat(count);
            let call = Call::Bundle { client: 15, revision: 0, records };
            steps.push(CourseCall { course, call });
            self.here += count;
        }
        steps
    }
}
