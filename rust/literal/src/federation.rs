//! Four days on one card: 02, U12.

use calls::{Answer, Call, Code, CourseCall};

use crate::day::Day;

/// How many courses there are: 0 to 3.
const COURSES: usize = 4;

/// The day of each course; none where its buffer is no table.
#[derive(Clone, Debug, Default, PartialEq, Eq)]
pub struct Federation([Option<Day>; COURSES]);

impl Federation {
    /// Four buffers that are no tables yet.
    pub fn new() -> Self {
        Federation::default()
    }

    /// The day of a course; none where its buffer is no table, or if there is no such course.
    pub fn day(&self, course: u8) -> Option<&Day> {
        self.0.get(usize::from(course)).and_then(Option::as_ref)
    }

    /// The buffer of a course is no table any more.
    pub fn lose(&mut self, course: u8) {
        self.0[usize::from(course)] = None;
    }

    /// Makes one call. A refused one changes nothing, and each leaves the other courses as they are.
    pub fn call(&mut self, CourseCall { course, call }: &CourseCall) -> Answer {
        // "another number gives 1"
        if usize::from(*course) >= COURSES {
            return Answer::refused(Code::NoTable);
        }
        match call.name() {
            "fresh" => self.fresh(*course, call),
            _ => self.beside(*course, call),
        }
    }

    /// "for fresh: its own length only". What was before is of no account: "Making one table fresh gives
    /// its updates back."
    fn fresh(&mut self, course: u8, call: &Call) -> Answer {
        let mut day = Day::fresh();
        let answer = day.call(call);
        if answer.code == Code::Accepted {
            self.0[usize::from(course)] = Some(day);
        }
        answer
    }

    /// "as does any of the four buffers that meets 1's condition"; else the call on its own day, beside the
    /// others.
    fn beside(&mut self, course: u8, call: &Call) -> Answer {
        let [Some(a), Some(b), Some(c), Some(d)] = &mut self.0 else {
            return Answer::refused(Code::NoTable);
        };
        match course {
            0 => a.call_beside(&[b, c, d], call),
            1 => b.call_beside(&[a, c, d], call),
            2 => c.call_beside(&[a, b, d], call),
            _ => d.call_beside(&[a, b, c], call),
        }
    }
}

#[cfg(test)]
mod tests {
    use super::*;

    const FRESH: Call = Call::Fresh { single_main: false };
    const UPDATE: Call = Call::Update { client: 0, revision: 0, kind: 1, bib: 7, v: 1 };

    fn code(federation: &mut Federation, course: u8, call: Call) -> u8 {
        federation.call(&CourseCall { course, call }).code.number()
    }

    #[test]
    fn all_four_are_made_fresh_first() {
        let mut federation = Federation::new();
        for course in 0..4 {
            assert_eq!(code(&mut federation, 0, UPDATE), 1);
            assert_eq!(code(&mut federation, course, FRESH), 0);
        }
        assert_eq!(
            (0..6).map(|i| code(&mut federation, i, UPDATE)).collect::<Vec<_>>(),
            [0, 0, 0, 0, 1, 1]
        );
        federation.lose(2);
        assert_eq!((0..4).map(|i| code(&mut federation, i, UPDATE)).collect::<Vec<_>>(), [1; 4]);
        assert_eq!([code(&mut federation, 0, FRESH), code(&mut federation, 2, FRESH)], [0, 0]);
        assert_eq!(code(&mut federation, 1, UPDATE), 0);
        assert_eq!(federation.day(1).map(|day| day.updates().len()), Some(2));
        assert_eq!(federation.day(4), None);
    }
}
