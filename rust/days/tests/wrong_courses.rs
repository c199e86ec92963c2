//! 02, U12: wrong programs for four courses are found by the random federation days. Each is the baseline with
//! another number, another sum, another order of checks, or other buffers.

use baseline::Federation;
use calls::{Answer, Call, Code, CourseCall, Line, ASSURED, CARD, COURSES};
use days::{
    fault_of_agreement, fault_of_claims, must_find, updates_of, CardProfile, CardStep, Judged,
    Sample,
};

/// What a wrong program has at hand for a call on one of the four courses.
struct Program<'a> {
    lent: &'a mut Federation,
    /// The updates that each course ever took, of days before too.
    ever: &'a [usize; COURSES],
    own: usize,
    call: &'a Call,
}

impl Program<'_> {
    fn updates(&self, course: usize) -> usize {
        let table = &self.lent.tables[course];
        usize::from(u16::from_le_bytes([table[39_824], table[39_825]]))
    }

    /// The sum of something over the other three.
    fn others(&self, held: impl Fn(usize) -> usize) -> usize {
        (0..COURSES).filter(|&course| course != self.own).map(held).sum()
    }

    /// What the other three hold of the card.
    fn held(&self) -> usize {
        self.others(|course| self.updates(course).max(ASSURED))
    }

    /// Whether the own course may not have so many updates.
    fn is_full(&self, updates: usize) -> bool {
        updates.max(ASSURED) + self.held() > CARD
    }

    fn right(&mut self) -> Answer {
        let course = self.own as u8;
        self.lent.call(&CourseCall { course, call: self.call.clone() })
    }

    /// The call, where so much of the card is held by others. It is refused with 1 as it should.
    fn beside(&mut self, held: usize) -> Answer {
        if self.is_one() {
            return Answer::refused(Code::NoTable);
        }
        self.unchecked(held)
    }

    /// The same without a look at the other three.
    fn unchecked(&mut self, held: usize) -> Answer {
        let Program { lent: Federation { tables, boards }, own, call, .. } = self;
        let made = baseline::call_beside(&mut tables[*own], held, &mut boards[*own], call);
        made.unwrap_or_else(Answer::refused)
    }

    /// Whether another course's buffer meets 1's condition, and the call is no fresh.
    fn is_one(&self) -> bool {
        self.call.name() != "fresh" && self.breaks_others()
    }

    fn breaks_others(&self) -> bool {
        let fill = Call::Fill { revision: 0 };
        let one = |course: usize| {
            let mut table = self.lent.tables[course].clone();
            baseline::call(&mut table, &mut [], &fill) == Err(Code::NoTable)
        };
        (0..COURSES).any(|course| course != self.own && one(course))
    }

    /// The code with which the table alone would refuse the call; and at which update of a bundle.
    fn alone(&self) -> (Code, usize) {
        let mut table = self.lent.tables[self.own].clone();
        let mut made = |call: &Call| match baseline::call(&mut table, &mut [0; 5_000], call) {
            Ok(_) => Code::Accepted,
            Err(code) => code,
        };
        match *self.call {
            Call::Bundle { client, revision, ref records } => {
                let codes = updates_of(client, revision, records).map(|update| made(&update));
                let refused = codes.enumerate().find(|&(_, code)| code != Code::Accepted);
                refused.map_or((Code::Accepted, 0), |(place, code)| (code, place))
            }
            ref call => (made(call), 0),
        }
    }

    /// How many updates the call enters.
    fn enters(&self) -> usize {
        match self.call {
            Call::Update { .. } => 1,
            Call::Bundle { records, .. } => records.len() / Line::BYTES,
            _ => 0,
        }
    }

    /// The right answer, or another code in place of it. What comes before the first update is right.
    fn other_if(&mut self, code: Code, wrong: impl Fn(&Self, Code) -> bool) -> Answer {
        let (table, board) = (&self.lent.tables[self.own], &self.lent.boards[self.own]);
        let (table, board) = (table.clone(), board.clone());
        let right = self.right();
        let own = self.own;
        let after = [
            std::mem::replace(&mut self.lent.tables[own], table),
            std::mem::replace(&mut self.lent.boards[own], board),
        ];
        let early = [Code::NoTable, Code::WrongBundle, Code::WrongBoard].contains(&right.code);
        if !early && wrong(self, right.code) {
            return Answer::refused(code);
        }
        [self.lent.tables[own], self.lent.boards[own]] = after;
        right
    }

    /// The right answer, or 20 in place of it.
    fn twenty_if(&mut self, wrong: impl Fn(&Self, Code) -> bool) -> Answer {
        self.other_if(Code::SharedLogFull, wrong)
    }
}

type Wrong = fn(&mut Program<'_>) -> Answer;

const WRONG: [(&str, Wrong); 25] = [
    ("the sum without the larger of", |p| {
        let held = p.others(|course| p.updates(course));
        p.beside(held)
    }),
    ("8,192 per course", |p| p.beside(0)),
    ("one update more than the card holds", |p| p.beside(p.held() - 1)),
    ("one update fewer than the card holds", |p| p.beside(p.held() + 1)),
    ("course 3 is not counted", |p| {
        let held = p.others(|course| if course == 3 { 0 } else { p.updates(course).max(ASSURED) });
        p.beside(held)
    }),
    ("the own course is counted twice", |p| {
        let held = p.held() + p.updates(p.own).max(ASSURED);
        p.beside(held)
    }),
    ("updates are not given back", |p| {
        let held = p.others(|course| p.ever[course].max(ASSURED));
        p.beside(held)
    }),
    ("1,023 assured", |p| {
        // With 1,024 of its own a course is already above them.
        let full = p.enters() > 0 && p.updates(p.own) + p.enters() == ASSURED && p.is_full(1_025);
        p.twenty_if(|_, code| full && code == Code::Accepted)
    }),
    ("20 before 9", |p| p.twenty_if(|p, code| code == Code::LogFull && p.is_full(usize::MAX / 2))),
    ("20 before 5 of the same entry", |p| {
        p.twenty_if(|p, code| {
            let (_, place) = p.alone();
            code == Code::BadEntry && p.enters() > 0 && p.is_full(p.updates(p.own) + place + 1)
        })
    }),
    ("20 before 6, 7 and 8", |p| {
        let full = p.enters() > 0 && p.is_full(p.updates(p.own) + 1);
        p.twenty_if(|_, code| {
            full && [Code::OpenElsewhere, Code::InUse, Code::Stale].contains(&code)
        })
    }),
    ("20 of a later entry before a 5", |p| {
        p.twenty_if(|p, code| {
            code == Code::BadEntry && p.enters() > 1 && p.is_full(p.updates(p.own) + p.enters())
        })
    }),
    ("5 of a later entry before a 20", |p| {
        p.other_if(Code::BadEntry, |p, code| {
            code == Code::SharedLogFull && p.alone().0 == Code::BadEntry
        })
    }),
    ("a bundle counts as one update", |p| {
        let full = p.is_full(p.updates(p.own) + 1);
        match p.call {
            Call::Bundle { .. } if !full => p.beside(0),
            _ => p.right(),
        }
    }),
    ("a refused bundle leaves what fits", |p| {
        let before = p.updates(p.own);
        let right = p.right();
        if let (Code::SharedLogFull, Call::Bundle { client, revision, records }) =
            (right.code, p.call)
        {
            for call in updates_of(*client, *revision, records) {
                if p.is_full(p.updates(p.own) + 1) {
                    break;
                }
                let course = p.own as u8;
                p.lent.call(&CourseCall { course, call });
            }
            assert!(p.updates(p.own) >= before);
        }
        right
    }),
    ("20 for a query", |p| {
        let query = matches!(p.call, Call::Query { .. });
        let full = p.is_full(p.updates(p.own) + 1);
        p.twenty_if(|_, code| query && full && code == Code::Accepted)
    }),
    ("no fork where the others hold half the card", |p| {
        let wrong = matches!(p.call, Call::Fork { .. }) && 2 * p.held() >= CARD;
        p.other_if(Code::NoneLeft, |_, code| wrong && code == Code::Accepted)
    }),
    ("fresh refused for another's buffer", |p| match p.breaks_others() {
        true => Answer::refused(Code::NoTable),
        false => p.right(),
    }),
    ("the other buffers are not looked at", |p| {
        let tables = p.lent.tables.iter().all(|table| table.len() == 65_536);
        let held = if tables { p.held().min(CARD - ASSURED) } else { 0 };
        p.unchecked(held)
    }),
    ("refused for a row that nothing reads", |p| {
        let clean = |course: usize| p.lent.tables[course][31_744..32_256].iter().all(|&b| b == 0);
        let fresh = p.call.name() == "fresh";
        match fresh || (0..COURSES).all(|course| course == p.own || clean(course)) {
            true => p.right(),
            false => Answer::refused(Code::NoTable),
        }
    }),
    ("the result is written in course 0", |p| {
        let own = p.lent.tables[p.own].clone();
        let answer = p.right();
        if answer.code == Code::Accepted {
            let written = std::mem::replace(&mut p.lent.tables[p.own], own);
            p.lent.tables[0] = written;
        }
        answer
    }),
    ("every call is one of course 0", |p| {
        p.own = 0;
        p.right()
    }),
    ("a query of the next course", |p| {
        if let Call::Query { .. } = p.call {
            p.own = (p.own + 1) % COURSES;
        }
        p.right()
    }),
    ("the board of another course", |p| {
        let other = (p.own + 1) % COURSES;
        p.lent.boards.swap(p.own, other);
        let answer = p.right();
        p.lent.boards.swap(p.own, other);
        answer
    }),
    ("one board for all", |p| {
        p.lent.boards.swap(p.own, 0);
        let answer = p.right();
        p.lent.boards.swap(p.own, 0);
        answer
    }),
];

/// Makes the calls of a day by a wrong program. A number that is no course's is refused, or taken as one.
fn by(
    wrong: Wrong,
    numbers: fn(u8) -> Option<usize>,
) -> impl FnMut(&mut Federation, &CourseCall) -> Answer {
    let mut ever = [0; COURSES];
    move |lent, CourseCall { course, call }| {
        let Some(own) = numbers(*course) else { return Answer::refused(Code::NoTable) };
        let mut program = Program { lent, ever: &ever, own, call };
        let entered = program.enters();
        let answer = wrong(&mut program);
        if answer.code == Code::Accepted {
            ever[own] += entered;
        }
        answer
    }
}

/// The number of a course.
fn course(number: u8) -> Option<usize> {
    Some(usize::from(number)).filter(|&course| course < COURSES)
}

#[test]
fn wrong_courses_are_found() {
    let kinds = [(CardProfile::OPEN, 8), (CardProfile::FULL, 20), (CardProfile::FULL_TABLE, 30)];
    let days: Vec<Sample<CardStep>> =
        kinds.into_iter().flat_map(|(kind, count)| kind.days(0..count)).collect();
    let judged: Vec<Judged<'_>> = days.iter().map(|day| Judged::new(&day.calls)).collect();
    let found = |wrong: Wrong, numbers: fn(u8) -> Option<usize>| {
        let is_found = |day: &&Judged<'_>| {
            let mut make = by(wrong, numbers);
            day.fault(|lent, call| Ok(make(lent, call))).is_some()
        };
        judged.iter().filter(is_found).count()
    };
    for (name, wrong) in WRONG {
        let days = found(wrong, course);
        assert!(days >= 5, "{name}: found on {days} days of {}", judged.len());
    }
    // A number above 3 taken as a course.
    assert!(found(|p| p.right(), |number| Some(usize::from(number) % COURSES)) >= 5);
    assert!(found(|p| p.right(), |number| Some(usize::from(number).min(3))) >= 5);
    assert_eq!(found(|p| p.right(), course), 0, "the right program");
}

/// The wrong program of a name.
fn named(name: &str) -> Wrong {
    let found = WRONG.into_iter().find(|(wrong, _)| *wrong == name);
    found.unwrap_or_else(|| panic!("no wrong program `{name}`")).1
}

/// What 02 asks to show does not hold of these, without a look at the literal replay of the card.
#[test]
fn some_are_found_by_what_02_asks_to_show() {
    for name in [
        "8,192 per course",
        "one update fewer than the card holds",
        "updates are not given back",
        "1,023 assured",
        "20 for a query",
        "fresh refused for another's buffer",
        "every call is one of course 0",
    ] {
        must_find(name, CardProfile::FULL_TABLE.days(0..16), |steps| {
            fault_of_claims(steps, by(named(name), course))
        });
    }
    for name in ["a query of the next course", "no fork where the others hold half the card"] {
        must_find(name, CardProfile::UNDAMAGED.days(0..5), |steps| {
            fault_of_agreement(steps, |lent, call| by(named(name), course)(lent, call))
        });
    }
}
