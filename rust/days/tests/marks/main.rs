//! 02, U9, on random days: names, codes and lists of marks go by the calls before, and what comes of a mark
//! stays apart. And the days reach what they are for.

mod cells;
mod met;

use calls::Call;
use days::{days_of, fault_of_marks, fault_of_origins, must_find, must_pass, one_in, Profile};
use literal::Day;

/// The kinds of day with many marks, and others, and how many days of each are replayed.
const KINDS: [(Profile, u64); 6] = [
    (Profile::SMALL_MARKED, 600),
    (Profile::MARKED, 150),
    (Profile::CROWDED_MARKED, 16),
    (Profile::RENEWED, 100),
    (Profile::STRANGE, 100),
    (Profile::SINGLE_MAIN, 100),
];

#[test]
fn marks_go_by_the_calls_before() {
    let by_either = |calls: &[Call]| {
        fault_of_marks(Day::fresh(), calls, Day::call)
            .or_else(|| fault_of_marks(baseline::Day::fresh(), calls, baseline::Day::call))
    };
    must_pass(days_of(&KINDS), by_either);
}

/// A box that was forked from a mark is never taken over by box 0.
#[test]
fn what_comes_of_a_mark_stays_apart() {
    must_pass(one_in(4), |calls| fault_of_origins(Day::fresh(), calls, Day::call));
    must_pass(days_of(&KINDS), |calls| {
        fault_of_origins(baseline::Day::fresh(), calls, baseline::Day::call)
    });
}

/// A mark that is only a fork, with its name kept nowhere.
#[test]
fn a_mark_that_is_only_a_fork_is_found() {
    let make = |day: &mut Day, call: &Call| match *call {
        Call::Mark { revision, .. } => day.call(&Call::Fork { revision }),
        _ => day.call(call),
    };
    let days = || Profile::MARKED.days(0..30);
    must_find("by its codes", days(), |calls| fault_of_marks(Day::fresh(), calls, make));
    must_find("by its joins", days(), |calls| fault_of_origins(Day::fresh(), calls, make));
}
