//! The meeting, a day of 20,100 forks: the literal replay and the baseline make of it what the
//! program `meeting` prints.

use days::meeting;

/// What the program prints.
const PRINTED: &str = include_str!("../../../crates/meeting/stdout");

#[test]
fn the_meeting_by_the_literal_replay() {
    let mut day = literal::Day::fresh();
    assert_eq!(meeting(|call| day.call(call)), PRINTED);
}

#[test]
fn the_meeting_by_the_baseline() {
    let mut day = baseline::Day::fresh();
    assert_eq!(meeting(|call| day.call(call)), PRINTED);
}
