//! The meeting, a day of 20,100 forks: the static library makes of it what the program `meeting`
//! prints.

use days::meeting;

use super::given::{answered, Bytes};

#[test]
fn the_meeting_by_the_library() {
    let mut bytes = Bytes::fresh();
    let printed = include_str!("../../../../crates/meeting/stdout");
    assert_eq!(meeting(|call| answered(&mut bytes, call)), printed);
}
