//! The rental bill of a day: 02, U14.

use calls::Call;

use crate::printed::day_after;
use crate::record::Record;

/// In cents, when the day ends.
pub fn billed_day(records: &[Record], member: bool) -> u32 {
    day_after(records).call(&Call::Bill { member }).value
}
