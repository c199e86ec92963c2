//! A call on one of four tables: 02, U12.

use std::fmt;

use crate::Call;

/// "A call names its course, 0 to 3".
#[derive(Clone, Debug, PartialEq, Eq)]
pub struct CourseCall {
    /// The course as it comes, in range or not.
    pub course: u8,
    /// The call; a fresh makes the course's table fresh.
    pub call: Call,
}

impl fmt::Display for CourseCall {
    fn fmt(&self, f: &mut fmt::Formatter<'_>) -> fmt::Result {
        write!(f, "course {}: {}", self.course, self.call)
    }
}

#[cfg(test)]
mod tests {
    use super::*;

    #[test]
    fn a_call_is_written_behind_its_course() {
        let call = CourseCall { course: 3, call: Call::Yield { client: 1 } };
        assert_eq!(call.to_string(), "course 3: yield 1");
    }
}
