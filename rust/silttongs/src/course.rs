//! The numbers of courses.

use crate::refusal::Refusal;

/// How many courses a federation day has.
pub const COURSES: usize = 4;

/// The number of a course, 0 to 3, checked when it is made.
///
/// ```
/// use silttongs::{Course, Refusal};
///
/// assert_eq!(Course::new(3), Ok(Course::ALL[3]));
/// assert_eq!(Course::new(4), Err(Refusal::NoTable));
/// assert_eq!(Course::ALL.map(u8::from), [0, 1, 2, 3]);
/// ```
#[derive(Clone, Copy, Debug, PartialEq, Eq, PartialOrd, Ord, Hash)]
pub struct Course(u8);

impl Course {
    /// All four.
    pub const ALL: [Course; COURSES] = [Course(0), Course(1), Course(2), Course(3)];

    /// The course of this number.
    ///
    /// # Errors
    ///
    /// [`Refusal::NoTable`] if it is above 3.
    pub fn new(number: u8) -> Result<Self, Refusal> {
        Course::ALL.get(usize::from(number)).copied().ok_or(Refusal::NoTable)
    }
}

impl From<Course> for u8 {
    fn from(course: Course) -> u8 {
        course.0
    }
}

impl From<Course> for usize {
    fn from(course: Course) -> usize {
        usize::from(course.0)
    }
}
