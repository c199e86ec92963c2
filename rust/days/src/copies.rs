//! Calls that are judged by what other calls do on a copy.

use calls::{Answer, Call};

/// The first call of a day that does not answer and leave what is right, in words. `make` makes one
/// call. `right` gets a call and a copy of the day from before it; it tells the right answer, once for
/// each way to find it, and the day that is rightly left, or nothing of a call that it does not judge.
pub(crate) fn fault_on_copies<D: Clone + PartialEq>(
    mut day: D,
    calls: &[Call],
    make: impl Fn(&mut D, &Call) -> Answer,
    right: impl Fn(&Call, D) -> Option<(Vec<Answer>, D)>,
) -> Option<String> {
    calls.iter().find_map(|call| {
        let before = day.clone();
        let given = make(&mut day, call);
        let (right, left) = right(call, before)?;
        assert_ne!(right.len(), 0, "a judged call is compared");
        if let Some(other) = right.iter().find(|&right| *right != given) {
            return Some(format!("`{call}`: gives {given}, not {other}"));
        }
        (day != left).then(|| format!("`{call}`: gives {given} and leaves another table"))
    })
}
