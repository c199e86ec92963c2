//! Whether a check passes on days: a failed one tells the seed, what is wrong, and a short day that
//! shows it.

use std::collections::BTreeMap;
use std::fmt::Display;

use crate::sample::{Sample, Steps};
use crate::tally;

/// Judges every day, of which there must be one at least.
///
/// # Panics
///
/// If the check answers with a complaint. The message has it, and the shortest day found that the
/// check still finds fault with.
#[track_caller]
pub fn must_pass<C: Steps>(
    days: impl IntoIterator<Item = Sample<C>>,
    check: impl Fn(&[C]) -> Option<String>,
) {
    let mut judged: BTreeMap<&'static str, u64> = BTreeMap::new();
    for day in days {
        if let Some(complaint) = check(&day.calls) {
            let length = day.calls.len();
            panic!("{day}, {length} calls: {complaint}\n{}", shortest(&day.calls, &check));
        }
        *judged.entry(day.kind).or_default() += 1;
    }
    assert!(!judged.is_empty(), "no day was judged");
    for (kind, days) in judged {
        tally::count(C::DAYS, kind, days);
        // The seeds of a kind are the same in every test.
        tally::measure(C::DAYS, kind, days);
    }
    tally::tell();
}

/// Judges days on which something was made wrong.
///
/// # Panics
///
/// If the check finds no fault with five of them at least.
#[track_caller]
pub fn must_find<C>(
    wrong: &str,
    days: impl IntoIterator<Item = Sample<C>>,
    check: impl Fn(&[C]) -> Option<String>,
) {
    let mut judged = 0;
    let complaints = days.into_iter().filter_map(|day| {
        judged += 1;
        check(&day.calls)
    });
    // The others would tell no more.
    let found = complaints.take(5).count();
    assert!(found == 5, "{wrong}: found on {found} days of {judged}");
}

/// The shortest day found that a check finds fault with, and what it says of that.
fn shortest<C: Clone + Display>(calls: &[C], check: impl Fn(&[C]) -> Option<String>) -> String {
    let day = shrunk(calls, |day| check(day).is_some());
    let complaint = check(&day).unwrap_or_default();
    let steps: String = day.iter().map(|call| format!("    {call}\n")).collect();
    format!("shortest day found: {complaint}\n{steps}")
}

/// How many calls are replayed at most in search of a shorter day.
const EFFORT: usize = 1_000_000;

/// Leaves out calls, many at once and then one by one, as long as the day still fails.
fn shrunk<C: Clone>(calls: &[C], fails: impl Fn(&[C]) -> bool) -> Vec<C> {
    let mut day = calls.to_vec();
    let mut width = day.len().div_ceil(2);
    let mut replayed = 0;
    while width > 0 {
        let mut start = 0;
        while start < day.len() && replayed < EFFORT {
            let mut shorter = day.clone();
            shorter.drain(start..(start + width).min(day.len()));
            replayed += shorter.len();
            if fails(&shorter) {
                day = shorter;
            } else {
                start += width;
            }
        }
        width /= 2;
    }
    day
}

#[cfg(test)]
mod tests {
    use calls::Call;

    use super::*;

    #[test]
    fn a_day_shrinks_to_what_fails() {
        let calls: Vec<Call> = (0..100).map(|client| Call::Yield { client }).collect();
        let kept = [17, 60, 99].map(|client| Call::Yield { client });
        let fails = |day: &[Call]| kept.iter().all(|call| day.contains(call));
        assert_eq!(shrunk(&calls, fails), kept);
    }

    fn day() -> Sample {
        Sample { kind: "kind", seed: 5, calls: vec![Call::Yield { client: 0 }] }
    }

    #[test]
    #[should_panic(expected = "day `kind`, seed 5, 1 calls: wrong")]
    fn a_complaint_is_printed_with_its_seed() {
        must_pass([day()], |_| Some("wrong".to_string()));
    }

    #[test]
    #[should_panic(expected = "no day was judged")]
    fn no_day_is_no_pass() {
        must_pass::<Call>([], |_| None);
    }

    #[test]
    #[should_panic(expected = "name: found on 4 days of 5")]
    fn what_is_wrong_must_be_found_often() {
        let days = (0..5).map(|seed| Sample {
            seed,
            calls: vec![day().calls[0].clone(); seed as usize],
            ..day()
        });
        must_find("name", days, |calls| (!calls.is_empty()).then(String::new));
    }
}
