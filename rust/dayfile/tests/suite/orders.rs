//! 02, U13, by the tool: the order that it writes fits, and of another it says what the literal replay
//! does, with a reason.

use std::collections::BTreeMap;
use std::path::PathBuf;

use calls::{order_file, Answer, Call, CLIENTS, SHEET};
use dayfile::{misfit, ordered_day, read_file, read_text, Misfit, Record};
use days::{chains_of_joins, days_of, every_order, own_order, seeds, Profile};
use literal::Day;

use super::samples::day_file;
use super::tool::{failure, output, FILE};

/// The literal replay after these steps.
fn literal_day(records: &[Record]) -> Day {
    let mut day = Day::fresh();
    records.iter().filter_map(|record| record.call()).for_each(|call| _ = day.call(&call));
    day
}

/// What is said of an order, as the call answers it.
fn said(records: &[Record], order: &[u8]) -> Answer {
    match misfit(records, order) {
        Ok(misfit) => Answer::accepted(u32::from(misfit.is_none())),
        Err(code) => Answer::refused(code),
    }
}

fn name_of(misfit: Misfit) -> &'static str {
    match misfit {
        Misfit::TooHigh { .. } => "too high",
        Misfit::Twice(_) => "twice",
        Misfit::Missing(_) => "missing",
        Misfit::Swapped { .. } => "swapped",
    }
}

/// The numbers of a file that is no bad list, and has an offset of one byte.
fn numbers(order: &[u8]) -> Vec<u16> {
    let (numbers, _) = order[usize::from(order[4])..].as_chunks();
    numbers.iter().map(|&number| u16::from_le_bytes(number)).collect()
}

/// Whether the reason is one, by the lists of the literal replay.
fn holds(day: &Day, numbers: &[u16], misfit: Misfit) -> bool {
    let place = |number: u16| numbers.iter().position(|&other| other == number);
    match misfit {
        Misfit::TooHigh { number, taken } => {
            taken == day.updates().len() && taken <= usize::from(number) && place(number).is_some()
        }
        Misfit::Twice(twice) => numbers.iter().filter(|&&number| number == twice).count() >= 2,
        Misfit::Missing(missing) => {
            usize::from(missing) < day.updates().len() && place(missing).is_none()
        }
        Misfit::Swapped { revision, first, second } => {
            let mut idle = day.clone();
            (0..CLIENTS).for_each(|client| _ = idle.call(&Call::Yield { client }));
            let listed = idle.call(&Call::List { revision, room: SHEET }).lines;
            let at = |number| listed.iter().position(|line| line.number == u32::from(number));
            at(first) < at(second) && at(first).is_some() && place(second) < place(first)
        }
    }
}

/// The own line-up is written, and every other order gets what the literal replay says of it; a no has a
/// reason that holds.
#[test]
fn orders_of_random_days() {
    let kinds = [
        (Profile::SMALL, 60),
        (Profile::MIXED, 10),
        (Profile::NESTED, 10),
        (Profile::STRIKES, 10),
        (Profile::SMALL_REUSED, 2),
    ];
    let mut met: BTreeMap<&str, usize> = BTreeMap::new();
    for sample in days_of(&kinds).chain(chains_of_joins(seeds(3))) {
        let records = read_file(&day_file(&sample)).unwrap();
        let day = literal_day(&records);
        assert_eq!(ordered_day(&records), order_file(&own_order(&day)), "{sample}");
        for verify in every_order(&day) {
            let Call::Verify { ref order } = verify else { unreachable!("no other call") };
            assert_eq!(said(&records, order), day.clone().call(&verify), "{sample}: `{verify}`");
            let name = match misfit(&records, order) {
                Ok(Some(misfit)) => {
                    assert!(holds(&day, &numbers(order), misfit), "{sample}: `{verify}`: {misfit}");
                    name_of(misfit)
                }
                Ok(None) => "yes",
                Err(_) => "bad list",
            };
            *met.entry(name).or_default() += 1;
        }
    }
    let names = ["bad list", "missing", "swapped", "too high", "twice", "yes"];
    assert!(met.keys().eq(&names) && met.values().all(|&times| times >= 50), "{met:?}");
}

/// A file of this test alone.
struct Made(PathBuf);

impl Made {
    fn new(name: &str, bytes: &[u8]) -> Self {
        let path = std::env::temp_dir().join(format!("dayfile-{name}-{}", std::process::id()));
        std::fs::write(&path, bytes).unwrap();
        Made(path)
    }

    fn name(&self) -> &str {
        self.0.to_str().unwrap()
    }
}

impl Drop for Made {
    fn drop(&mut self) {
        // Nothing hangs on a file that stays.
        let _ = std::fs::remove_file(&self.0);
    }
}

/// What box 1 brought stands behind what box 0 took.
#[test]
fn writes_the_order_of_the_example() {
    assert_eq!(output(&["order"], FILE), order_file(&[0, 2, 1]));
    let made = Made::new("order", b"");
    let day = Made::new("order-of", FILE);
    assert_eq!(output(&["order", day.name(), made.name()], b""), b"");
    assert_eq!(std::fs::read(made.name()).unwrap(), order_file(&[0, 2, 1]));
}

#[test]
fn says_yes_to_what_it_wrote() {
    let day = Made::new("yes-day", FILE);
    let order = Made::new("yes-order", &output(&["order"], FILE));
    assert_eq!(output(&["verify", day.name(), order.name()], b""), b"yes\n");
    assert_eq!(output(&["verify", "-", order.name()], FILE), b"yes\n");
    let written = output(&["order", day.name()], b"");
    assert_eq!(output(&["verify", day.name(), "-"], &written), b"yes\n");
}

#[test]
fn says_no_with_the_first_reason() {
    let day = Made::new("no-day", FILE);
    let reasons: [(&[u16], &str); 6] = [
        (&[0, 1, 2], "update 1 stands before 2, and box 0 lists 2 first"),
        (&[2, 0, 1], "update 2 stands before 0, and box 0 lists 0 first"),
        (&[0, 2, 0], "update 0 stands there twice"),
        (&[0, 2], "update 1 is missing"),
        (&[], "update 0 is missing"),
        (&[0, 2, 3], "3 is no update: 3 were taken, numbered from 0"),
    ];
    for (numbers, reason) in reasons {
        let no = failure(&["verify", day.name(), "-"], &order_file(numbers));
        assert_eq!(no, (Some(1), "no\n".to_string(), format!("dayfile: {reason}\n")));
    }
}

#[test]
fn refuses_a_bad_list() {
    let day = Made::new("bad-day", FILE);
    let written = output(&["order"], FILE);
    let mut wraps = written.clone();
    wraps[3] = 0x80;
    let mut within = written.clone();
    within[4] = 7;
    let message = "dayfile: 21 bad list: length or offset under 8, or offset + 2 times the count \
        isn't the length\n";
    for bad in [&written[..written.len() - 1], &written[..7], &[], &wraps, &within[..13]] {
        let refused = failure(&["verify", day.name(), "-"], bad);
        assert_eq!(refused, (Some(1), String::new(), message.to_string()), "{bad:?}");
    }
}

/// An open transaction counts: the second update is not yielded.
#[test]
fn a_busy_box_counts() {
    let records = read_text("update 0/0 Time bib 7 5\nupdate 0/0 Time bib 7 6\n").unwrap();
    assert_eq!(ordered_day(&records), order_file(&[0, 1]));
    assert_eq!(misfit(&records, &order_file(&[0, 1])), Ok(None));
    let swapped = Misfit::Swapped { revision: 0, first: 0, second: 1 };
    assert_eq!(misfit(&records, &order_file(&[1, 0])), Ok(Some(swapped)));
    assert_eq!(misfit(&records, &order_file(&[0])), Ok(Some(Misfit::Missing(1))));
}

#[test]
fn two_files_are_asked_for() {
    let message = "dayfile: the day and its order are two files\n".to_string();
    assert_eq!(failure(&["verify", "-", "-"], FILE), (Some(1), String::new(), message));
}
