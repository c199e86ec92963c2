//! 02, U14, by the tool: the bill of a day, as the literal replay has it.

use calls::Call;
use dayfile::{billed_day, read_file};
use days::{days_of, Profile};
use literal::Day;

use super::samples::day_file;
use super::tool::{failure, output, FILE};

#[test]
fn bills_of_random_days() {
    let mut above = 0;
    for sample in days_of(&[(Profile::SMALL, 40), (Profile::MIXED, 20), (Profile::NESTED, 20)]) {
        let records = read_file(&day_file(&sample)).unwrap();
        let mut day = Day::fresh();
        records.iter().filter_map(|record| record.call()).for_each(|call| _ = day.call(&call));
        for member in [false, true] {
            let right = day.call(&Call::Bill { member }).value;
            assert_eq!(billed_day(&records, member), right, "{sample}");
            above += usize::from(right > 2_000);
        }
    }
    assert!(above >= 20, "{above} bills above the least");
}

/// Eight boxes, and 101 updates.
#[test]
fn the_bill_of_a_day() {
    let text = ["fork box 0\n".repeat(7), "update 0/0 Time bib 7 5\n".repeat(101)].concat();
    let file = output(&["pack"], text.as_bytes());
    assert_eq!(output(&["bill"], &file), b"2890\n");
    assert_eq!(output(&["bill", "-"], &file), b"2890\n");
    assert_eq!(output(&["bill", "-", "member"], &file), b"2457\n");
    assert_eq!(output(&["bill"], FILE), b"2000\n");
}

#[test]
fn no_bill_of_a_bad_file() {
    let message = "dayfile: bad file: 0 bytes, and the header alone has 8\n".to_string();
    assert_eq!(failure(&["bill"], b""), (Some(1), String::new(), message));
    assert_eq!(failure(&["bill", "-", "guest"], FILE).0, Some(2));
}
