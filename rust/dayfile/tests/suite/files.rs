//! Day files and printed days: 01's cases of a bad file, strange steps, limits, random files.

use calls::{Call, Code};
use dayfile::{
    answers, drawn_day, printed_day, read_file, read_text, write_file, write_text, BadFile, Record,
    LONGEST, MOST_STEPS,
};
use days::{Profile, Rng};

use super::samples::{file, printed_by_literal, random_records};

fn is_bad(bytes: &[u8]) -> bool {
    printed_day(bytes) == "bad file\n"
}

#[test]
fn the_example_of_01_prints_its_lines() {
    let text = include_str!("../../../../examples/crossing.txt");
    let bytes = include_bytes!("../../../../examples/crossing.day");
    let printed = "steps 12\n0 0 0\n1 0 0\n2 0 1\n3 0 1\n4 7 0\n5 0 0\n6 0 2\n7 0 0\n8 8 0\n\
        9 0 1\n10 0 65000\n11 4 0\n";
    assert_eq!(printed_day(bytes), printed);
    assert_eq!(write_file(&read_text(text).unwrap()).unwrap(), bytes);
    assert_eq!(write_text(&read_file(bytes).unwrap()), text);
}

/// 02, U2: `struck` for the value, as in `10 0 struck`.
#[test]
fn the_example_of_01_with_a_strike_prints_struck() {
    let text = include_str!("../../../../examples/crossing.txt");
    let text = text.replace("Penalty bib 7 5000", "Strike bib 7");
    let printed = printed_day(&write_file(&read_text(&text).unwrap()).unwrap());
    assert_eq!(printed.lines().nth(11), Some("10 0 struck"));
    assert_eq!(printed.matches("struck").count(), 1);
}

#[test]
fn a_file_without_steps() {
    assert_eq!(printed_day(&file(0, 8, 8)), "steps 0\n");
    assert_eq!(printed_day(&file(0, 100, 100)), "steps 0\n");
}

#[test]
fn bad_files_are_exactly_those_of_01() {
    for length in 0..8 {
        assert!(is_bad(&file(0, 8, length)), "length {length}");
    }
    for offset in 0..8 {
        assert!(is_bad(&file(1, offset, offset as usize + 12)), "offset {offset}");
        assert!(is_bad(&file(0, offset, 8)), "offset {offset}");
    }
    for count in 0..4 {
        for offset in 0..40 {
            for length in 0..90 {
                let good = length >= 8 && offset >= 8 && offset + 12 * count == length;
                let bytes = file(count, offset, length as usize);
                assert_eq!(is_bad(&bytes), !good, "count {count}, {offset}, length {length}");
            }
        }
    }
}

#[test]
fn the_longest_file() {
    assert_eq!(read_file(&file(5_460, 16, 65_536)).map(|records| records.len()), Ok(5_460));
    assert_eq!(read_file(&file(5_460, 17, 65_537)), Err(BadFile::Length(65_537)));
    assert_eq!(read_file(&file(0, 65_536, 65_536)), Ok(Vec::new()));
    assert_eq!(read_file(&file(0, 65_537, 65_537)), Err(BadFile::Length(65_537)));
}

/// Sums in 64 bits: 12 (2^30 + 1) + 8 is 20 modulo 2^32.
#[test]
fn a_count_does_not_wrap_into_a_fit() {
    for (count, offset, length) in
        [((1 << 30) + 1, 8, 20), (1 << 31, 8, 8), (0x5555_5555, 12, 8), (0, u32::MAX, 8)]
    {
        assert!(is_bad(&file(count, offset, length)), "count {count}, offset {offset}");
    }
}

#[test]
fn bytes_before_the_records_are_not_looked_at() {
    let mut bytes = file(1, 13, 25);
    bytes[13..].copy_from_slice(&[4, 9, 0, 9, 9, 9, 9, 9, 9, 9, 9, 9]);
    assert_eq!(printed_day(&bytes), "steps 1\n0 0 1\n");
}

/// Step bytes 0 and 6 to 255 give 13, value 0, and the day goes on.
#[test]
fn strange_steps() {
    for step in (0..=255).filter(|step| !(1..=5).contains(step)) {
        let strange = Record { step, client: 1, revision: 200, ..Record::default() };
        let fork = Record { step: 4, ..Record::default() };
        let bytes = write_file(&[fork, strange, fork]).unwrap();
        assert_eq!(printed_day(&bytes), "steps 3\n0 0 1\n1 13 0\n2 0 2\n", "step {step}");
    }
}

/// A yield with box 200 is a plain yield.
#[test]
fn fields_that_a_step_does_not_use_are_not_looked_at() {
    let other = Record { client: 200, revision: 200, second: 200, spare: 9, ..Record::default() };
    let other = Record { bib: 2_000, kind: 200, v: 7, ..other };
    let records = [
        Record { step: 3, client: 15, ..other },
        Record { step: 4, revision: 0, ..other },
        Record { step: 5, revision: 0, second: 1, ..other },
        Record { step: 2, client: 0, revision: 0, bib: 999, ..other },
        Record { step: 1, client: 0, revision: 0, bib: 999, kind: 1, second: 70, ..other },
    ];
    let bytes = write_file(&records).unwrap();
    assert_eq!(printed_day(&bytes), "steps 5\n0 0 0\n1 0 1\n2 0 0\n3 0 0\n4 0 0\n");
}

#[test]
fn more_steps_than_fit_are_not_written() {
    let record = Record { step: 3, ..Record::default() };
    let most = write_file(&vec![record; MOST_STEPS]).unwrap();
    assert!(most.len() <= LONGEST && most.len() + Record::SIZE > LONGEST);
    assert_eq!(write_file(&vec![record; MOST_STEPS + 1]), None);
}

/// Files of any bytes: a text of the file makes the same printed day, and the text of that is the
/// same again. The literal replay prints it too.
#[test]
fn random_files_print_alike_through_text_and_by_the_literal_replay() {
    for seed in 0..500 {
        let records = random_records(&mut Rng::new(seed), 60);
        let bytes = write_file(&records).unwrap();
        let text = write_text(&records);
        let again = write_file(&read_text(&text).unwrap()).unwrap();
        assert_eq!(read_file(&bytes).as_ref(), Ok(&records), "seed {seed}");
        assert_eq!(printed_day(&again), printed_day(&bytes), "seed {seed}");
        assert_eq!(write_text(&read_file(&again).unwrap()), text, "seed {seed}");
        assert_eq!(printed_by_literal(&bytes), printed_day(&bytes), "seed {seed}");
    }
}

/// A vertex for each accepted event, fork and join, and a start for each revision.
#[test]
fn random_files_are_drawn_step_by_step() {
    for seed in 0..500 {
        let records = random_records(&mut Rng::new(seed), 60);
        let accepted = || {
            let answered = records.iter().zip(answers(&records));
            answered.filter(|(_, answer)| answer.code == Code::Accepted).map(|(r, _)| r.call())
        };
        let forks = accepted().filter(|call| matches!(call, Some(Call::Fork { .. }))).count();
        let yields = accepted().filter(|call| matches!(call, Some(Call::Yield { .. }))).count();
        let picture = drawn_day(&records);
        let count = |mark| picture.matches(mark).count();
        assert_eq!(count("<circle class"), accepted().count() - yields, "seed {seed}");
        assert_eq!(count(">box "), forks + 1, "seed {seed}");
        assert_eq!(count("</svg>"), 1, "seed {seed}");
    }
}

/// A random day as text, as a file, and back: nothing is lost.
#[test]
fn days_survive_text_and_file() {
    let is_step = |call: &Call| match call {
        Call::Update { .. } | Call::Query { .. } | Call::Yield { .. } => true,
        Call::Fork { .. } | Call::Join { .. } => true,
        Call::List { .. } | Call::Fill { .. } | Call::Bundle { .. } | Call::Preview { .. } => false,
        Call::Fresh { .. } | Call::Sync { .. } | Call::Mark { .. } | Call::Drop { .. } => false,
        Call::Verify { .. } | Call::Bill { .. } | Call::OnBoard { .. } => false,
    };
    for mut day in Profile::STRANGE.days(0..200) {
        day.calls.retain(is_step);
        let text: String = day.calls.iter().map(|call| format!("{call}\n")).collect();
        let records = read_text(&text).unwrap();
        let file = write_file(&records).unwrap();
        let calls: Vec<Call> = read_file(&file).unwrap().iter().filter_map(|r| r.call()).collect();
        assert_eq!(calls, day.calls, "{day}");
        assert_eq!(write_text(&records), text, "{day}");
    }
}
