//! The proved program `day` on random and malformed day files: every byte that it prints is the
//! literal replay's.

use std::path::Path;
use std::process::Command;

use calls::{Call, UPDATES};
use dayfile::{read_file, read_text, write_file, Record, LONGEST, MOST_STEPS};
use days::{chains_of_joins, days_of, late_days, seeds, tally, Profile, Rng};

use super::run;
use super::samples::{day_file, file, printed_by_literal, random_records, record, with_gap};

/// What the program prints of a file on standard input.
fn printed(bytes: &[u8]) -> String {
    let program = Path::new(env!("CARGO_MANIFEST_DIR")).join("../../target/bin/day");
    assert!(
        program.is_file(),
        "{} is missing: run `tools/build` in the repository's folder",
        program.display()
    );
    String::from_utf8(run::output(&mut Command::new(program), bytes)).unwrap()
}

/// How many lines of what it prints say `struck`.
#[track_caller]
fn must_print(bytes: &[u8], what: &str) -> usize {
    let (printed, expected) = (printed(bytes), printed_by_literal(bytes));
    if printed != expected {
        let mut lines = printed.lines().zip(expected.lines());
        let differ = lines.find(|(line, other)| line != other);
        panic!("{what}: {} bytes of {}, {differ:?}", printed.len(), expected.len());
    }
    tally::count("files through the program", "", 1);
    tally::tell();
    printed.lines().filter(|line| line.ends_with(" 0 struck")).count()
}

/// A file of so many random records at most, and of a gap.
fn random_file(rng: &mut Rng, records: usize, gap: usize) -> Vec<u8> {
    let records = random_records(rng, records);
    let gap = rng.below(gap);
    with_gap(&records, gap, rng)
}

#[test]
fn random_days() {
    let kinds = [
        (Profile::SMALL, 60),
        (Profile::MIXED, 60),
        (Profile::NESTED, 60),
        (Profile::STALE, 40),
        (Profile::QUERIES, 40),
        (Profile::STRIKES, 60),
        (Profile::FORKS, 30),
        (Profile::STRANGE, 60),
        (Profile::FULL, 4),
        (Profile::REUSED, 6),
        (Profile::REUSED_NESTED, 6),
        (Profile::CROWDED, 6),
        (Profile::SMALL_REUSED, 30),
    ];
    let struck: usize =
        days_of(&kinds).map(|day| must_print(&day_file(&day), &day.to_string())).sum();
    assert!(struck >= 500, "{struck} lines say `struck`");
    for day in chains_of_joins(seeds(20)) {
        must_print(&day_file(&day), &day.to_string());
    }
}

#[test]
fn files_of_random_records() {
    let mut struck = 0;
    for seed in seeds(200) {
        let bytes = random_file(&mut Rng::new(seed), 200, 40);
        struck += must_print(&bytes, &format!("random records, seed {seed}"));
    }
    assert!(struck >= 10, "{struck} lines say `struck`");
}

/// 02, U2: every short day on which a late box brings updates.
#[test]
fn days_with_late_updates() {
    let mut struck = 0;
    for day in late_days() {
        let records: Vec<Record> =
            day.calls.iter().filter_map(|call| record(call, &mut Rng::new(0))).collect();
        let bytes = with_gap(&records, 0, &mut Rng::new(0));
        struck += must_print(&bytes, &day.to_string());
    }
    assert!(struck >= 100, "{struck} lines say `struck`");
}

/// `struck` stands for the value of a taken query that finds the bib struck, and nowhere else.
#[test]
fn struck_is_printed_for_taken_queries_of_struck_bibs_alone() {
    let text = "\
        update 0/0 Strike bib 7\n\
        query 0/0 bib 7\n\
        update 0/0 Earliest bib 7 60000\n\
        query 0/0 bib 7\n\
        update 0/0 Penalty bib 7 5000\n\
        query 0/0 bib 7\n\
        query 1/0 bib 7\n\
        query 0/0 bib 8\n\
        yield 0\n\
        fork box 0\n\
        query 0/1 bib 7\n\
        update 0/1 Time bib 7 62000\n\
        query 0/1 bib 7\n\
        update 0/1 Strike bib 7 9\n\
        update 0/1 Time bib 7 0\n\
        query 0/1 bib 7\n\
        yield 0\n\
        join 0 with 1\n\
        query 0/0 bib 7\n";
    let lines = "steps 19\n0 0 0\n1 0 struck\n2 0 1\n3 0 struck\n4 0 2\n5 0 struck\n6 7 0\n7 0 0\n\
        8 0 0\n9 0 1\n10 0 struck\n11 0 3\n12 0 62000\n13 0 4\n14 0 5\n15 0 0\n16 0 0\n17 0 3\n\
        18 0 0\n";
    let bytes = write_file(&read_text(text).unwrap()).unwrap();
    assert_eq!(printed(&bytes), lines);
    assert_eq!(printed_by_literal(&bytes), lines);
}

/// Files of which count, offset and length are each wrong in some cases; a few are good.
#[test]
fn malformed_files() {
    let mut bad = 0;
    for seed in seeds(300) {
        let mut rng = Rng::new(seed);
        let mut bytes = random_file(&mut rng, 20, 30);
        let [mut count, mut offset] =
            [0, 4].map(|at| u32::from_le_bytes(*bytes[at..].first_chunk().unwrap()));
        let any = rng.bits() as u32;
        if rng.percent(40) {
            // 12 times 2^30 is 0 modulo 2^32.
            let wrapped = [count + (1 << 30), count + (1 << 31), count + (3 << 30)];
            let near = [count + 1, count.wrapping_sub(1), (1 << 30) - 1, 0x1555_5556, any];
            count = rng.pick(&[&wrapped[..], &near].concat());
        }
        if rng.percent(40) {
            let fit = (bytes.len() as u32).wrapping_sub(count.wrapping_mul(Record::SIZE as u32));
            offset = rng.pick(&[fit, fit, 0, 7, 8, offset + Record::SIZE as u32, any]);
        }
        bytes[..4].copy_from_slice(&count.to_le_bytes());
        bytes[4..8].copy_from_slice(&offset.to_le_bytes());
        match rng.below(8) {
            0 => bytes.truncate(rng.below(bytes.len() + 1)),
            1 => bytes.extend((0..1 + rng.below(24)).map(|_| 3)),
            _ => {}
        }
        must_print(&bytes, &format!("malformed file, seed {seed}"));
        bad += u64::from(read_file(&bytes).is_err());
    }
    let good = seeds(300).end - bad;
    assert!(good > bad / 4 && bad > good, "{good} good files, {bad} bad ones");
}

/// 01's limits, and each length that is too short for a header.
#[test]
fn edges_of_a_file() {
    for length in 0..8 {
        must_print(&file(0, 8, length), &format!("length {length}"));
    }
    for offset in 0..10 {
        must_print(&file(0, offset, 8), &format!("no step, offset {offset}"));
        must_print(
            &file(1, offset, offset as usize + Record::SIZE),
            &format!("a step, offset {offset}"),
        );
    }
    let cases = [
        (5_460, 16, 65_536),
        (5_460, 17, 65_537),
        (5_461, 8, 65_536),
        (5_461, 8, 65_540),
        (0, 65_536, 65_536),
        (0, 65_537, 65_537),
        (0, 8, 65_536),
        (5_460, 16, 65_537),
        (0, 200_000, 200_000),
        ((1 << 30) + 1, 8, 20),
        (1 << 30, 8, 8),
        (1 << 31, 8, 8),
        (3 << 30, 8, 8),
        ((1 << 30) - 1, 20, 8),
        (0x1555_5555, 12, 8),
        (u32::MAX, 20, 8),
        (0, u32::MAX, 8),
        (1, u32::MAX - 3, 8),
    ];
    for (count, offset, length) in cases {
        must_print(&file(count, offset, length), &format!("{count} {offset} {length}"));
    }
}

/// The longest file with the longest lines: queries that answer 2^32 - 1.
#[test]
fn the_longest_printed_day() {
    let mut rng = Rng::new(0);
    let time = Call::Update { client: 0, revision: 0, kind: 1, bib: 7, v: u32::MAX };
    let query = Call::Query { client: 0, revision: 0, bib: 7 };
    let calls = std::iter::once(time).chain(std::iter::repeat_n(query, MOST_STEPS - 1));
    let records: Vec<Record> = calls.filter_map(|call| record(&call, &mut rng)).collect();
    let bytes = with_gap(&records, 8, &mut rng);
    assert_eq!(bytes.len(), LONGEST);
    must_print(&bytes, "the longest printed day");
}

/// 01: update 4,096 is taken, the next gives 9.
#[test]
fn a_full_log() {
    let mut rng = Rng::new(0);
    let update = Call::Update { client: 0, revision: 0, kind: 1, bib: 7, v: 1 };
    let calls = std::iter::repeat_n(update, UPDATES + 1);
    let records: Vec<Record> = calls.filter_map(|call| record(&call, &mut rng)).collect();
    let bytes = with_gap(&records, 0, &mut rng);
    must_print(&bytes, "a full log");
    assert!(printed(&bytes).ends_with("\n4095 0 4095\n4096 9 0\n"));
}
