//! The longest day file through two programs that print the same: the proved `day`, and `dayfile
//! print`, which is plain Rust. They take turns; the fastest run of each counts.
//!
//!     bash tools/build
//!     cargo bench --offline --manifest-path rust/Cargo.toml -p dayfile

use std::fs::File;
use std::path::{Path, PathBuf};
use std::process::{Command, Stdio};
use std::time::{Duration, Instant};

use calls::BIBS;
use dayfile::{write_file, Record, MOST_STEPS};

/// How many runs each program has.
const RUNS: usize = 200;

/// Updates in transactions of ten; with `queries`, each transaction asks for a bib too.
fn longest(queries: bool) -> Vec<u8> {
    let record = |i: usize| {
        let step = match i % 12 {
            10 if queries => 2,
            11 => 3,
            _ => 1,
        };
        let bib = (i % usize::from(BIBS)) as u16;
        Record { step, kind: 1, bib, v: i as u32, ..Record::default() }
    };
    let records: Vec<Record> = (0..MOST_STEPS).map(record).collect();
    write_file(&records).expect("as many steps as fit")
}

/// The command's output and the time from its start to its end.
fn timed(mut command: Command, file: &Path) -> (Vec<u8>, Duration) {
    command.stdin(Stdio::from(File::open(file).expect("the day was just written")));
    let start = Instant::now();
    let output = command.output().expect("the program runs");
    (output.stdout, start.elapsed())
}

fn main() {
    let day = Path::new(env!("CARGO_MANIFEST_DIR")).join("../../target/bin/day");
    assert!(day.is_file(), "{} is missing: run `tools/build`", day.display());
    println!("{:30}{:>10}{:>10}{:>8}", "microseconds", "baseline", "proved", "ratio");
    for (name, queries) in [("5,460 steps", false), ("5,460 steps with 455 queries", true)] {
        let file = PathBuf::from(env!("CARGO_TARGET_TMPDIR")).join("longest.day");
        std::fs::write(&file, longest(queries)).expect("the folder is cargo's");
        let mut fastest = [Duration::MAX; 2];
        for _ in 0..RUNS {
            let mut baseline = Command::new(env!("CARGO_BIN_EXE_dayfile"));
            baseline.arg("print");
            let baseline = timed(baseline, &file);
            let proved = timed(Command::new(&day), &file);
            assert!(baseline.0 == proved.0, "{name}: what they print differs");
            fastest = [fastest[0].min(baseline.1), fastest[1].min(proved.1)];
        }
        let [baseline, proved] = fastest.map(|time| time.as_secs_f64() * 1e6);
        println!("{name:30}{baseline:10.0}{proved:10.0}{:8.2}", proved / baseline);
    }
}
