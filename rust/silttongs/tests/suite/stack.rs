//! The calls run on a stack of 96 KiB, as docs/PERFORMANCE.md says.

use std::process::Command;
use std::{env, thread};

use calls::{order_file, Call, UPDATES};
use days::{one_in, seeds, tally, CardProfile, CardStep, Rng};
use silttongs::{
    Board, Course, Day, Entry, Federation, Kind, Refusal, Standing, Table, BOARD, BUNDLE, BYTES,
    COURSES, SHEET,
};

use super::cells::cells;
use super::given::{answered, course_library, Bytes};
use super::random::{any_board, any_call, damaged, names, taken};

/// In KiB.
const STACK: usize = 96;

/// The longest own list, and so the deepest recursion, on box 1: a query walks it, and a fork, a mark, a
/// list, a preview and a verify too.
#[test]
fn the_deepest_calls_fit_in_96_kib() {
    deepest_calls(STACK);
}

fn deepest_calls(kib: usize) {
    let run = || {
        let single = (UPDATES - BUNDLE) as u32;
        let mut board = Board::from_bytes(vec![0; BOARD]);
        let mut table = Table::fresh(vec![0; BYTES], &mut board, Day::Ordinary)?;
        table.fork(0)?;
        table.update(0, 1, Kind::Time, 7, 1)?;
        for v in 2..=single {
            table.update(0, 1, Kind::Penalty, 7, v)?;
        }
        let entries: [Entry; BUNDLE] =
            std::array::from_fn(|i| Entry::new(Kind::Penalty, 7, single + 1 + i as u32));
        table.bundle_entries(&mut board, 0, 1, &entries)?;
        let standing = table.query(0, 1, 7)?;
        table.yield_(&mut board, 0)?;
        table.list(1, &mut vec![0; SHEET])?;
        table.fill(1)?;
        table.bill(true)?;
        let numbers: Vec<u16> = (0..UPDATES as u16).collect();
        assert_eq!(table.verify(&order_file(&numbers)), Ok(true));
        assert_eq!(table.preview(0, 1, 7)?.standing, standing);
        table.fork(1)?;
        table.mark(1, "JURY")?;
        table.drop("JURY")?;
        table.sync(&mut board, 1)?;
        table.join(&mut board, 0, 2)?;
        Ok::<Standing, Refusal>(standing)
    };
    assert_eq!(on_a_stack(kib, run), Ok(Standing::Timed(SUM)));
}

/// The same on a course, beside three others.
#[test]
fn the_deepest_calls_of_a_course_fit_in_96_kib() {
    deepest_calls_of_a_course(STACK);
}

fn deepest_calls_of_a_course(kib: usize) {
    let run = || {
        let boards = [(); COURSES].map(|()| Board::from_bytes(vec![0; BOARD]));
        let tables = [(); COURSES].map(|()| vec![0; BYTES]);
        let mut courses = Federation::from_bytes(tables, boards);
        for course in Course::ALL {
            courses.fresh(course, Day::Ordinary)?;
        }
        let own = Course::ALL[3];
        courses.fork(own, 0)?;
        courses.update(own, 0, 1, Kind::Time, 7, 1)?;
        for v in 2..=(UPDATES - BUNDLE) as u32 {
            courses.update(own, 0, 1, Kind::Penalty, 7, v)?;
        }
        let entries: [Entry; BUNDLE] = std::array::from_fn(|i| {
            Entry::new(Kind::Penalty, 7, (UPDATES - BUNDLE + 1 + i) as u32)
        });
        courses.bundle_entries(own, 0, 1, &entries)?;
        let standing = courses.query(own, 0, 1, 7)?;
        courses.yield_(own, 0)?;
        courses.list(own, 1, &mut vec![0; SHEET])?;
        courses.fill(own, 1)?;
        courses.bill(own, true)?;
        let numbers: Vec<u16> = (0..UPDATES as u16).collect();
        assert_eq!(courses.verify(own, &order_file(&numbers)), Ok(true));
        assert_eq!(courses.preview(own, 0, 1, 7)?.standing, standing);
        courses.fork(own, 1)?;
        courses.mark(own, 1, "JURY")?;
        courses.drop(own, "JURY")?;
        courses.sync(own, 1)?;
        courses.join(own, 0, 2)?;
        Ok::<Standing, Refusal>(standing)
    };
    assert_eq!(on_a_stack(kib, run), Ok(Standing::Timed(SUM)));
}

/// Of all arguments.
const SUM: u32 = (UPDATES * (UPDATES + 1) / 2) as u32;

/// What comes of calls on a stack of so many KiB.
fn on_a_stack<T: Send + 'static>(kib: usize, run: impl FnOnce() -> T + Send + 'static) -> T {
    thread::Builder::new().stack_size(kib * 1024).spawn(run).unwrap().join().unwrap()
}

/// Any calls, on damaged buffers.
fn calls_on_damaged_buffers(kib: usize) {
    let cells = cells();
    for seed in seeds(50) {
        let mut rng = Rng::new(seed);
        let mut bytes = Bytes { table: damaged(&cells, &mut rng), board: any_board(&mut rng) };
        let (names, taken) = (names(&bytes.table), taken(&bytes.table));
        let calls: Vec<Call> = (0..16).map(|_| any_call(&mut rng, &names, taken)).collect();
        on_a_stack(kib, move || calls.iter().for_each(|call| _ = answered(&mut bytes, call)));
    }
}

/// Days on a table, and on four.
fn random_days(kib: usize) {
    for day in one_in(60) {
        let mut bytes = Bytes::fresh();
        on_a_stack(kib, move || day.calls.iter().for_each(|call| _ = answered(&mut bytes, call)));
    }
    for day in CardProfile::FULL_TABLE.days(seeds(1)) {
        let mut lent = baseline::Federation::new();
        on_a_stack(kib, move || {
            day.calls.iter().for_each(|step| match step {
                CardStep::Made(call) => _ = course_library(&mut lent, call),
                CardStep::Broken(damage) | CardStep::Scratched(damage) => damage.put(&mut lent),
            });
        });
    }
}

/// How many KiB all of these need, in pages of 4: this test runs itself on smaller stacks, and one that is
/// too small ends the process.
#[test]
fn the_least_stack() {
    const KIB: &str = "SILTTONGS_STACK_KIB";
    if let Ok(kib) = env::var(KIB) {
        let kib = kib.parse().unwrap();
        for run in [deepest_calls, deepest_calls_of_a_course, calls_on_damaged_buffers, random_days]
        {
            run(kib);
        }
        return;
    }
    let fits = |kib: &usize| {
        let mut alone = Command::new(env::current_exe().unwrap());
        alone.args(["--exact", "stack::the_least_stack"]).env(KIB, kib.to_string());
        alone.env_remove("DAYS_TALLY").output().unwrap().status.success()
    };
    let sizes: Vec<usize> = (4..=STACK).step_by(4).collect();
    let least = sizes.partition_point(|kib| !fits(kib));
    assert!(least < sizes.len(), "more than {STACK} KiB");
    println!("{} KiB", sizes[least]);
    tally::measure("stack", "KiB", sizes[least] as u64);
    tally::tell();
}
