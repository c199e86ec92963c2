//! The static library against `baseline`, which keeps the same cells and makes the same checks, in
//! one process; and, where it is installed, beside SQLite. docs/PERFORMANCE.md has the method and
//! figures.
//!
//!     cargo bench --offline --manifest-path rust/Cargo.toml -p silttongs
//!     cargo bench --offline --manifest-path rust/Cargo.toml -p silttongs -- --plot FILE

mod days;
mod plot;
mod sides;
mod sqlite;

use std::hint::black_box;
use std::time::Instant;

use calls::{Call, ASSURED, BIBS, CLIENTS, UPDATES};
use days::{
    alike, announcing, bib, bringing, bundle, chain, every_query, handed_in, in_turn, mark, marked,
    of_one_bib, sent_off, single_main, update, verify, whole, NAME,
};
use sides::{made, made_courses, Lent, Side, Step};
use silttongs::SHEET;

/// Each case is timed in so many rounds, between which the others have their turn.
const ROUNDS: usize = 20;
/// A round goes on for so many nanoseconds on each side, but has two samples at least.
const ROUND: u64 = 2_000_000;

/// Nanoseconds of the two sides: the fastest sample, which other work on the machine disturbed
/// least, without what reading the clock takes.
#[derive(Clone, Copy, Debug)]
pub(crate) struct Times {
    pub(crate) baseline: u64,
    pub(crate) library: u64,
}

/// Some calls on a table.
struct Case {
    name: String,
    day: Vec<Call>,
    lent: Lent,
    steps: Vec<Step>,
    times: Times,
}

impl Case {
    fn of_calls(name: impl Into<String>, day: &[Call], calls: &[Call]) -> Self {
        Case::of_steps(name, day, calls.iter().cloned().map(Step::Made).collect())
    }

    /// On course 0, with three courses beside it that have 1,024 updates each.
    fn of_course(name: impl Into<String>, day: &[Call], calls: &[Call]) -> Self {
        let lent = made_courses(day, &chain(ASSURED, 8));
        Case { lent, ..Case::of_calls(name, day, calls) }
    }

    fn of_steps(name: impl Into<String>, day: &[Call], steps: Vec<Step>) -> Self {
        let times = Times { baseline: u64::MAX, library: u64::MAX };
        Case { name: name.into(), day: day.to_vec(), lent: made(day), steps, times }
    }

    /// Both sides in turn, each sample on a copy of table and board; they must leave the same bytes, of
    /// the sheet too.
    fn round(&mut self) {
        let mut a = self.lent.clone();
        let mut b = a.clone();
        let mut spent = 0;
        let mut samples = 0;
        while spent < 2 * ROUND || samples < 2 {
            let baseline = sample(&self.lent, &mut a, Side::Baseline, &self.steps);
            let library = sample(&self.lent, &mut b, Side::Library, &self.steps);
            assert!(a == b, "{}: the bytes differ", self.name);
            self.times.baseline = self.times.baseline.min(baseline);
            self.times.library = self.times.library.min(library);
            spent += baseline + library;
            samples += 1;
        }
    }

    /// The value of the last call.
    fn value(&self) -> u64 {
        let mut lent = self.lent.clone();
        let calls = self.calls();
        let values = calls.iter().map(|call| Side::Library.call(&mut lent, call).1);
        values.last().flatten().unwrap_or(0)
    }

    /// The calls of a case that has nothing else; none of another, or of a course.
    fn calls(&self) -> Vec<Call> {
        if self.lent.others.is_some() {
            return Vec::new();
        }
        let call = |step: &Step| match step {
            Step::Made(call) => Some(call.clone()),
            Step::Board | Step::Bib(_) => None,
        };
        self.steps.iter().map(call).collect::<Option<_>>().unwrap_or_default()
    }

    fn ratio(&self) -> f64 {
        self.times.library as f64 / self.times.baseline as f64
    }
}

/// One run of the steps on a copy of table and board, in nanoseconds.
fn sample(from: &Lent, to: &mut Lent, side: Side, steps: &[Step]) -> u64 {
    to.copy(from);
    let start = Instant::now();
    side.run(black_box(to), steps);
    start.elapsed().as_nanos() as u64
}

/// What an empty sample takes.
fn clock() -> u64 {
    let mut empty = Case::of_calls("nothing", &[], &[]);
    (0..ROUNDS).for_each(|_| empty.round());
    empty.times.baseline.min(empty.times.library)
}

/// The calls that 01's users make, on middling and on full tables, and whole days.
fn single_calls() -> Vec<Case> {
    let middle = chain(2_048, 8);
    let one_revision = chain(UPDATES, 1);
    let full = chain(UPDATES, 8);
    let crowded = chain(UPDATES, 64);
    let query = |revision| [Call::Query { client: 0, revision, bib: 7 }];
    // The update a hundred before the end is a Time, and the last of its bib.
    let timed = bib(UPDATES - 100);
    let query_timed = |revision| [Call::Query { client: 0, revision, bib: timed }];
    let list = |revision| [Call::List { revision, room: SHEET }];
    let strange = [Call::Yield { client: CLIENTS }];
    let pair = [update(0, 7, 7), Call::Yield { client: 0 }];
    let preview = |bib| [Call::Preview { joiner: 6, joinee: 7, bib }];
    vec![
        Case::of_calls("range check alone: a yield with code 2", &middle, &strange),
        Case::of_calls("yield", &middle, &[Call::Yield { client: 0 }]),
        Case::of_calls("fill", &middle, &[Call::Fill { revision: 7 }]),
        Case::of_calls("update + yield, 2,048 updates, 8 boxes", &middle, &pair),
        Case::of_calls("bundle of 64, 2,048 updates, 8 boxes", &middle, &[bundle(0, 7, 7)]),
        Case::of_calls("query, no Time or Strike, 4,096 updates, 1 box", &one_revision, &query(0)),
        Case::of_calls("query, no Time or Strike, 4,096 updates, 8 boxes", &full, &query(7)),
        Case::of_calls("query, no Time or Strike, 4,096 updates, 64 boxes", &crowded, &query(63)),
        Case::of_calls(
            "query, 4,096 Earliest of its bib, 8 boxes",
            &of_one_bib(UPDATES, 8),
            &query(7),
        ),
        Case::of_calls("query, no Time or Strike, every link a jump", &in_turn(UPDATES), &query(0)),
        Case::of_calls("query, a Time in the last hundred, 1 box", &one_revision, &query_timed(0)),
        Case::of_calls("query, a Time in the last hundred, 8 boxes", &full, &query_timed(7)),
        Case::of_calls("query, a Time in the last hundred, 64 boxes", &crowded, &query_timed(63)),
        Case::of_calls("list of 4,096 updates, 1 box", &one_revision, &list(0)),
        Case::of_calls("list of 4,096 updates, 8 boxes", &full, &list(7)),
        Case::of_calls(
            "fork of box 0, 4,096 updates",
            &one_revision,
            &[Call::Fork { revision: 0 }],
        ),
        Case::of_calls(
            "fork of box 7, 4,096 updates, 8 boxes",
            &full,
            &[Call::Fork { revision: 7 }],
        ),
        Case::of_calls(
            "join of 512 updates, 8 boxes",
            &full,
            &[Call::Join { joiner: 6, joinee: 7 }],
        ),
        Case::of_calls("preview of that join, no Time or Strike", &full, &preview(7)),
        Case::of_calls("preview of that join, a Time in the last hundred", &full, &preview(timed)),
        Case::of_calls("fresh", &middle, &[Call::Fresh { single_main: false }]),
        Case::of_calls("fresh, single-main", &middle, &[Call::Fresh { single_main: true }]),
        Case::of_calls("day of 4,096 updates, 63 forks and joins", &[], &whole(false)),
        Case::of_calls("the same with 256 queries", &[], &whole(true)),
    ]
}

/// 02, U8: a sync, beside the join and the fork that it comes to, with a few boxes out and with 64.
fn synced() -> Vec<Case> {
    let of = |boxes: usize| {
        let calls = [
            ("sync", vec![Call::Sync { revision: 1 }]),
            ("join + fork", vec![Call::Join { joiner: 0, joinee: 1 }, Call::Fork { revision: 0 }]),
        ];
        let day = single_main(512, boxes);
        calls.map(|(name, calls)| {
            Case::of_calls(format!("{name} of 512 updates, {boxes} boxes out"), &day, &calls)
        })
    };
    [8, 64].into_iter().flat_map(of).collect()
}

/// 02, U9: marks, to be compared with the forks that they come to, and drops.
fn marks() -> Vec<Case> {
    let dropped = |boxes: usize| {
        let name = NAME.to_vec();
        Case::of_calls(format!("drop, {boxes} boxes out"), &marked(boxes), &[Call::Drop { name }])
    };
    vec![
        Case::of_calls("mark of box 0, 4,096 updates", &chain(UPDATES, 1), &[mark(0)]),
        Case::of_calls("mark of box 7, 4,096 updates, 8 boxes", &chain(UPDATES, 8), &[mark(7)]),
        dropped(8),
        dropped(64),
    ]
}

/// 02, U13: an order that fits, with 64 boxes out: each sent off by the one before it, or all by box 0.
fn verified() -> Vec<Case> {
    let (chain, alike) = (chain(UPDATES, 64), alike(UPDATES, 64));
    vec![
        Case::of_calls("verify of 4,096 updates, 64 boxes", &chain, &[verify(UPDATES)]),
        Case::of_calls("verify of 4,096 updates, 64 boxes alike", &alike, &[verify(UPDATES)]),
        Case::of_calls("verify that ends at the count", &chain, &[verify(UPDATES - 1)]),
        Case::of_calls("bill, 64 boxes, 4,096 updates", &chain, &[Call::Bill { member: true }]),
    ]
}

/// 02, U12: some of the single calls on a course, for what three more range checks cost.
fn coursed() -> Vec<Case> {
    let (middle, full) = (chain(2_048, 8), chain(UPDATES, 8));
    let on = |name: &str, day: &[Call], calls: &[Call]| {
        Case::of_course(format!("course: {name}"), day, calls)
    };
    let pair = [update(0, 7, 7), Call::Yield { client: 0 }];
    let query = [Call::Query { client: 0, revision: 7, bib: bib(UPDATES - 100) }];
    let list = [Call::List { revision: 7, room: SHEET }];
    vec![
        on("range check alone", &middle, &[Call::Yield { client: CLIENTS }]),
        on("update + yield, 2,048 updates, 8 boxes", &middle, &pair),
        on("bundle of 64, 2,048 updates, 8 boxes", &middle, &[bundle(0, 7, 7)]),
        on("query, a Time in the last hundred, 8 boxes", &full, &query),
        on("fork of box 0, 4,096 updates", &chain(UPDATES, 1), &[Call::Fork { revision: 0 }]),
        on("list of 4,096 updates, 8 boxes", &full, &list),
    ]
}

/// 02, U10: "a day of 4,096 updates with a full board read after each hundred"; the same day read by
/// 1,000 queries each time; and what is read at its end, at once and bib by bib.
fn announced() -> Vec<Case> {
    let hundreds = announcing();
    let day = hundreds.concat();
    let made = |calls: &[Call]| calls.iter().cloned().map(Step::Made).collect::<Vec<_>>();
    let with = |read: &[Step]| -> Vec<Step> {
        hundreds.iter().flat_map(|hundred| [made(hundred), read.to_vec()].concat()).collect()
    };
    let queries = made(&every_query());
    vec![
        Case::of_calls("announced day of 4,096 updates, never read", &[], &day),
        Case::of_steps("announced day, a full board read each hundred", &[], with(&[Step::Board])),
        Case::of_steps("announced day, 1,000 queries each hundred", &[], with(&queries)),
        Case::of_steps("full board read", &day, vec![Step::Board]),
        Case::of_steps("1,000 bibs read from the board", &day, (0..BIBS).map(Step::Bib).collect()),
        Case::of_steps("1,000 queries + yield", &day, queries),
        Case::of_calls("yield on box 0 that brings 4", &bringing(4), &[Call::Yield { client: 0 }]),
        Case::of_calls("join into box 0 that brings 512", &sent_off(512), &[JOIN]),
        Case::of_calls("join into box 0 that brings 4,096", &sent_off(UPDATES), &[JOIN]),
    ]
}

/// Of the box that [`sent_off`] makes.
const JOIN: Call = Call::Join { joiner: 0, joinee: 1 };

/// 02, U7: the same calls on a short day, and on one that has 20,000 forks and joins behind it.
fn reused() -> Vec<Case> {
    let short = chain(2_048, 8);
    let long = handed_in(short.clone(), 20_000);
    let calls = |day: &[Call]| {
        let join = Call::Join { joiner: 0, joinee: next(day) };
        [
            ("fork + join", vec![Call::Fork { revision: 0 }, join]),
            ("update + yield", vec![update(0, 7, 7), Call::Yield { client: 0 }]),
            ("query", vec![Call::Query { client: 0, revision: 7, bib: 7 }]),
            ("list", vec![Call::List { revision: 7, room: SHEET }]),
        ]
    };
    let of = |day: &[Call], after: &str| {
        let case = |(name, calls): (&str, Vec<Call>)| {
            Case::of_calls(format!("{name}, {after}"), day, &calls)
        };
        calls(day).map(case)
    };
    let pairs = of(&short, "7 forks").into_iter().zip(of(&long, "20,000 forks and joins"));
    pairs.flat_map(|(short, long)| [short, long]).collect()
}

/// The number that the next fork gives.
fn next(day: &[Call]) -> u8 {
    let mut table = baseline::Day::fresh();
    day.iter().for_each(|call| _ = table.call(call));
    table.call(&Call::Fork { revision: 0 }).value as u8
}

/// The calls on the last revision of chains of several sizes: the sizes, and the case of each.
fn growth(sizes: &[usize], chain_of: impl Fn(usize) -> (usize, usize)) -> Vec<(usize, Case)> {
    let of_size = |&size: &usize| {
        let (updates, revisions) = chain_of(size);
        let day = chain(updates, revisions);
        let last = revisions as u8 - 1;
        let entry = Call::Update { client: 0, revision: last, kind: 1, bib: 7, v: 1 };
        let calls = [
            ("query", vec![Call::Query { client: 0, revision: last, bib: 7 }]),
            ("list", vec![Call::List { revision: last, room: SHEET }]),
            ("fork", vec![Call::Fork { revision: last }]),
            ("join", vec![Call::Join { joiner: last - 1, joinee: last }]),
            ("update + yield", vec![entry, Call::Yield { client: 0 }]),
        ];
        calls.map(|(name, calls)| (size, Case::of_calls(name, &day, &calls)))
    };
    sizes.iter().flat_map(of_size).collect()
}

fn main() {
    let arguments: Vec<String> =
        std::env::args().skip(1).filter(|word| word != "--bench").collect();
    let plot = match &arguments[..] {
        [] => None,
        [flag, file] if flag == "--plot" => Some(file),
        _ => panic!("usage: --plot FILE, or nothing"),
    };

    let clock = clock();
    let kinds = [single_calls(), synced(), marks(), verified(), announced(), coursed(), reused()];
    let mut single: Vec<Case> = kinds.into_iter().flatten().collect();
    let mut by_updates = growth(&[64, 1_024, 2_048, 3_072, 4_080], |updates| (updates, 8));
    let mut by_revisions = growth(&[2, 8, 16, 32, 48, 63], |revisions| (2_048, revisions));
    for _ in 0..ROUNDS {
        single.iter_mut().for_each(Case::round);
        by_updates.iter_mut().chain(&mut by_revisions).for_each(|(_, case)| case.round());
    }

    let grown = by_updates.iter_mut().chain(&mut by_revisions).map(|(_, case)| case);
    for case in single.iter_mut().chain(grown) {
        case.times.baseline -= clock;
        case.times.library -= clock;
    }

    println!("{:<52} {:>10} {:>10} {:>7}", "nanoseconds", "baseline", "library", "ratio");
    single.iter().for_each(|case| print_case(&case.name, case));
    print_growth("updates, 8 boxes", &by_updates);
    print_growth("boxes, 2,048 updates", &by_revisions);
    print_sqlite(&single);
    if let Some(file) = plot {
        let points = |cases: &[(usize, Case)]| {
            cases.iter().map(|(size, case)| (case.name.clone(), *size, case.times)).collect()
        };
        let text = plot::svg(points(&by_updates), points(&by_revisions));
        std::fs::write(file, text).unwrap_or_else(|error| panic!("{file}: {error}"));
    }
}

fn print_growth(title: &str, cases: &[(usize, Case)]) {
    for (size, case) in cases {
        print_case(&format!("{}, {size} {title}", case.name), case);
    }
}

/// The times of the calls that a program on SQLite makes too, and answers alike.
fn print_sqlite(cases: &[Case]) {
    let calls: Vec<Vec<Call>> = cases.iter().map(Case::calls).collect();
    let days = cases.iter().zip(&calls).map(|(case, calls)| (&*case.name, &*case.day, &**calls));
    let days = days.filter(|(_, _, calls)| !calls.is_empty());
    let Some(times) = sqlite::times(days) else {
        println!("\nSQLite is not installed, or cc is not: no figures of it");
        return;
    };
    println!("\n{:<52} {:>10} {:>10}", "nanoseconds", "SQLite", "library");
    for case in cases {
        let Some(&(nanoseconds, value)) = times.get(&case.name) else { continue };
        if !matches!(case.steps[..], [Step::Made(Call::Bundle { .. })]) {
            assert_eq!(value, case.value(), "{}: SQLite answers otherwise", case.name);
        }
        println!("{:<52} {nanoseconds:>10} {:>10}", case.name, case.times.library);
    }
}

fn print_case(name: &str, case: &Case) {
    let Times { baseline, library } = case.times;
    println!("{name:<52} {baseline:>10} {library:>10} {:>7.2}", case.ratio());
}
