//! 02, U10, on random days: a board lent to every call that takes one is as worked out afresh, and any
//! other board has what its promise says.

use std::collections::BTreeMap;

use calls::{Answer, Call, Code, BOARD};
use days::{
    brought, chains_of_joins, days_of, fault_of_boards, late_days, must_pass, once_in, one_in,
    seeds, Profile, Sample,
};
use literal::{Day, Update};

type Bytes = Vec<u8>;

/// By the baseline, on its bytes.
fn by_baseline(calls: &[Call]) -> Option<String> {
    let table = baseline::Day::fresh().bytes().to_vec();
    fault_of_boards(table, calls, calls.len() as u64, |t: &mut Bytes, board, call| {
        baseline::call(t, board, call).unwrap_or_else(Answer::refused)
    })
}

#[test]
fn boards_are_right_after_every_call() {
    must_pass(one_in(8), by_baseline);
    let small = [
        (Profile::SMALL, 150),
        (Profile::SMALL_MARKED, 50),
        (Profile::SMALL_SINGLE_MAIN, 100),
        (Profile::SMALL_REUSED, 4),
    ];
    must_pass(days_of(&small), by_baseline);
    must_pass(chains_of_joins(seeds(5)), by_baseline);
    must_pass(late_days(), by_baseline);
}

/// How often something is met.
#[derive(Default)]
struct Met(BTreeMap<String, usize>);

impl Met {
    fn note(&mut self, what: &str) {
        *self.0.entry(what.to_string()).or_default() += 1;
    }

    fn call(&mut self, before: &Day, after: &Day, call: &Call, answer: &Answer) {
        let name = call.name();
        match answer.code {
            Code::WrongBoard => return self.note(&format!("{name}, wrong board")),
            Code::Accepted => {}
            _ => return,
        }
        if !call.takes_a_board() || name == "fresh" {
            return;
        }
        let brought = brought(before, after);
        if brought.is_empty() {
            return self.note(&format!("{name}, nothing brought"));
        }
        self.note(&format!("{name}, updates brought"));
        if let Call::Bundle { records, .. } = call {
            if brought.len() > records.len() / 12 {
                self.note("bundle, entered singly before");
            }
        }
        let twice =
            |update: &Update| brought.iter().filter(|other| other.bib == update.bib).count() > 1;
        if brought.iter().any(twice) {
            self.note(&format!("{name}, a bib twice"));
        }
        let open = after.transactions().iter().any(|t| t.is_open());
        if open {
            self.note("another transaction open");
        }
    }
}

/// Random days have calls of every kind that bring something and that do not, many times over.
#[test]
fn calls_of_every_kind_are_made() {
    let mut met = Met::default();
    for Sample { calls, .. } in once_in(4) {
        let mut day = Day::fresh();
        for call in calls {
            let before = call.takes_a_board().then(|| day.clone());
            let answer = day.call(&call);
            if let Some(before) = before {
                met.call(&before, &day, &call, &answer);
            }
        }
    }
    let kinds = [
        "another transaction open",
        "bundle, a bib twice",
        "bundle, entered singly before",
        "bundle, nothing brought",
        "bundle, updates brought",
        "bundle, wrong board",
        "fresh, wrong board",
        "join, a bib twice",
        "join, nothing brought",
        "join, updates brought",
        "join, wrong board",
        "sync, a bib twice",
        "sync, nothing brought",
        "sync, updates brought",
        "sync, wrong board",
        "yield, a bib twice",
        "yield, nothing brought",
        "yield, updates brought",
        "yield, wrong board",
    ];
    let Met(met) = met;
    assert!(met.keys().eq(&kinds), "{met:#?}");
    assert!(met.values().all(|&times| times >= 20), "{met:#?}");
}

/// Lengths that are no board's, by the baseline.
#[test]
fn only_5000_bytes_are_a_board() {
    assert_eq!((BOARD, baseline::BOARD), (5_000, 5_000));
    for length in [0, 1, 4_995, 4_999, 5_001, 5_005, 10_000, 65_536] {
        let mut t = baseline::Day::fresh().bytes().to_vec();
        let before = t.clone();
        let mut board = vec![0xa5; length];
        let calls = [
            Call::Yield { client: 255 },
            Call::Join { joiner: 0, joinee: 64 },
            Call::Sync { revision: 0 },
            Call::Bundle { client: 16, revision: 0, records: vec![9; 12] },
            Call::Fresh { single_main: true },
        ];
        for call in calls {
            let refused = baseline::call(&mut t, &mut board, &call);
            assert_eq!(refused, Err(Code::WrongBoard), "{length} bytes, `{call}`");
        }
        let empty = Call::Bundle { client: 16, revision: 0, records: vec![] };
        assert_eq!(baseline::call(&mut t, &mut board, &empty), Err(Code::WrongBundle));
        assert!(t == before && board.iter().all(|&byte| byte == 0xa5), "{length} bytes: changed");
    }
}
