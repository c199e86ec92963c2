//! 02, U4, "A whole bundle from a tablet": its edges, and what a wrong bundle would do.

use calls::{Call, Code, Line};

use super::{
    answers, busy_revisions, day, fill, fork, list, query, refused_after, update, yields, Row,
    EARLIEST, PENALTY, STRIKE, TIME,
};

/// A bundle of these kinds, bibs and arguments. Client and number of each record are of no account.
fn bundle(client: u8, revision: u8, entries: &[(u8, u16, u32)]) -> Call {
    let record = |(&(kind, bib, v), number)| {
        Line { kind, client: 77, bib, v, number: 4_000_000_000 + number }.to_bytes()
    };
    let records = entries.iter().zip(0_u32..).flat_map(record).collect();
    Call::Bundle { client, revision, records }
}

/// So many entries of bib 7.
fn times(count: usize) -> Vec<(u8, u16, u32)> {
    vec![(TIME, 7, 61000); count]
}

#[test]
fn the_updates_and_then_a_yield() {
    day(&[
        (update(1, 0, TIME, 9, 1), 0, 0),
        (yields(1), 0, 0),
        (bundle(0, 0, &[(TIME, 7, 61000), (PENALTY, 7, 5000), (STRIKE, 8, 0)]), 0, 1),
        // Yielded: the box is idle, for forks and for other tablets.
        (fork(0), 0, 1),
        (query(1, 0, 7), 0, 66000),
        (yields(1), 0, 0),
        (bundle(1, 0, &[(EARLIEST, 7, 60000)]), 0, 4),
        (query(2, 0, 7), 0, 60000),
    ]);
}

/// The client is the one that sends it, and the numbers are those of the day.
#[test]
fn the_client_and_number_of_a_record_are_not_looked_at() {
    let calls = [bundle(15, 0, &[(TIME, 7, 1), (STRIKE, 999, 2)]), list(0, 24)];
    let lines = answers(&calls).pop().unwrap().lines;
    let line = |kind, bib, v, number| Line { kind, client: 15, bib, v, number };
    assert_eq!(lines, [line(TIME, 7, 1, 0), line(STRIKE, 999, 2, 1)]);
}

/// A refusal after some entries leaves nothing of them: no update, no event, no open transaction.
#[test]
fn all_or_nothing() {
    for bad in [(0, 7, 1), (5, 7, 1), (TIME, 1000, 1), (STRIKE, 65535, 1)] {
        for place in [0, 1, 40, 63] {
            let mut entries = times(64);
            entries[place] = bad;
            day(&[
                (fork(0), 0, 1),
                (bundle(0, 0, &entries), 5, 0),
                (fill(0), 0, 0),
                (fork(0), 0, 2),
                // Tablet 0 is not tied to box 0.
                (query(0, 1, 7), 0, 0),
                (update(1, 0, TIME, 7, 1), 0, 0),
            ]);
        }
    }
}

/// The client's transaction stays open, with what it had, if its bundle is refused.
#[test]
fn a_refused_bundle_leaves_a_transaction_open() {
    day(&[
        (update(0, 0, TIME, 7, 5), 0, 0),
        (bundle(0, 0, &[(TIME, 7, 6), (9, 7, 6)]), 5, 0),
        (fork(0), 7, 0),
        (query(0, 0, 7), 0, 5),
        (bundle(0, 0, &[]), 14, 0),
        (fork(0), 7, 0),
        (bundle(0, 0, &[(PENALTY, 7, 6)]), 0, 1),
        (fork(0), 0, 1),
    ]);
}

/// "A transaction already open on that box is continued and closed": it is one transaction.
#[test]
fn an_open_transaction_is_continued_and_closed() {
    let mut literal = literal::Day::fresh();
    for call in [update(0, 0, TIME, 7, 5), query(0, 0, 7), bundle(0, 0, &times(2)), yields(0)] {
        assert_eq!(literal.call(&call).code, Code::Accepted);
    }
    let [transaction] = literal.transactions() else { panic!("one transaction") };
    assert_eq!(transaction.events.len(), 4);
    assert!(!transaction.is_open());
    day(&[
        (query(0, 0, 7), 0, 0),
        (bundle(0, 0, &[(TIME, 7, 6)]), 0, 0),
        (fork(0), 0, 1),
        (query(0, 1, 7), 0, 6),
    ]);
}

/// 1 to 64 whole records; the wrong bundle is found before all else.
#[test]
fn the_count_of_a_bundle() {
    let cut = |count: usize, bytes: usize| match bundle(0, 0, &times(count)) {
        Call::Bundle { client, revision, mut records } => {
            records.truncate(bytes);
            Call::Bundle { client, revision, records }
        }
        call => call,
    };
    for (count, code) in [(0, 14), (1, 0), (2, 0), (63, 0), (64, 0), (65, 14), (66, 14), (128, 14)]
    {
        day(&[(bundle(0, 0, &times(count)), code, 0)]);
    }
    for bytes in [1, 6, 11, 13, 23, 767, 769, 779] {
        day(&[(cut(65, bytes), 14, 0), (fill(0), 0, 0)]);
    }
    day(&[(bundle(0, 0, &times(256 + 64)), 14, 0)]);
    let mut bad = times(65);
    bad[0] = (0, 1000, 0);
    for (client, revision) in [(0, 0), (16, 0), (0, 1), (255, 255)] {
        day(&[(bundle(client, revision, &bad), 14, 0)]);
        day(&[(bundle(client, revision, &[]), 14, 0)]);
    }
}

/// Each check of the first entry ends the call before the ones after it, and before the second's.
#[test]
fn codes_of_the_first_entry_in_ascending_order() {
    let ask = |client, revision, entries: &[(u8, u16, u32)], code| {
        refused_after(&busy_revisions(), bundle(client, revision, entries), code);
    };
    let (good, bad) = ((TIME, 7, 1), (TIME, 1000, 1));
    ask(16, 64, &[bad, bad], 2);
    ask(2, 64, &[bad, bad], 3);
    ask(2, 3, &[bad, bad], 4);
    ask(2, 1, &[bad, bad], 5);
    ask(2, 1, &[good, bad], 6);
    ask(3, 1, &[good, bad], 7);
    ask(4, 2, &[good, bad], 7);
    ask(2, 2, &[good, bad], 5);
    let idle = [&busy_revisions()[..], &[(yields(1), 0, 0)]].concat();
    refused_after(&idle, bundle(4, 1, &[good, bad]), 8);
}

/// A day with this many updates of tablet 0 on box 0.
fn filled(count: u32) -> Vec<Row> {
    (0..count).map(|number| (update(0, 0, TIME, 7, 1), 0, number)).collect()
}

/// The log runs full within a bundle: "a 9 .. of entry 3 beats a 5 of entry 4", and a 5 of entry 3
/// beats the 9 of entry 4.
#[test]
fn the_log_runs_full_within_a_bundle() {
    let (good, bad) = ((TIME, 7, 2), (TIME, 1000, 2));
    let ask = |taken, entries: &[(u8, u16, u32)], code, value| {
        let mut rows = filled(taken);
        rows.push((bundle(0, 0, entries), code, value));
        let left = if code == 0 { taken + entries.len() as u32 } else { taken };
        rows.push((fill(0), 0, left));
        day(&rows);
    };
    ask(4_032, &[good; 64], 0, 4_032);
    ask(4_033, &[good; 64], 9, 0);
    ask(4_095, &[good], 0, 4_095);
    ask(4_095, &[good; 2], 9, 0);
    ask(4_096, &[good], 9, 0);
    ask(4_096, &[bad], 5, 0);
    ask(4_094, &[good, good, good, bad], 9, 0);
    ask(4_094, &[good, good, bad, good], 5, 0);
    ask(4_093, &[good, good, bad, good], 5, 0);
    ask(4_095, &[good, bad], 5, 0);
    ask(4_094, &[good, good, bad], 5, 0);
}

/// On a full log a stale client is told 8, and the one whose transaction is open 9.
#[test]
fn a_full_log_and_a_stale_client() {
    let mut rows = vec![(fork(0), 0, 1), (query(1, 1, 7), 0, 0), (yields(1), 0, 0)];
    rows.extend(filled(4_096));
    rows.extend([
        (bundle(1, 0, &times(1)), 7, 0),
        (bundle(0, 0, &times(1)), 9, 0),
        (yields(0), 0, 0),
        (bundle(1, 0, &times(1)), 8, 0),
        (bundle(2, 1, &times(1)), 9, 0),
    ]);
    day(&rows);
}
