//! Buffers that no day made, and boards of any bytes: every call returns, a refusal changes no byte of
//! table, board and sheet, two runs give the same, code 1 is given exactly if docs/CELLS.md says so, and a
//! table stays one.

use std::collections::BTreeMap;

use calls::{order_file, Answer, Call, Code, Line, State, CLIENTS, REVISIONS};
use days::{fault_of_bundles, fault_of_previews, fault_of_syncs, seeds, tally, Heaviest, Rng};
use silttongs::{Board, Refusal, Table, BOARD, BUNDLE, BYTES};

use super::cells::{cells, is_table, Cell};
use super::fresh_for;
use super::given::{
    answered, by_baseline, choice, difference, first_difference, fresh_bytes, library, only_reads,
    sheet, Bytes, Given,
};
use super::random::{
    any_board, any_call, damaged, names, random_bytes, taken, MARKED, NAMES, SINGLE, STARTED, STATE,
};

/// How many damaged buffers are tried.
const BUFFERS: u64 = 8_000;
/// How many calls are made on each.
const CALLS: usize = 16;
/// Where some cells lie: docs/CELLS.md.
const COUNT: usize = 39_424;
const OUT: usize = 39_826;
const GIVEN: usize = 39_827;

/// The 799 bytes that docs/CELLS.md names.
#[test]
fn the_cells_with_a_range() {
    let cells = cells();
    assert_eq!(cells.iter().map(|cell| cell.width).sum::<usize>(), 799);
    assert!(is_table(&cells, &fresh_bytes()));
}

/// What a refusal gives: no state, no number, and the sheet as it was.
fn refused(call: &Call, code: Code) -> Given {
    Given { answer: Answer::refused(code), sheet: sheet(call) }
}

/// Each cell at the ends of its range and one further.
#[test]
fn each_cell_at_its_limits() {
    let cells = cells();
    for cell in &cells {
        let (low, high) = (*cell.range.start(), *cell.range.end());
        let mut values = vec![low, high];
        values.extend(low.checked_sub(1));
        values.extend((high < cell.most()).then(|| high + 1));
        values.push(cell.most());
        for value in values {
            let mut bytes = Bytes::fresh();
            cell.set(&mut bytes.table, value);
            let mut made = |call: Call| {
                judged(&cells, &mut bytes, &call)
                    .unwrap_or_else(|fault| panic!("{value} in {cell:?}, `{call}`: {fault}"))
            };
            // It may find revision 0 never forked or joined.
            made(Call::Fill { revision: 0 });
            let in_range = cell.range.contains(&value);
            let right = if in_range { Answer::accepted(0) } else { Answer::refused(Code::NoTable) };
            let given = made(Call::Yield { client: 0 });
            assert_eq!(given.answer, right, "{value} in {cell:?}");
        }
    }
}

/// Two own lists as long as the log, and one revision out, which is joined: the counts stop at their
/// ranges, and every call leaves a table.
#[test]
fn counts_stop_at_their_range() {
    let cells = cells();
    let mut bytes = Bytes::fresh();
    let full = 4_096_u16.to_le_bytes();
    let mut made = |call: Call| {
        let given =
            judged(&cells, &mut bytes, &call).unwrap_or_else(|fault| panic!("`{call}`: {fault}"));
        assert_eq!(given.answer.code, Code::Accepted, "`{call}`");
        // The counts of revisions 0 and 1, and of those out.
        bytes.table[COUNT..COUNT + 4].copy_from_slice(&[full, full].concat());
        bytes.table[OUT] = 1;
    };
    let record = Line { kind: 1, client: 0, bib: 7, v: 1, number: 0 }.to_bytes();
    made(Call::Fork { revision: 0 });
    made(Call::Update { client: 0, revision: 0, kind: 1, bib: 7, v: 1 });
    made(Call::Bundle { client: 0, revision: 0, records: record.repeat(BUNDLE) });
    made(Call::Preview { joiner: 0, joinee: 1, bib: 7 });
    made(Call::Join { joiner: 0, joinee: 1 });
    made(Call::Mark { revision: 0, name: b"JURY".to_vec() });
    made(Call::Drop { name: b"JURY".to_vec() });
}

/// Every other byte is in range, whatever it is.
#[test]
fn the_other_bytes_have_every_value_in_range() {
    let Bytes { table: mut t, mut board } = Bytes::fresh();
    let mut ranged = vec![false; BYTES];
    for cell in cells() {
        ranged[cell.at..cell.at + cell.width].fill(true);
    }
    let call = Call::Yield { client: 0 };
    for at in (0..BYTES).filter(|&at| !ranged[at]) {
        t[at] ^= 0xff;
        let given = library(&mut t, &mut board, &call);
        assert_eq!(given.answer, Answer::accepted(0), "byte {at}");
        assert_eq!(by_baseline(&mut t, &mut board, &call), given, "byte {at}, by baseline");
    }
}

#[test]
fn wrong_lengths() {
    let calls = [
        Call::Update { client: 0, revision: 0, kind: 1, bib: 7, v: 1 },
        Call::Query { client: 0, revision: 0, bib: 7 },
        Call::Yield { client: 0 },
        Call::Fork { revision: 0 },
        Call::Join { joiner: 0, joinee: 1 },
        Call::List { revision: 0, room: 24 },
        Call::Fill { revision: 0 },
        Call::Bundle { client: 0, revision: 0, records: [1; 24].to_vec() },
        // 1 comes before 14.
        Call::Bundle { client: 0, revision: 0, records: Vec::new() },
        Call::Preview { joiner: 0, joinee: 1, bib: 7 },
        Call::Sync { revision: 1 },
        Call::Mark { revision: 0, name: b"JURY".to_vec() },
        // 1 comes before 17 and 18.
        Call::Mark { revision: 0, name: Vec::new() },
        Call::Drop { name: b"JURY".to_vec() },
        Call::Verify { order: order_file(&[]) },
        // 1 comes before 21.
        Call::Verify { order: Vec::new() },
        Call::Bill { member: true },
        // 1 comes before 19.
        Call::OnBoard { length: 4_999, call: Box::new(Call::Yield { client: 0 }) },
        Call::OnBoard { length: 0, call: Box::new(Call::Sync { revision: 1 }) },
    ];
    let cells = cells();
    for length in [0, 1, 12, 40_959, 40_960, BYTES - 1, BYTES + 1, 2 * BYTES] {
        let mut bytes = Bytes { board: vec![0xa5; BOARD], ..Bytes::fresh() };
        bytes.table.resize(length, 0);
        let before = bytes.clone();
        for call in &calls {
            let given = judged(&cells, &mut bytes, call);
            assert_eq!(given, Ok(refused(call, Code::NoTable)), "{length} bytes, `{call}`");
        }
        for single_main in [false, true] {
            let Bytes { table, board } = &mut bytes;
            let mut lent = Board::from_bytes(&mut board[..]);
            let made = Table::fresh(&mut table[..], &mut lent, choice(single_main));
            assert_eq!(made.err(), Some(Refusal::NoTable), "{length} bytes");
            let made = baseline::fresh(table, board, single_main);
            assert_eq!(made, Err(Code::NoTable), "{length} bytes");
        }
        assert!(bytes == before, "{length} bytes: changed");
    }
}

/// Fresh looks at the lengths only, and leaves the same bytes whatever they were, but for the choice.
#[test]
fn fresh_on_any_content() {
    for single_main in [false, true] {
        let mut right = baseline::Day::fresh().bytes().to_vec();
        right[SINGLE] = u8::from(single_main);
        assert!(fresh_for(choice(single_main)).bytes() == right);
        for seed in seeds(100) {
            let mut rng = Rng::new(seed);
            let (mut t, mut board) = (random_bytes(&mut rng), any_board(&mut rng));
            let by_baseline = baseline::fresh(&mut t.clone(), &mut board.clone(), single_main);
            assert_eq!(by_baseline, Ok(0), "seed {seed}");
            let mut lent = Board::from_bytes(&mut board[..]);
            let made = Table::fresh(&mut t[..], &mut lent, choice(single_main));
            assert!(made.is_ok(), "seed {seed}");
            assert!(t == right, "seed {seed}");
            assert!(board == [0; BOARD], "seed {seed}");
        }
    }
}

/// A sync whose counts stop at their range is taken: its join leaves a table to its fork.
#[test]
fn a_sync_whose_counts_stop() {
    let (cells, sync) = (cells(), Call::Sync { revision: 1 });
    for (main, joinee, out) in
        [(4_096, 0, 2), (4_095, 1, 2), (4_096, 1, 2), (4_096, 4_096, 2), (0, 0, 1)]
    {
        let mut bytes = Bytes::fresh();
        answered(&mut bytes, &Call::Fork { revision: 0 });
        let t = &mut bytes.table;
        t[COUNT..COUNT + 2].copy_from_slice(&u16::to_le_bytes(main));
        t[COUNT + 2..COUNT + 4].copy_from_slice(&u16::to_le_bytes(joinee));
        t[OUT] = out;
        let given = judged(&cells, &mut bytes, &sync).unwrap();
        assert_eq!(given.answer.code, Code::Accepted, "{main} {joinee} {out}");
    }
}

/// What calls on damaged buffers met.
#[derive(Default)]
struct Met {
    codes: BTreeMap<Code, usize>,
    /// What queries found.
    states: BTreeMap<State, usize>,
}

impl Met {
    /// Makes any call, which is judged, and after an accepted list some more. `at` tells which.
    fn calls(
        &mut self,
        at: &str,
        rng: &mut Rng,
        (names, taken): (&[Vec<u8>], u16),
        mut judged: impl FnMut(&Call) -> Given,
    ) {
        let call = any_call(rng, names, taken);
        let Given { answer: Answer { code, value, .. }, sheet } = judged(&call);
        *self.codes.entry(code).or_default() += 1;
        let (Call::List { revision, .. }, 1..) = (call, value) else { return };
        // It is accepted with just the room that it needs, and not with a byte less.
        let needed = Line::BYTES * value as usize;
        for (room, code) in [(needed, Code::Accepted), (needed - 1, Code::SheetShort)] {
            let list = Call::List { revision, room };
            assert_eq!(judged(&list).answer.code, code, "{at}, `{list}`");
        }
        // The bib of its last entry is queried, by the first client that may.
        let (places, _) = sheet.as_chunks();
        let Line { bib, .. } = Line::from_bytes(places[value as usize - 1]);
        let mut queries =
            (0..CLIENTS).map(|client| judged(&Call::Query { client, revision, bib }).answer);
        if let Some(found) = queries.find(|answer| answer.code == Code::Accepted) {
            *self.states.entry(found.state).or_default() += 1;
        }
    }
}

#[test]
fn random_calls_on_damaged_buffers() {
    let cells = cells();
    let mut met = Met::default();
    let [mut reused, mut synced, mut marked, mut dropped, mut verified, mut shown] = [0; 6];
    for seed in seeds(BUFFERS) {
        let mut rng = Rng::new(seed);
        let table = damaged(&cells, &mut rng);
        let names = names(&table);
        let mut bytes = Bytes { table, board: any_board(&mut rng) };
        for step in 0..CALLS {
            let at = format!("seed {seed}, call {step}");
            let taken = taken(&bytes.table);
            met.calls(&at, &mut rng, (&names, taken), |call| {
                let all_given = bytes.table.get(GIVEN) == Some(&REVISIONS);
                let board = bytes.board.clone();
                let given = judged(&cells, &mut bytes, call)
                    .unwrap_or_else(|fault| panic!("{at}, `{call}`: {fault}"));
                shown += usize::from(bytes.board != board);
                let accepted = given.answer.code == Code::Accepted;
                reused += usize::from(all_given && accepted && call.name() == "fork");
                synced += usize::from(accepted && call.name() == "sync");
                marked += usize::from(accepted && call.name() == "mark");
                dropped += usize::from(accepted && call.name() == "drop");
                verified += usize::from(given.answer.value == 1 && call.name() == "verify");
                given
            });
        }
        tally::count("damaged buffers", "of one table", 1);
    }
    tally::tell();
    assert!(reused >= 50, "{reused} forks took a number from the queue");
    assert!(synced >= 50, "{synced} syncs");
    assert!(marked >= 50, "{marked} marks");
    assert!(dropped >= 50, "{dropped} drops");
    assert!(verified >= 50, "{verified} orders that fit");
    assert!(shown >= 50, "{shown} boards changed");
    let Met { codes, states } = met;
    // 13 is given by the program alone.
    let numbers: Vec<u8> = codes.keys().map(|code| code.number()).collect();
    assert_eq!(numbers, [0, 1, 2, 3, 4, 5, 6, 7, 8, 9, 10, 11, 12, 14, 15, 16, 17, 18, 19, 21]);
    assert!(codes.values().all(|&times| times >= 10), "{codes:?}");
    assert_eq!(states.len(), 3, "{states:?}");
    assert!(states.values().all(|&times| times >= 30), "{states:?}");
}

/// Makes the call, or says what is wrong with it.
fn judged(cells: &[Cell], bytes: &mut Bytes, call: &Call) -> Result<Given, String> {
    let [mut again, mut baseline, before] = [(); 3].map(|()| bytes.clone());
    let given = library(&mut bytes.table, &mut bytes.board, call);
    if library(&mut again.table, &mut again.board, call) != given || again != *bytes {
        return Err("a second run differs".to_string());
    }
    let code = given.answer.code;
    let table = is_table(cells, &before.table);
    if (code == Code::NoTable) == table {
        return Err(format!("code {code}, against docs/CELLS.md"));
    }
    if table && !is_table(cells, &bytes.table) {
        return Err("it left no table".to_string());
    }
    let one = std::slice::from_ref(call);
    let fault = match call {
        Call::Bundle { .. } if table => fault_of_bundles(before.clone(), one, answered),
        Call::Preview { .. } if table => fault_of_previews(before.clone(), one, answered),
        Call::Sync { .. } if table => fault_of_syncs(before.clone(), one, answered),
        Call::Mark { revision, name } if table => {
            let (right, left) = forked_and_named(&before.table, *revision, name);
            (right != given.answer || left != bytes.table).then(|| format!("as a fork {right}"))
        }
        _ => None,
    };
    let heaviest = Heaviest::default();
    if let Some(fault) = fault.or_else(|| heaviest.fault_of(call, &before.table, &bytes.table)) {
        return Err(fault);
    }
    if code != Code::Accepted && (given != refused(call, code) || *bytes != before) {
        return Err(format!("refused with code {code}, but with an answer or bytes changed"));
    }
    if only_reads(call) && *bytes != before {
        return Err("a call that only reads changed the table".to_string());
    }
    if !call.takes_a_board() && bytes.board != before.board {
        return Err("a call without a board changed one".to_string());
    }
    let Bytes { table: t, board } = &mut baseline;
    if let Some(fault) = difference(&given, &by_baseline(t, board, call)) {
        return Err(format!("against baseline: {fault}"));
    }
    for (what, a, b) in [("table", &bytes.table, &*t), ("board", &bytes.board, &*board)] {
        if let Some(at) = first_difference(a, b) {
            return Err(format!("byte {at} of the {what} is {}, baseline has {}", a[at], b[at]));
        }
    }
    Ok(given)
}

/// What a mark answers and leaves, worked out from the fork: "Mark has fork's refusals and value".
fn forked_and_named(before: &[u8], revision: u8, name: &[u8]) -> (Answer, Vec<u8>) {
    let mut t = before.to_vec();
    t[SINGLE] = 0;
    // A fork takes no board.
    let forked = library(&mut t, &mut [], &Call::Fork { revision }).answer;
    let code = match forked.code {
        code @ (Code::NeverGiven | Code::Joined) => code,
        _ if before[SINGLE] == 1 => Code::OffTheLine,
        Code::Accepted if is_bad(before, name) => Code::BadName,
        code => code,
    };
    if code != Code::Accepted {
        return (Answer::refused(code), before.to_vec());
    }
    let number = forked.value as usize;
    t[STATE + number] = MARKED;
    t[NAMES + 4 * number..][..4].copy_from_slice(name);
    // 02, U14: "marks not counted"
    t[STARTED..STARTED + 2].copy_from_slice(&before[STARTED..STARTED + 2]);
    (forked, t)
}

/// Whether a name is not four letters A to Z, or is that of a mark from 1 to 63.
fn is_bad(t: &[u8], name: &[u8]) -> bool {
    let in_use = |number| t[STATE + number] == MARKED && t[NAMES + 4 * number..][..4] == *name;
    name.len() != 4 || !name.iter().all(u8::is_ascii_uppercase) || (1..64).any(in_use)
}
