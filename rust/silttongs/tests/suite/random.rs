//! Buffers that no day made, and calls for them, at random.

use calls::{order_file, Call, Line, BIBS, BOARD, CLIENTS, REVISIONS};
use days::{random_day, Profile, Rng};
use silttongs::{BUNDLE, BYTES, SHEET};

use super::cells::{is_table, Cell};
use super::given::{answered, fresh_bytes, Bytes};

/// Where some cells lie, and the state of a mark: docs/CELLS.md.
pub(crate) const STATE: usize = 39_040;
pub(crate) const NAMES: usize = 39_828;
pub(crate) const SINGLE: usize = 40_084;
pub(crate) const STARTED: usize = 40_087;
pub(crate) const MARKED: u8 = 3;
pub(crate) const UPDATES: usize = 39_824;

/// The names in the cells of marks, each once.
pub(crate) fn names(t: &[u8]) -> Vec<Vec<u8>> {
    let marked = (0..64).filter(|number| t.get(STATE + number) == Some(&MARKED));
    let mut names: Vec<Vec<u8>> =
        marked.map(|number| t[NAMES + 4 * number..][..4].into()).collect();
    names.sort();
    names.dedup();
    names
}

/// The updates taken, as the cell has it.
pub(crate) fn taken(t: &[u8]) -> u16 {
    t.get(UPDATES..UPDATES + 2).map_or(0, |word| u16::from_le_bytes([word[0], word[1]]))
}

pub(crate) fn random_bytes(rng: &mut Rng) -> Vec<u8> {
    (0..BYTES / 8).flat_map(|_| rng.bits().to_le_bytes()).collect()
}

/// A board of random bytes, of which the first of an entry is 0 or 1 for most bibs.
pub(crate) fn any_board(rng: &mut Rng) -> Vec<u8> {
    let mut board = random_bytes(rng);
    board.truncate(BOARD);
    board.iter_mut().step_by(5).for_each(|first| *first = [0, 1, 0, 1, *first][rng.below(5)]);
    board
}

/// Random bytes, a fresh table or the table of a random day, each with random cells; most are in
/// range, so that the calls get past code 1.
pub(crate) fn damaged(cells: &[Cell], rng: &mut Rng) -> Vec<u8> {
    let mut t = match rng.below(4) {
        0 => fresh_bytes(),
        1 => random_bytes(rng),
        _ => {
            let mut bytes = Bytes::fresh();
            let (many, few) = (Profile::MIXED, Profile::SMALL_REUSED);
            let kind = rng.pick(&[many, many, Profile::MARKED, Profile::SINGLE_MAIN, few]);
            for call in random_day(&kind, rng.bits()) {
                answered(&mut bytes, &call);
            }
            bytes.table
        }
    };
    // Random bytes are no table until each cell is put in range.
    let all_in_range = !is_table(cells, &t) && rng.percent(80);
    for cell in cells {
        if all_in_range || rng.percent(5) {
            let (low, high) = (*cell.range.start(), *cell.range.end());
            let any = low + rng.below(usize::from(high - low) + 1) as u16;
            cell.set(&mut t, rng.pick(&[low, high, any, any, any, any]));
        }
    }
    for _ in 0..rng.below(200) {
        let at = rng.below(BYTES);
        if !cells.iter().any(|cell| (cell.at..cell.at + cell.width).contains(&at)) {
            t[at] = rng.bits() as u8;
        }
    }
    // A name for some numbers, marked or not.
    if rng.percent(20) {
        for number in 0..64 {
            if t[STATE + number] == MARKED || rng.percent(10) {
                t[NAMES + 4 * number..][..4].copy_from_slice(NAMED[rng.below(NAMED.len())]);
            }
        }
    }
    // The other choice than the day had.
    if t[SINGLE] <= 1 && rng.percent(10) {
        t[SINGLE] ^= 1;
    }
    if rng.percent(15) {
        let cell = &cells[rng.below(cells.len())];
        cell.set(&mut t, rng.bits() as u16 & cell.most());
    }
    t
}

/// Names that are given to some numbers and marks. All but the last are good.
const NAMED: [&[u8; 4]; 4] = [b"JURY", b"NOON", b"AZAZ", b"\0aZ\xff"];

/// In most cases one in the cells, else a good one or none.
fn any_name(rng: &mut Rng, names: &[Vec<u8>]) -> Vec<u8> {
    let mut name = NAMED[rng.below(NAMED.len())].to_vec();
    if !names.is_empty() && rng.percent(50) {
        name = names[rng.below(names.len())].clone();
    }
    if rng.percent(10) {
        name.resize(rng.below(6), b'A');
    }
    name
}

/// Mostly numbers in range; a call that takes a board has now and then one of a wrong length.
pub(crate) fn any_call(rng: &mut Rng, names: &[Vec<u8>], taken: u16) -> Call {
    let call = likely_call(rng, names, taken);
    if call.takes_a_board() && rng.percent(3) {
        let any = rng.below(2 * BOARD);
        let length = rng.pick(&[0, 1, BOARD - 1, BOARD + 1, any]);
        return Call::OnBoard { length, call: Box::new(call) };
    }
    call
}

fn likely_call(rng: &mut Rng, names: &[Vec<u8>], taken: u16) -> Call {
    let mut below = |n: usize| if rng.percent(3) { rng.below(256) } else { rng.below(n) };
    let [client, revision, other] = [CLIENTS, REVISIONS, REVISIONS].map(|n| below(n.into()) as u8);
    let kind = (1 + below(4)) as u8;
    let bib = rng.below(usize::from(BIBS) + 10) as u16;
    match rng.below(20) {
        0 => Call::Query { client, revision, bib },
        1 => Call::Yield { client },
        2 => Call::Fork { revision },
        3 => Call::Join { joiner: revision, joinee: other },
        4 => Call::List { revision, room: SHEET },
        5 => Call::List { revision, room: rng.below(200) },
        6 => Call::Fill { revision },
        7 => Call::Preview { joiner: revision, joinee: other, bib },
        8 => Call::Bundle { client, revision, records: any_records(rng) },
        9 | 10 => Call::Sync { revision },
        11 | 12 => Call::Mark { revision, name: any_name(rng, names) },
        13 | 14 => Call::Drop { name: any_name(rng, names) },
        15 | 16 => Call::Verify { order: any_order(rng, taken) },
        17 => Call::Bill { member: rng.percent(50) },
        _ => Call::Update { client, revision, kind, bib, v: rng.bits() as u32 },
    }
}

/// The records of a bundle, most of them good; in some cases a wrong one.
fn any_records(rng: &mut Rng) -> Vec<u8> {
    let (few, any) = (1 + rng.below(4), 1 + rng.below(BUNDLE + 2));
    let count = rng.pick(&[few, few, BUNDLE, any]);
    let record = |_| {
        let [kind, client, bib, rest] = [0; 4].map(|_: u8| rng.bits());
        let bib = if bib % 100 == 0 { BIBS } else { (bib % u64::from(BIBS)) as u16 };
        let kind = 1 + (kind % 4) as u8;
        Line { kind, client: client as u8, bib, v: rest as u32, number: (rest >> 32) as u32 }
    };
    let mut records: Vec<u8> = (0..count).map(record).flat_map(Line::to_bytes).collect();
    if rng.percent(10) {
        records.truncate(rng.below(records.len() + 1));
    }
    records
}

/// An order of so many updates, as they were entered; in some cases with two of them changed, with one
/// twice or too many, or with another header.
fn any_order(rng: &mut Rng, taken: u16) -> Vec<u8> {
    let mut numbers: Vec<u16> = (0..taken).collect();
    let count = numbers.len();
    if rng.percent(30) && count > 0 {
        let (a, b) = (rng.below(count), rng.below(count));
        match rng.below(3) {
            0 => numbers[a] = numbers[b],
            _ => numbers.swap(a, b),
        }
    }
    if rng.percent(10) {
        numbers.push(rng.bits() as u16);
    }
    let mut file = order_file(&numbers);
    if rng.percent(10) {
        let at = rng.below(8);
        file[at] = rng.bits() as u8;
    }
    file
}
