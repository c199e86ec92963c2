//! The cells of marks, by the baseline, on contents that no day made too.

use calls::{Call, Code, BOARD};

/// Where cells lie: docs/CELLS.md.
const STATE: usize = 39_040;
const OUT: usize = 39_826;
const NAMES: usize = 39_828;
const SINGLE: usize = 40_084;

/// The bytes of an ordinary day on which boxes 1 and 3 came from box 0, and marks 2 and 4.
fn two_marks() -> Vec<u8> {
    let mut day = baseline::Day::fresh();
    for name in [b"AAAA", b"ZZZZ"] {
        day.call(&Call::Fork { revision: 0 });
        day.call(&Call::Mark { revision: 0, name: name.to_vec() });
    }
    day.bytes().to_vec()
}

/// Makes a call by the baseline; a refused one leaves every byte.
fn code(t: &mut [u8], call: &Call) -> Code {
    let before = t.to_vec();
    match baseline::call(t, &mut [0; BOARD], call) {
        Ok(_) => Code::Accepted,
        Err(code) => {
            assert!(*t == before, "`{call}` is refused and changes a byte");
            code
        }
    }
}

fn drop_of(name: &[u8]) -> Call {
    Call::Drop { name: name.to_vec() }
}

/// The state of a number is 0 to 3; any other byte there is no table.
#[test]
fn the_cell_of_the_state() {
    for state in 0..=u8::MAX {
        let mut t = two_marks();
        t[STATE + 3] = state;
        let query = code(&mut t, &Call::Query { client: 0, revision: 3, bib: 7 });
        let right = match state {
            0 => Code::NeverGiven,
            1 => Code::Accepted,
            2 => Code::Joined,
            3 => Code::Marked,
            _ => Code::NoTable,
        };
        assert_eq!(query, right, "{state}");
    }
}

/// 15 comes before 16 where both apply, which is on no day.
#[test]
fn a_mark_on_a_single_main_day() {
    let mut t = two_marks();
    t[SINGLE] = 1;
    let cases = [
        (Call::Join { joiner: 2, joinee: 1 }, Code::OffTheLine),
        (Call::Preview { joiner: 1, joinee: 2, bib: 7 }, Code::OffTheLine),
        (Call::Join { joiner: 0, joinee: 2 }, Code::Marked),
        (Call::Sync { revision: 2 }, Code::Marked),
        (Call::Fork { revision: 2 }, Code::OffTheLine),
        (Call::Mark { revision: 0, name: b"AAAA".to_vec() }, Code::OffTheLine),
        (drop_of(b"AAAA"), Code::Accepted),
    ];
    for (call, right) in cases {
        assert_eq!(code(&mut t.clone(), &call), right, "`{call}`");
    }
}

/// Two marks of a name: the higher number is meant, then the other. Box 0 is no mark.
#[test]
fn the_highest_number_bears_the_name() {
    let mut t = two_marks();
    for number in [0, 2, 4] {
        t[STATE + number] = 3;
        t[NAMES + 4 * number..][..4].copy_from_slice(b"SAME");
    }
    for (right, states) in
        [(Code::Accepted, [3, 3, 2]), (Code::Accepted, [3, 2, 2]), (Code::NoSuchMark, [3, 2, 2])]
    {
        assert_eq!(code(&mut t, &drop_of(b"SAME")), right);
        assert_eq!([0, 2, 4].map(|number| t[STATE + number]), states);
    }
    let mark = Call::Mark { revision: 1, name: b"SAME".to_vec() };
    assert_eq!(code(&mut t, &mark), Code::Accepted);
}

/// A name is what its four bytes are; in another state than that of a mark they mean nothing.
#[test]
fn the_bytes_of_a_name() {
    let mut t = two_marks();
    let strange = [b'a', 0, 255, b'Z'];
    t[NAMES + 8..][..4].copy_from_slice(&strange);
    assert_eq!(code(&mut t.clone(), &drop_of(&strange)), Code::Accepted);
    assert_eq!(code(&mut t.clone(), &drop_of(&strange[..3])), Code::NoSuchMark);
    assert_eq!(code(&mut t.clone(), &drop_of(b"AAAA")), Code::NoSuchMark);
    let mark = Call::Mark { revision: 1, name: strange.to_vec() };
    assert_eq!(code(&mut t.clone(), &mark), Code::BadName);
    t[NAMES + 12..][..4].copy_from_slice(b"BOX3");
    assert_eq!(code(&mut t, &drop_of(b"BOX3")), Code::NoSuchMark);
}

/// A drop whose count of revisions out stops at its range.
#[test]
fn a_drop_whose_count_stops() {
    let mut t = two_marks();
    t[OUT] = 1;
    assert_eq!(code(&mut t, &drop_of(b"AAAA")), Code::Accepted);
    assert_eq!(t[OUT], 1);
}
