//! 02, U10, on the library: a board lent to every call that takes one is as worked out afresh, any other
//! has what the promise says, and a call refuses a board of another length.

use calls::{Answer, Call};
use days::{
    chains_of_joins, days_of, fault_of_boards, late_days, must_pass, one_in, seeds, Profile,
};
use silttongs::{Board, Day, Entry, Kind, Refusal, Standing, Table, BOARD, BYTES};

use super::fresh;
use super::given::{fresh_bytes, library};

/// A board lent to every call, and one of random bytes, after every call of random days.
#[test]
fn boards_of_random_days() {
    let fault = |calls: &[Call]| {
        fault_of_boards(fresh_bytes(), calls, calls.len() as u64, |t: &mut Vec<u8>, board, call| {
            let given = library(t, board, call);
            let lines =
                silttongs::lines(&given.sheet, given.answer.value).map(|line| calls::Line {
                    kind: line.kind,
                    client: line.client,
                    bib: line.bib,
                    v: line.v,
                    number: line.number,
                });
            Answer { lines: lines.collect(), ..given.answer }
        })
    };
    let small = [
        (Profile::SMALL, 200),
        (Profile::SMALL_MARKED, 60),
        (Profile::SMALL_SINGLE_MAIN, 150),
        (Profile::SMALL_REUSED, 6),
    ];
    must_pass(one_in(8), fault);
    must_pass(days_of(&small), fault);
    must_pass(chains_of_joins(seeds(5)), fault);
    must_pass(late_days(), fault);
}

/// The bibs that are struck or timed.
fn shown(board: &Board<impl AsRef<[u8]>>) -> Vec<(u16, Standing)> {
    board.standings().filter(|&(_, standing)| standing != Standing::Neither).collect()
}

/// An update alone shows nothing, nor does a yield on another box or a join into one.
#[test]
fn what_is_closed_on_box_0_is_shown() {
    let mut lent = fresh();
    lent.update(0, 0, Kind::Time, 7, 61_000).unwrap();
    assert_eq!(shown(&lent.board), []);
    lent.yield_(0).unwrap();
    let first = [(7, Standing::Timed(61_000))];
    assert_eq!(shown(&lent.board), first);

    assert_eq!((lent.fork(0), lent.fork(1)), (Ok(1), Ok(2)));
    lent.update(1, 2, Kind::Strike, 7, 9).unwrap();
    lent.update(1, 2, Kind::Time, 999, u32::MAX).unwrap();
    lent.yield_(1).unwrap();
    assert_eq!(lent.join(1, 2), Ok(2));
    assert_eq!(shown(&lent.board), first);
    assert_eq!(lent.join(0, 1), Ok(2));
    let both = [(7, Standing::Struck), (999, Standing::Timed(u32::MAX))];
    assert_eq!(shown(&lent.board), both);
    assert_eq!(lent.board.bytes()[35..40], [1, 0, 0, 0, 0]);
    assert_eq!(lent.board.bytes()[4_995..], [0, 255, 255, 255, 255]);
}

/// A bundle on box 0 brings what was entered singly before in its transaction.
#[test]
fn a_bundle_brings_its_whole_transaction() {
    let mut lent = fresh();
    lent.update(0, 0, Kind::Time, 7, 60_000).unwrap();
    lent.bundle_entries(0, 0, &[Entry::new(Kind::Penalty, 7, 5_000)]).unwrap();
    assert_eq!(shown(&lent.board), [(7, Standing::Timed(65_000))]);
}

/// The gain stands behind what was there, in the order of the list, and a sync brings it once.
#[test]
fn a_gain_stands_behind() {
    let mut lent = fresh();
    let sent = lent.fork(0).unwrap();
    lent.bundle_entries(1, sent, &[Entry::new(Kind::Penalty, 7, 5_000)]).unwrap();
    lent.bundle_entries(0, 0, &[Entry::new(Kind::Time, 7, 60_000)]).unwrap();
    lent.sync(sent).unwrap();
    assert_eq!(shown(&lent.board), [(7, Standing::Timed(65_000))]);
}

/// More updates than a bundle has, brought by one join; as queries on box 0 find them.
#[test]
fn a_full_log_is_brought_by_one_join() {
    let mut lent = fresh();
    lent.fork(0).unwrap();
    for n in 0..4_096 {
        let kind = [Kind::Time, Kind::Earliest, Kind::Penalty, Kind::Strike][n % 4];
        lent.update(0, 1, kind, (n * 7 % 1_000) as u16, n as u32).unwrap();
    }
    lent.yield_(0).unwrap();
    assert_eq!(shown(&lent.board), []);
    assert_eq!(lent.join(0, 1), Ok(4_096));
    for bib in 0..1_000 {
        assert_eq!(lent.board.standing(bib), lent.query(1, 0, bib).ok(), "bib {bib}");
    }
}

/// The entry found counts: struck if its byte is 1, else its value. Bytes that are not brought stay.
#[test]
fn an_entry_is_written_anew_where_updates_are_brought() {
    let entries = [
        // Found, an update, and left.
        ([0, 9, 0, 0, 0], (Kind::Earliest, 8), [0, 8, 0, 0, 0]),
        ([1, 9, 0, 0, 0], (Kind::Earliest, 8), [1, 0, 0, 0, 0]),
        ([2, 9, 0, 0, 0], (Kind::Earliest, 10), [0, 9, 0, 0, 0]),
        ([255, 9, 0, 0, 0], (Kind::Penalty, 1), [0, 10, 0, 0, 0]),
        ([1, 9, 9, 9, 9], (Kind::Time, 0), [0, 0, 0, 0, 0]),
        ([7, 9, 9, 9, 9], (Kind::Strike, 5), [1, 0, 0, 0, 0]),
    ];
    for (found, (kind, v), left) in entries {
        let mut lent = fresh();
        let mut bytes = vec![0xa5; BOARD];
        bytes[35..40].copy_from_slice(&found);
        let mut right = bytes.clone();
        right[35..40].copy_from_slice(&left);
        lent.board = Board::from_bytes(bytes);
        lent.update(0, 0, kind, 7, v).unwrap();
        lent.yield_(0).unwrap();
        assert!(lent.board.bytes() == right, "{found:?}, {kind:?} {v}");
    }
}

/// 19 for every call that takes a board, before 2 and 3, and for a bundle after 14.
#[test]
fn a_board_of_another_length() {
    for length in [0, 1, 4_995, 4_999, 5_001, 5_005, 10_000, BYTES] {
        let before = fresh().table;
        let mut table = before.clone();
        let mut board = Board::from_bytes(vec![0xa5; length]);
        let wrong = Refusal::WrongBoard;
        assert_eq!(table.yield_(&mut board, 255), Err(wrong), "{length}");
        assert_eq!(table.join(&mut board, 64, 0), Err(wrong), "{length}");
        assert_eq!(table.sync(&mut board, 200), Err(wrong), "{length}");
        assert_eq!(table.bundle(&mut board, 16, 64, &[9; 12]), Err(wrong), "{length}");
        assert_eq!(table.bundle(&mut board, 16, 64, &[9; 11]), Err(Refusal::WrongBundle));
        let made = Table::fresh(&mut [0; BYTES][..], &mut board, Day::Ordinary).err();
        assert_eq!(made, Some(wrong), "{length}");
        let short = Table::fresh(&mut [0; BYTES - 1][..], &mut board, Day::Ordinary).err();
        assert_eq!(short, Some(Refusal::NoTable), "{length}");
        assert!(table.bytes() == before.bytes() && board.bytes() == vec![0xa5; length]);
    }
}

/// A refusal leaves the board, also one that was never right.
#[test]
fn a_refusal_leaves_the_board() {
    let mut lent = fresh();
    lent.board = Board::from_bytes(vec![0xa5; BOARD]);
    lent.update(0, 0, Kind::Time, 7, 61_000).unwrap();
    lent.fork(0).unwrap_err();
    assert_eq!(lent.yield_(16), Err(Refusal::UnknownClient));
    assert_eq!(lent.join(0, 1), Err(Refusal::NeverGiven));
    assert_eq!(lent.sync(0), Err(Refusal::InUse));
    assert_eq!(lent.bundle(0, 0, &[9; 12]), Err(Refusal::BadEntry));
    assert!(lent.board.bytes() == [0xa5; BOARD]);
}
