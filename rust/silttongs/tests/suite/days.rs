//! Random days: for every call the static library gives the code, state, value, total, gain and sheet
//! of the literal replay, leaves the bytes that the baseline leaves, and the board that the literal replay
//! works out afresh.

use calls::{Answer, Call, Line, BIBS, BOARD};
use days::{
    chains_of_joins, days_of, every_fill, every_list, every_preview, fault_of_bills,
    fault_of_bundles, fault_of_fills, fault_of_marks, fault_of_numbers, fault_of_orders,
    fault_of_origins, fault_of_previews, fault_of_syncs, late_days, may_change_boards, must_pass,
    one_in, seeds, Profile,
};
use silttongs::{lines, Board, Entry, Table};

use super::given::{
    answered, as_given, difference, first_difference, library, only_reads, refused, Bytes,
};

#[test]
fn days_of_all_kinds() {
    must_pass(one_in(1), fault);
}

#[test]
fn chains() {
    must_pass(chains_of_joins(seeds(60)), fault);
}

#[test]
fn days_with_late_updates() {
    must_pass(late_days(), fault);
}

#[test]
fn small_days_with_every_listing_and_fill_after_every_step() {
    must_pass(Profile::SMALL.days(seeds(800)), fault_with_reads);
    must_pass(Profile::SMALL_REUSED.days(seeds(20)), fault_with_reads);
    must_pass(Profile::SMALL_SINGLE_MAIN.days(seeds(150)), fault_with_reads);
    must_pass(Profile::SMALL_MARKED.days(seeds(250)), fault_with_reads);
    must_pass(chains_of_joins(0..10), fault_with_reads);
}

/// A preview of each pair of boxes after every step, of a bib that is entered and of one too high.
#[test]
fn small_days_with_every_preview_after_every_step() {
    must_pass(Profile::SMALL.days(seeds(100)), fault_with_previews);
    must_pass(Profile::SMALL_SINGLE_MAIN.days(seeds(30)), fault_with_previews);
    must_pass(Profile::SMALL_MARKED.days(seeds(30)), fault_with_previews);
}

/// 02, U4, U6 and U8, by the library alone: a bundle is its updates and a yield, or changes nothing; a
/// preview is the join on a copy, as a list and a query there have it; a sync is the join and the fork.
#[test]
fn bundles_previews_and_syncs_are_what_other_calls_come_to() {
    let bundles = |calls: &[Call]| fault_of_bundles(Bytes::fresh(), calls, answered);
    let previews = |calls: &[Call]| fault_of_previews(Bytes::fresh(), calls, answered);
    let syncs = |calls: &[Call]| fault_of_syncs(Bytes::fresh(), calls, answered);
    must_pass(one_in(8), bundles);
    must_pass(one_in(8), previews);
    must_pass(one_in(8), syncs);
    must_pass(late_days(), previews);
    must_pass(chains_of_joins(seeds(10)), previews);
}

/// Random days on the library, each bundle of whole records sent in both forms.
#[test]
fn both_forms_on_random_days() {
    let kinds = [(Profile::BUNDLES, 100), (Profile::NEARLY_FULL, 30), (Profile::STRANGE, 100)];
    must_pass(days_of(&kinds), |calls| {
        let mut bytes = Bytes::fresh();
        calls.iter().find_map(|call| fault_of_entries(&mut bytes, call))
    });
}

/// 02, U7, by the library alone: which number a fork gives, and which numbers are out.
#[test]
fn numbers_go_by_the_order_of_the_hand_ins() {
    let numbers = |calls: &[Call]| fault_of_numbers(Bytes::fresh(), calls, answered);
    must_pass(one_in(4), numbers);
    must_pass(Profile::SMALL_REUSED.days(seeds(60)), numbers);
}

/// 02, U13: the day's own line-up gets a yes, other orders what the literal replay says.
#[test]
fn orders_after_every_step() {
    let orders = |calls: &[Call]| fault_of_orders(Bytes::fresh(), calls, answered);
    must_pass(Profile::SMALL.days(seeds(100)), orders);
    must_pass(Profile::SMALL_MARKED.days(seeds(60)), orders);
    must_pass(Profile::SMALL_SINGLE_MAIN.days(seeds(30)), orders);
    must_pass(chains_of_joins(seeds(3)), orders);
    must_pass(late_days(), orders);
}

/// 02, U9, by the library alone: names, codes and lists of marks, and what comes of them.
#[test]
fn marks_go_by_the_calls_before() {
    let kinds = [
        (Profile::SMALL_MARKED, 300),
        (Profile::MARKED, 100),
        (Profile::CROWDED_MARKED, 4),
        (Profile::RENEWED, 60),
        (Profile::SINGLE_MAIN, 60),
    ];
    must_pass(days_of(&kinds), |calls| {
        fault_of_marks(Bytes::fresh(), calls, answered)
            .or_else(|| fault_of_origins(Bytes::fresh(), calls, answered))
    });
}

/// 02, U14: after every step, a bill is that of the calls and their answers, and none is lower.
#[test]
fn bills_are_those_of_the_history() {
    let bills = |calls: &[Call]| fault_of_bills(Bytes::fresh(), calls, answered);
    must_pass(one_in(4), bills);
    must_pass(Profile::SMALL_MARKED.days(seeds(100)), bills);
    must_pass(Profile::SMALL_SINGLE_MAIN.days(seeds(60)), bills);
}

/// 02, U1: after every step, the own updates of all boxes out come to the updates accepted.
#[test]
fn fills_come_to_the_updates_accepted() {
    must_pass(one_in(4), fault_of_a_sum);
    must_pass(Profile::SMALL.days(seeds(200)), fault_of_a_sum);
    must_pass(chains_of_joins(seeds(30)), fault_of_a_sum);
}

/// The first call on which they differ, in words.
fn fault(calls: &[Call]) -> Option<String> {
    let mut day = Day::fresh();
    calls.iter().find_map(|call| day.fault(call))
}

fn fault_with_reads(calls: &[Call]) -> Option<String> {
    let mut day = Day::fresh();
    calls.iter().find_map(|call| {
        day.fault(call)
            .or_else(|| every_fill(&day.literal).iter().find_map(|fill| day.fault(fill)))
            .or_else(|| day.fault_of_reads(&every_list(&day.literal, 1)))
    })
}

fn fault_with_previews(calls: &[Call]) -> Option<String> {
    let mut day = Day::fresh();
    calls.iter().find_map(|call| {
        day.fault(call).or_else(|| day.fault_of_reads(&every_preview(&day.literal, &[0, BIBS])))
    })
}

fn fault_of_a_sum(calls: &[Call]) -> Option<String> {
    fault_of_fills(Bytes::fresh(), calls, answered)
}

fn fault_of_entries(bytes: &mut Bytes, call: &Call) -> Option<String> {
    let Bytes { table, board } = bytes.clone();
    let (mut table, mut board) = (Table::from_bytes(table), Board::from_bytes(board));
    let by_records = answered(bytes, call);
    let Call::Bundle { client, revision, ref records } = *call else { return None };
    let (whole, rest) = records.as_chunks();
    if !rest.is_empty() {
        return None;
    }
    let entry = |&record| {
        let Line { kind, bib, v, .. } = Line::from_bytes(record);
        Entry { kind, bib, v }
    };
    let entries: Vec<Entry> = whole.iter().map(entry).collect();
    let answer = table.bundle_entries(&mut board, client, revision, &entries);
    let by_entries = answer.map_or_else(refused, Answer::accepted);
    let left = Bytes { table: table.into_bytes(), board: board.into_bytes() };
    let same = by_entries == by_records && left == *bytes;
    (!same).then(|| format!("`{call}`: as entries {by_entries}, as records {by_records}"))
}

/// A day on all three.
struct Day {
    bytes: Bytes,
    literal: literal::Day,
    baseline: baseline::Day,
    /// The literal replay's, as worked out afresh when it may have changed last.
    board: Vec<u8>,
}

impl Day {
    fn fresh() -> Self {
        Day {
            bytes: Bytes::fresh(),
            literal: literal::Day::fresh(),
            baseline: baseline::Day::fresh(),
            board: vec![0; BOARD],
        }
    }

    /// Makes the call. The baseline is not asked to list, to fill or to preview: its bytes are then
    /// the table's before the call.
    fn fault(&mut self, call: &Call) -> Option<String> {
        if !only_reads(call) {
            self.baseline.call(call);
        }
        let fault = self.fault_of_answer(call).or_else(|| self.fault_of_bytes());
        fault.map(|fault| format!("`{call}`: {fault}"))
    }

    fn fault_of_answer(&mut self, call: &Call) -> Option<String> {
        let expected = self.literal.call(call);
        if may_change_boards(call, &expected) {
            self.board = self.literal.board();
        }
        let Bytes { table, board } = &mut self.bytes;
        let given = library(table, board, call);
        let read = lines(&given.sheet, given.answer.value).map(|line| {
            let silttongs::Line { kind, client, bib, v, number } = line;
            Line { kind, client, bib, v, number }
        });
        if !read.eq(expected.lines.iter().copied()) {
            return Some("the lines read from the sheet are others".to_string());
        }
        difference(&given, &as_given(call, expected))
    }

    fn fault_of_bytes(&self) -> Option<String> {
        let (Bytes { table, board }, bytes) = (&self.bytes, self.baseline.bytes());
        if let Some(at) = first_difference(table, bytes) {
            return Some(format!("byte {at} is {}, baseline has {}", table[at], bytes[at]));
        }
        let at = first_difference(board, &self.board)?;
        Some(format!("byte {at} of the board is {}, not {}", board[at], self.board[at]))
    }

    /// Makes these calls, which only read. The bytes are compared after the last: that takes most of
    /// the time.
    fn fault_of_reads(&mut self, reads: &[Call]) -> Option<String> {
        reads
            .iter()
            .find_map(|call| self.fault_of_answer(call).map(|fault| format!("`{call}`: {fault}")))
            .or_else(|| self.fault_of_bytes().map(|fault| format!("after reads: {fault}")))
    }
}
