//! The exports of the proved crate, as include/silttongs.h declares them: each call on one table, and, in
//! [`courses`], on a course of four.

#![allow(unsafe_code)]

use crate::fill::Fill;
use crate::preview::Preview;
use crate::refusal::{answer, Refusal};
use crate::standing::Standing;

/// Bytes that are lent to be written, or only to be read.
macro_rules! lent {
    (mut) => {
        &mut [u8]
    };
    (const) => {
        &[u8]
    };
}

/// Where they lie.
macro_rules! start {
    (mut $bytes:expr) => {
        $bytes.as_mut_ptr()
    };
    (const $bytes:expr) => {
        $bytes.as_ptr()
    };
}

/// Declares the two exports of each call and makes a function of either. What they take is, in this order: the
/// table, or the four tables and the number of the course; the board, if one is lent; numbers; other bytes.
///
/// Each export takes any bytes and any numbers: it has no precondition, is proved to stay within its slices,
/// and keeps nothing of them. A slice that it writes is lent to it alone for as long as it runs.
macro_rules! calls {
    ($(
        $name:ident($table:tt $(, $board:ident)?; $($number:ident: $type:ty),* $(; $bytes:ident: $way:tt)?)
            -> $answer:ty: $unpacked:path, $one:ident, $four:ident;
    )*) => {
        extern "C" {
            $(
                fn $one(
                    table: *$table u8,
                    length: usize,
                    $($board: *mut u8, board_length: usize,)?
                    $($number: $type,)*
                    $($bytes: *$way u8, bytes_length: usize,)?
                ) -> u64;
                fn $four(
                    table_0: *$table u8,
                    length_0: usize,
                    table_1: *$table u8,
                    length_1: usize,
                    table_2: *$table u8,
                    length_2: usize,
                    table_3: *$table u8,
                    length_3: usize,
                    course: u8,
                    $($board: *mut u8, board_length: usize,)?
                    $($number: $type,)*
                    $($bytes: *$way u8, bytes_length: usize,)?
                ) -> u64;
            )*
        }

        $(pub(crate) fn $name(
            t: lent!($table),
            $($board: &mut [u8],)?
            $($number: $type,)*
            $($bytes: lent!($way),)?
        ) -> Result<$answer, Refusal> {
            // SAFETY: as above. What may be written lies apart from all else.
            $unpacked(unsafe {
                $one(
                    start!($table t),
                    t.len(),
                    $($board.as_mut_ptr(), $board.len(),)?
                    $($number,)*
                    $(start!($way $bytes), $bytes.len(),)?
                )
            })
        })*

        pub(crate) mod courses {
            use super::*;

            $(pub(crate) fn $name(
                [a, b, c, d]: [lent!($table); 4],
                course: u8,
                $($board: &mut [u8],)?
                $($number: $type,)*
                $($bytes: lent!($way),)?
            ) -> Result<$answer, Refusal> {
                // SAFETY: as above. What may be written lies apart from all else.
                $unpacked(unsafe {
                    $four(
                        start!($table a),
                        a.len(),
                        start!($table b),
                        b.len(),
                        start!($table c),
                        c.len(),
                        start!($table d),
                        d.len(),
                        course,
                        $($board.as_mut_ptr(), $board.len(),)?
                        $($number,)*
                        $(start!($way $bytes), $bytes.len(),)?
                    )
                })
            })*
        }
    };
}

calls! {
    fresh(mut, board; single_main: u8) -> (): nothing, silttongs_fresh, silttongs_course_fresh;
    update(mut; client: u8, revision: u8, kind: u8, bib: u16, v: u32)
        -> u32: answer, silttongs_update, silttongs_course_update;
    query(mut; client: u8, revision: u8, bib: u16)
        -> Standing: Standing::from_packed, silttongs_query, silttongs_course_query;
    yield_(mut, board; client: u8) -> (): nothing, silttongs_yield, silttongs_course_yield;
    fork(mut; revision: u8) -> u8: number, silttongs_fork, silttongs_course_fork;
    join(mut, board; joiner: u8, joinee: u8) -> u32: answer, silttongs_join, silttongs_course_join;
    sync(mut, board; revision: u8) -> u8: number, silttongs_sync, silttongs_course_sync;
    mark(mut; revision: u8; name: const) -> u8: number, silttongs_mark, silttongs_course_mark;
    drop(mut; ; name: const) -> (): nothing, silttongs_drop, silttongs_course_drop;
    list(const; revision: u8; sheet: mut) -> u32: answer, silttongs_list, silttongs_course_list;
    fill(const; revision: u8) -> Fill: filled, silttongs_fill, silttongs_course_fill;
    bundle(mut, board; client: u8, revision: u8; records: const)
        -> u32: answer, silttongs_bundle, silttongs_course_bundle;
    preview(const; joiner: u8, joinee: u8, bib: u16)
        -> Preview: Preview::from_packed, silttongs_preview, silttongs_course_preview;
    verify(const; ; order: const) -> bool: yes, silttongs_verify, silttongs_course_verify;
    bill(const; member: u8) -> u32: answer, silttongs_bill, silttongs_course_bill;
}

/// No value but that it is taken.
fn nothing(packed: u64) -> Result<(), Refusal> {
    answer(packed).map(|_| ())
}

/// The number of a new box.
fn number(packed: u64) -> Result<u8, Refusal> {
    answer(packed).map(|number| u8::try_from(number).expect("a box number is 63 at most"))
}

/// The updates of a box, and of the table.
fn filled(packed: u64) -> Result<Fill, Refusal> {
    answer(packed).map(Fill::from_value)
}

/// Whether an order fits.
fn yes(packed: u64) -> Result<bool, Refusal> {
    match answer(packed)? {
        0 => Ok(false),
        1 => Ok(true),
        value => unreachable!("value {value} of a verify"),
    }
}

#[cfg(test)]
mod tests {
    use super::courses::*;
    use crate::{Refusal, BOARD, BYTES};

    fn all(tables: &mut [[u8; BYTES]; 4]) -> [&mut [u8]; 4] {
        tables.each_mut().map(|table| &mut table[..])
    }

    /// Numbers that no `Course` has, which are checked by the exports too.
    #[test]
    fn other_numbers_than_0_to_3_are_refused() {
        let mut tables = [[0; BYTES]; 4];
        let (t, board) = (&mut tables, &mut [0; BOARD]);
        for course in 0..4 {
            assert_eq!(fresh(all(t), course, board, 0), Ok(()));
        }
        let before = (*t, *board);
        for course in 4..=u8::MAX {
            let refused = [
                fresh(all(t), course, board, 1).err(),
                update(all(t), course, 0, 0, 1, 7, 1).err(),
                query(all(t), course, 0, 0, 7).err(),
                yield_(all(t), course, board, 0).err(),
                fork(all(t), course, 0).err(),
                join(all(t), course, board, 0, 1).err(),
                sync(all(t), course, board, 1).err(),
                mark(all(t), course, 0, b"JURY").err(),
                drop(all(t), course, b"JURY").err(),
                list(t.each_ref().map(|t| &t[..]), course, 0, &mut []).err(),
                fill(t.each_ref().map(|t| &t[..]), course, 0).err(),
                bundle(all(t), course, board, 0, 0, &[1; 12]).err(),
                preview(t.each_ref().map(|t| &t[..]), course, 0, 1, 7).err(),
                verify(t.each_ref().map(|t| &t[..]), course, &[]).err(),
                bill(t.each_ref().map(|t| &t[..]), course, 1).err(),
            ];
            assert_eq!(refused, [Some(Refusal::NoTable); 15], "{course}");
            assert!((*t, *board) == before, "{course}");
        }
    }
}
