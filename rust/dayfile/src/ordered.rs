//! The order of a day's updates as a file, and what is wrong with one from another maker: 02, U13.

use std::fmt;

use calls::{order_file, Answer, Call, Code, CLIENTS, REVISIONS, SHEET};

use crate::printed::day_after;
use crate::record::Record;

/// Why an order does not fit a day.
#[derive(Clone, Copy, Debug, PartialEq, Eq)]
pub enum Misfit {
    /// A number that no update has.
    TooHigh {
        /// The number.
        number: u16,
        /// How many updates were taken; they are numbered from 0.
        taken: usize,
    },
    /// A number that stands there before.
    Twice(u16),
    /// An update that does not stand there.
    Missing(u16),
    /// Two updates that stand there the other way round.
    Swapped {
        /// A box that is out, and lists them next to each other.
        revision: u8,
        /// What it lists first.
        first: u16,
        /// What it lists second.
        second: u16,
    },
}

impl fmt::Display for Misfit {
    fn fmt(&self, f: &mut fmt::Formatter<'_>) -> fmt::Result {
        match *self {
            Misfit::TooHigh { number, taken } => {
                write!(f, "{number} is no update: {taken} were taken, numbered from 0")
            }
            Misfit::Twice(number) => write!(f, "update {number} stands there twice"),
            Misfit::Missing(number) => write!(f, "update {number} is missing"),
            Misfit::Swapped { revision, first, second } => {
                write!(
                    f,
                    "update {second} stands before {first}, and box {revision} lists {first} first"
                )
            }
        }
    }
}

/// The day's own line-up as a file.
pub fn ordered_day(records: &[Record]) -> Vec<u8> {
    order_file(&day_after(records).line_up())
}

/// The first reason found why an order does not fit a day; none if it fits.
///
/// # Errors
///
/// Code 21, if the file is a bad list.
pub fn misfit(records: &[Record], order: &[u8]) -> Result<Option<Misfit>, Code> {
    let mut day = day_after(records);
    let answer = day.call(&Call::Verify { order: order.to_vec() });
    match answer {
        Answer { code: Code::Accepted, value: 0, .. } => Ok(Some(first_misfit(day, order))),
        Answer { code: Code::Accepted, .. } => Ok(None),
        Answer { code, .. } => Err(code),
    }
}

/// Of a file that is no bad list and does not fit.
fn first_misfit(mut day: baseline::Day, order: &[u8]) -> Misfit {
    let taken = day.call(&Call::Fill { revision: 0 }).total as usize;
    let lists = lists(day);
    match places(&numbers(order), taken) {
        Ok(places) => match lists.iter().find_map(|list| swapped(list, &places)) {
            Some(misfit) => misfit,
            None => unreachable!("an order that is complete and in order fits"),
        },
        Err(misfit) => misfit,
    }
}

/// The numbers of a file that is no bad list.
fn numbers(order: &[u8]) -> Vec<u16> {
    let offset = u32::from_le_bytes([order[4], order[5], order[6], order[7]]) as usize;
    order[offset..].as_chunks().0.iter().map(|&number| u16::from_le_bytes(number)).collect()
}

/// The place of each update, if each has one.
fn places(numbers: &[u16], taken: usize) -> Result<Vec<usize>, Misfit> {
    let mut places = vec![None; taken];
    for (place, &number) in numbers.iter().enumerate() {
        match places.get_mut(usize::from(number)) {
            None => return Err(Misfit::TooHigh { number, taken }),
            Some(Some(_)) => return Err(Misfit::Twice(number)),
            Some(free) => *free = Some(place),
        }
    }
    let of_each =
        places.iter().zip(0..).map(|(place, number)| place.ok_or(Misfit::Missing(number)));
    of_each.collect()
}

/// Each revision that is out, with the updates that it lists. A busy one is not listed, so every
/// transaction is closed before; that changes no list.
fn lists(mut day: baseline::Day) -> Vec<(u8, Vec<u16>)> {
    (0..CLIENTS).for_each(|client| _ = day.call(&Call::Yield { client }));
    let list = |revision| {
        let Answer { code, lines, .. } = day.call(&Call::List { revision, room: SHEET });
        let numbers = lines.iter().map(|line| line.number as u16).collect();
        (code == Code::Accepted).then_some((revision, numbers))
    };
    (0..REVISIONS).filter_map(list).collect()
}

/// The first two neighbours of a list that stand the other way round.
fn swapped((revision, list): &(u8, Vec<u16>), places: &[usize]) -> Option<Misfit> {
    let place = |number: u16| places[usize::from(number)];
    list.windows(2).find(|pair| place(pair[0]) > place(pair[1])).map(|pair| Misfit::Swapped {
        revision: *revision,
        first: pair[0],
        second: pair[1],
    })
}
