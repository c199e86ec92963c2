//! 02, U13, on random days: after every step a verify says yes to the day's own line-up, and of other
//! orders what the literal replay says. And wrong verifies are found.

use std::collections::BTreeMap;

use calls::{Answer, Call, Code};
use days::{
    chains_of_joins, fault_of_orders, late_days, must_find, must_pass, once_in, own_order, seeds,
    Profile, Sample,
};
use literal::Day;

/// By the literal replay, and by the baseline.
fn by_either(calls: &[Call]) -> Option<String> {
    fault_of_orders(Day::fresh(), calls, Day::call)
        .or_else(|| fault_of_orders(baseline::Day::fresh(), calls, baseline::Day::call))
}

#[test]
fn the_own_line_up_gets_a_yes() {
    must_pass(Profile::SMALL.days(seeds(150)), by_either);
    must_pass(Profile::SMALL_MARKED.days(seeds(100)), by_either);
    must_pass(Profile::SMALL_SINGLE_MAIN.days(seeds(50)), by_either);
    must_pass(Profile::SMALL_REUSED.days(seeds(4)), by_either);
    must_pass(chains_of_joins(seeds(5)), by_either);
    must_pass(late_days(), by_either);
}

/// Random days have verifies of every kind, many times over.
#[test]
fn verifies_of_every_kind_are_made() {
    let mut met: BTreeMap<&str, usize> = BTreeMap::new();
    for Sample { calls, .. } in once_in(2) {
        let mut day = Day::fresh();
        for call in calls {
            let answer = day.call(&call);
            if let Call::Verify { order } = call {
                *met.entry(kind_of(&day, &order, &answer)).or_default() += 1;
            }
        }
    }
    let kinds =
        ["bad", "incomplete", "no", "yes", "yes, busy", "yes, no update", "yes, not as entered"];
    assert!(met.keys().eq(&kinds), "{met:?}");
    assert!(met.values().all(|&times| times >= 100), "{met:?}");
}

fn kind_of(day: &Day, order: &[u8], answer: &Answer) -> &'static str {
    if answer.code != Code::Accepted {
        return "bad";
    }
    let numbers = numbers(order);
    let mut sorted = numbers.clone();
    sorted.sort_unstable();
    if !sorted.iter().copied().eq(0..day.updates().len()) {
        return "incomplete";
    }
    match answer.value {
        0 => "no",
        _ if numbers.is_empty() => "yes, no update",
        _ if numbers != sorted => "yes, not as entered",
        _ if day.transactions().iter().any(|transaction| transaction.is_open()) => "yes, busy",
        _ => "yes",
    }
}

/// The numbers of a file that is no bad list.
fn numbers(order: &[u8]) -> Vec<usize> {
    let offset = u32::from_le_bytes([order[4], order[5], order[6], order[7]]) as usize;
    let (numbers, _) = order[offset..].as_chunks();
    numbers.iter().map(|&number| usize::from(u16::from_le_bytes(number))).collect()
}

/// What a wrong verify of a file that is no bad list says.
type Wrong = fn(&Day, &[usize]) -> bool;

const WRONG: [(&str, Wrong); 11] = [
    ("a number twice and another missing", |day, numbers| {
        let high = numbers.iter().any(|&number| number >= day.updates().len());
        numbers.len() == day.updates().len() && !high && in_order(day, |_| true, numbers)
    }),
    ("a number too high", |day, numbers| {
        once(numbers) && numbers.len() == day.updates().len() && in_order(day, |_| true, numbers)
    }),
    ("a number missing", |day, numbers| {
        once(numbers) && within(day, numbers) && in_order(day, |_| true, numbers)
    }),
    ("the empty file", |day, numbers| numbers.is_empty() || fits(day, |_| true, numbers)),
    ("only box 0 looked at", |day, numbers| fits(day, |r| r == 0, numbers)),
    ("box 0 not looked at", |day, numbers| fits(day, |r| r != 0, numbers)),
    ("a busy box left out", |day, numbers| fits(day, |r| !is_busy(day, r), numbers)),
    ("the boxes that are not busy left out", |day, numbers| {
        fits(day, |r| is_busy(day, r), numbers)
    }),
    ("neighbours of the file compared only", |day, numbers| {
        let wrong = |pair: &[usize]| {
            out(day).any(|r| {
                let listed = day.visible(r);
                let place = |number| listed.iter().position(|&other| other == number);
                matches!((place(pair[0]), place(pair[1])), (Some(a), Some(b)) if a > b)
            })
        };
        complete(day, numbers) && !numbers.windows(2).any(wrong)
    }),
    ("yes for everything that is complete", complete),
    ("the one line-up alone", |day, numbers| {
        numbers.iter().copied().eq(own_order(day).into_iter().map(usize::from))
    }),
];

fn once(numbers: &[usize]) -> bool {
    let mut sorted = numbers.to_vec();
    sorted.sort_unstable();
    sorted.windows(2).all(|pair| pair[0] != pair[1])
}

fn within(day: &Day, numbers: &[usize]) -> bool {
    numbers.iter().all(|&number| number < day.updates().len())
}

fn complete(day: &Day, numbers: &[usize]) -> bool {
    once(numbers) && within(day, numbers) && numbers.len() == day.updates().len()
}

fn fits(day: &Day, counts: impl Fn(usize) -> bool, numbers: &[usize]) -> bool {
    complete(day, numbers) && in_order(day, counts, numbers)
}

/// Whether the lists of those boxes out that count have rising places; of what has none, 0.
fn in_order(day: &Day, counts: impl Fn(usize) -> bool, numbers: &[usize]) -> bool {
    out(day).filter(|&r| counts(r)).all(|r| {
        let place = |number| numbers.iter().position(|&other| other == number);
        let places: Vec<Option<usize>> = day.visible(r).into_iter().map(place).collect();
        places.windows(2).all(|pair| pair[0] <= pair[1])
    })
}

fn out(day: &Day) -> impl Iterator<Item = usize> + '_ {
    (0..day.revisions().len()).filter(|&r| day.revisions()[r].out)
}

fn is_busy(day: &Day, r: usize) -> bool {
    day.transactions().iter().any(|transaction| transaction.revision == r && transaction.is_open())
}

#[test]
fn wrong_verifies_are_found() {
    for (name, wrong) in WRONG {
        let by_wrong = |calls: &[Call]| {
            fault_of_orders(Day::fresh(), calls, |day, call| {
                let right = day.call(call);
                match call {
                    Call::Verify { order } if right.code == Code::Accepted => {
                        Answer::accepted(u32::from(wrong(day, &numbers(order))))
                    }
                    _ => right,
                }
            })
        };
        must_find(name, Profile::SMALL_MARKED.days(0..60), by_wrong);
    }
}

/// Headers that a wrong check takes.
#[test]
fn wrong_checks_of_the_header_are_found() {
    type Bad = fn(count: u32, offset: u32, length: usize) -> bool;
    let wrong: [(&str, Bad); 4] = [
        ("a sum in 32 bits", |count, offset, length| {
            offset < 8 || offset.wrapping_add(count.wrapping_mul(2)) as usize != length
        }),
        ("an offset of 7", |count, offset, length| {
            offset < 7 || u64::from(offset) + 2 * u64::from(count) != length as u64
        }),
        ("a byte more", |count, offset, length| {
            offset < 8 || u64::from(offset) + 2 * u64::from(count) > length as u64
        }),
        ("no gap", |count, offset, length| {
            offset != 8 || 8 + 2 * u64::from(count) != length as u64
        }),
    ];
    for (name, is_bad) in wrong {
        let by_wrong = |calls: &[Call]| {
            fault_of_orders(Day::fresh(), calls, |day, call| match call {
                Call::Verify { order } if order.len() >= 8 => {
                    let number = |at: usize| {
                        u32::from_le_bytes([order[at], order[at + 1], order[at + 2], order[at + 3]])
                    };
                    let taken = !is_bad(number(0), number(4), order.len());
                    let right = day.call(call);
                    match (taken, right.code) {
                        (true, Code::BadList) => Answer::accepted(0),
                        (false, Code::Accepted) => Answer::refused(Code::BadList),
                        _ => right,
                    }
                }
                _ => day.call(call),
            })
        };
        must_find(name, Profile::SMALL.days(0..20), by_wrong);
    }
}
