//! 02, U13, after every step of a day: its own line-up gets a yes, and every other order what the literal
//! replay says.

use calls::{order_file, Answer, Call};
use literal::{Day, VertexKind};

use crate::arbitration::arbitration_order;

/// The first verify of a day that is not answered rightly, in words. `make` makes one call. After each
/// call of the day every order of [`every_order`] is asked.
pub fn fault_of_orders<D>(
    mut day: D,
    calls: &[Call],
    make: impl Fn(&mut D, &Call) -> Answer,
) -> Option<String> {
    let mut literal = Day::fresh();
    calls.iter().find_map(|call| {
        make(&mut day, call);
        literal.call(call);
        let orders = every_order(&literal);
        let right = std::iter::once(Answer::accepted(1))
            .chain(orders[1..].iter().map(|order| literal.clone().call(order)));
        orders.iter().zip(right).find_map(|(order, right)| {
            let given = make(&mut day, order);
            (given != right)
                .then(|| format!("after `{call}`: `{order}` gives {given}, not {right}"))
        })
    })
}

/// Verifies of a day: of its own line-up, and of orders and files that differ from it.
pub fn every_order(day: &Day) -> Vec<Call> {
    let own = own_order(day);
    let others = others(&own);
    let files = std::iter::once(&own).chain(&others).map(|numbers| order_file(numbers));
    files.chain(ill_headed(&order_file(&own))).map(|order| Call::Verify { order }).collect()
}

/// The updates of a day in arbitration order, "and as entered within a transaction".
pub fn own_order(day: &Day) -> Vec<u16> {
    let transactions = arbitration_order(day).into_iter().map(|t| &day.transactions()[t]);
    let number = |&x| match day.diagram().kind(x) {
        VertexKind::Update(number) => Some(number as u16),
        _ => None,
    };
    transactions.flat_map(|transaction| transaction.events.iter().filter_map(number)).collect()
}

/// Neighbours changed, the ends changed, turned round, moved on, as entered; a number missing, one too
/// many, twice in place of another, or too high; and none.
fn others(own: &[u16]) -> Vec<Vec<u16>> {
    let count = own.len();
    let changed = |change: &dyn Fn(&mut Vec<u16>)| {
        let mut numbers = own.to_vec();
        change(&mut numbers);
        numbers
    };
    let mut others: Vec<Vec<u16>> =
        (1..count).map(|at| changed(&|numbers| numbers.swap(at - 1, at))).collect();
    others.extend([changed(&|numbers| numbers.push(count as u16)), Vec::new()]);
    if let Some(last) = count.checked_sub(1) {
        others.extend([
            changed(&|numbers| numbers.swap(0, last)),
            changed(&|numbers| numbers.reverse()),
            changed(&|numbers| numbers.rotate_left(1)),
            changed(&|numbers| numbers.sort_unstable()),
            changed(&|numbers| _ = numbers.pop()),
            changed(&|numbers| numbers.push(numbers[0])),
            changed(&|numbers| numbers[0] = numbers[last]),
            changed(&|numbers| numbers[last] = count as u16),
        ]);
    }
    others
}

/// A byte more or less, a count that is one too high or fits modulo 2^32 alone, an offset within the
/// header, and a gap, which is good.
fn ill_headed(file: &[u8]) -> [Vec<u8>; 6] {
    let changed = |change: &dyn Fn(&mut Vec<u8>)| {
        let mut file = file.to_vec();
        change(&mut file);
        file
    };
    [
        changed(&|file| file.push(0)),
        changed(&|file| _ = file.pop()),
        changed(&|file| file[0] = file[0].wrapping_add(1)),
        changed(&|file| file[3] ^= 0x80),
        changed(&|file| {
            file[4] = 7;
            file.remove(7);
        }),
        changed(&|file| {
            file[4] = 11;
            file.splice(8..8, [7; 3]);
        }),
    ]
}
