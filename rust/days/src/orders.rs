//! Orders of updates as files, picked at random: 02, U13.

use calls::{order_file, Call};

use crate::generator::Generator;

impl Generator<'_> {
    /// In half of the cases an order that fits, as far as the answers told.
    pub(crate) fn verify(&mut self) -> Call {
        let own = |&revision: &u8| self.own[usize::from(revision)].clone();
        let mut numbers: Vec<u16> = self.row.iter().flat_map(own).collect();
        if self.rng.percent(50) {
            self.misplace(&mut numbers);
        }
        Call::Verify { order: order_file(&numbers) }
    }

    /// Two neighbours or any two change places, one number stands twice, is too high, is left out or is
    /// one too many, or all stand as they were entered.
    fn misplace(&mut self, numbers: &mut Vec<u16>) {
        let Some(last) = numbers.len().checked_sub(1) else {
            return numbers.push(self.rng.below(2) as u16);
        };
        let [a, b] = [(); 2].map(|()| self.rng.below(last + 1));
        match self.rng.below(8) {
            0 | 1 => numbers.swap(a, last.min(a + 1)),
            2 | 3 => numbers.swap(a, b),
            4 => numbers[a] = numbers[b],
            5 => numbers[a] = self.updates as u16,
            6 => _ = numbers.remove(a),
            _ if a == b => numbers.push(self.updates as u16),
            _ => numbers.sort_unstable(),
        }
    }

    /// The file with another count, offset or length; in some cases with a gap, which is good.
    pub(crate) fn ill_headed(&mut self, mut file: Vec<u8>) -> Vec<u8> {
        let place = self.rng.below(8);
        match self.rng.below(5) {
            0 => file[place] = file[place].wrapping_add(1),
            1 => file[3] ^= 0x80,
            2 => file.truncate(self.rng.below(file.len())),
            3 => file.push(0),
            _ => {
                let gap = self.rng.below(5);
                file.splice(8..8, vec![0xa5; gap]);
                file[4] += gap as u8;
            }
        }
        file
    }
}
