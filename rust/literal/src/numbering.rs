//! The numbers that revisions bear: 02, U7.

/// 64 numbers, 0 to 63; so many revisions are out at most.
pub(crate) const NUMBERS: usize = 64;

/// The part of the record that says what a call's box numbers mean.
#[derive(Clone, Debug, PartialEq, Eq)]
pub(crate) struct Numbering {
    /// The number that each revision got at its start, in the order of their starts.
    of: Vec<u8>,
    /// The numbers used so far are those below this.
    given: u8,
    /// The numbers handed in or dropped and not used again, the one that was longest ago first.
    handed_in: Vec<u8>,
}

impl Numbering {
    /// The main revision bears 0.
    pub(crate) fn fresh() -> Self {
        Numbering { of: vec![0], given: 1, handed_in: Vec::new() }
    }

    /// "A number means the latest box that bore it": none if no revision did.
    pub(crate) fn meant(&self, number: u8) -> Option<usize> {
        self.of.iter().rposition(|&of| of == number)
    }

    /// The number that a revision got at its start.
    pub(crate) fn of(&self, revision: usize) -> u8 {
        self.of[revision]
    }

    /// A revision starts: "A fork now takes a never-used number while there is one, else the number
    /// handed in longest ago."
    pub(crate) fn start(&mut self) -> u8 {
        let number = if usize::from(self.given) < NUMBERS {
            self.given += 1;
            self.given - 1
        } else {
            self.handed_in.remove(0)
        };
        self.of.push(number);
        number
    }

    /// A revision is handed in or dropped.
    pub(crate) fn hand_in(&mut self, revision: usize) {
        self.handed_in.push(self.of[revision]);
    }
}

#[cfg(test)]
mod tests {
    use super::*;

    #[test]
    fn unused_numbers_come_first_then_the_longest_handed_in() {
        let mut numbering = Numbering::fresh();
        assert_eq!((numbering.start(), numbering.start()), (1, 2));
        [2, 1].into_iter().for_each(|revision| numbering.hand_in(revision));
        assert!((3..64).all(|number| numbering.start() == number));
        numbering.hand_in(7);
        assert_eq!([(); 3].map(|()| numbering.start()), [2, 1, 7]);
        assert_eq!(numbering.meant(1), Some(65));
        assert_eq!([64, 65, 66].map(|revision| numbering.of(revision)), [2, 1, 7]);
        numbering.hand_in(66);
        numbering.hand_in(64);
        assert_eq!(numbering.start(), 7);
        assert_eq!(
            [0, 2, 7, 63].map(|n| numbering.meant(n)),
            [Some(0), Some(64), Some(67), Some(63)]
        );
        assert_eq!(numbering.meant(64), None);
    }
}
