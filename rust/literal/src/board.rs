//! The announcer's board, worked out afresh: 02, U10.

use crate::day::Day;
use crate::diagram::VertexKind;
use crate::update::{Standing, BIBS};

impl Day {
    /// "It shows box 0 by closed transactions only": the updates that box 0's terminal sees, of closed
    /// transactions, in the listing's order.
    pub fn closed(&self) -> Vec<usize> {
        let mut is_open = vec![false; self.updates.len()];
        for transaction in self.transactions.iter().filter(|transaction| transaction.is_open()) {
            for &event in &transaction.events {
                if let VertexKind::Update(number) = self.diagram.kind(event) {
                    is_open[number] = true;
                }
            }
        }
        let mut numbers = self.visible(0);
        numbers.retain(|&number| !is_open[number]);
        numbers
    }

    /// "per bib a byte, 1 if struck and else 0, then the value in 4 bytes, least significant first"
    pub fn board(&self) -> Vec<u8> {
        let mut standings = [Standing::FRESH; BIBS];
        for number in self.closed() {
            let update = self.updates[number];
            let standing = &mut standings[usize::from(update.bib)];
            *standing = update.applied_to(*standing);
        }
        standings.into_iter().flat_map(shown).collect()
    }
}

/// The entry of a bib that stands so.
fn shown(standing: Standing) -> [u8; 5] {
    let [v0, v1, v2, v3] = standing.value().to_le_bytes();
    [u8::from(standing == Standing::Struck), v0, v1, v2, v3]
}

#[cfg(test)]
mod tests {
    use calls::Call;

    use super::*;

    #[test]
    fn a_board_shows_what_is_closed_and_seen_by_box_0() {
        let mut day = Day::fresh();
        let update =
            |client, revision, kind, bib, v| Call::Update { client, revision, kind, bib, v };
        let entry = |day: &Day, bib: usize| day.board()[5 * bib..5 * bib + 5].to_vec();
        assert_eq!(day.board(), [0; 5_000]);

        day.call(&update(0, 0, 1, 7, 0x0102_0304));
        assert_eq!(day.board(), [0; 5_000]);
        day.call(&Call::Yield { client: 0 });
        assert_eq!(entry(&day, 7), [0, 4, 3, 2, 1]);

        day.call(&Call::Fork { revision: 0 });
        day.call(&update(1, 1, 4, 7, 9));
        day.call(&update(1, 1, 1, 999, 5));
        day.call(&Call::Yield { client: 1 });
        assert_eq!(entry(&day, 7), [0, 4, 3, 2, 1]);
        day.call(&Call::Join { joiner: 0, joinee: 1 });
        assert_eq!(entry(&day, 7), [1, 0, 0, 0, 0]);
        assert_eq!(entry(&day, 999), [0, 5, 0, 0, 0]);
        assert_eq!(day.closed(), [0, 1, 2]);
    }
}
