//! How the generator picks marks and drops, and the names for them.

use calls::Call;

use crate::generator::Generator;

/// Few, so that they clash. Each two differ in one letter or two, so that each letter matters.
const NAMES: [&[u8; 4]; 6] = [b"AZAZ", b"BZAZ", b"AYAZ", b"AZBZ", b"AZAY", b"JURY"];

impl Generator<'_> {
    pub(crate) fn mark(&mut self) -> Call {
        let revision = self.source();
        let name = self.name();
        self.settled(None, &[revision], Call::Mark { revision, name })
    }

    /// In most cases of a mark that is out.
    pub(crate) fn drop_mark(&mut self) -> Call {
        let borne: Vec<Vec<u8>> = self.marks.values().cloned().collect();
        let name = match self.rng.percent(75) && !borne.is_empty() {
            true => borne[self.rng.below(borne.len())].clone(),
            false => self.name(),
        };
        Call::Drop { name }
    }

    /// In most cases a good one, in use or not.
    fn name(&mut self) -> Vec<u8> {
        let name = self.rng.pick(&NAMES).to_vec();
        if self.rng.percent(15) {
            self.ill_formed(name)
        } else {
            name
        }
    }

    /// A letter too few or too many, none, or a byte that is no letter A to Z in some place.
    pub(crate) fn ill_formed(&mut self, mut name: Vec<u8>) -> Vec<u8> {
        let place = self.rng.below(name.len().max(1));
        let any = self.rng.bits() as u8;
        let strange = self.rng.pick(&[b'A' - 1, b'Z' + 1, 0, any]);
        match self.rng.below(6) {
            0 => _ = name.pop(),
            1 => name.push(b'A'),
            2 => name.clear(),
            3 => name.make_ascii_lowercase(),
            4 => name[place..].iter_mut().take(1).for_each(u8::make_ascii_lowercase),
            _ => name[place..].iter_mut().take(1).for_each(|byte| *byte = strange),
        }
        name
    }
}
