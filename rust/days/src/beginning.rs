//! What some kinds of day begin with.

use calls::{Call, REVISIONS};

use crate::generator::Generator;

impl Generator<'_> {
    /// The calls before those that are picked at random.
    pub(crate) fn begin(&mut self) {
        if self.profile.single_main {
            self.make(Call::Fresh { single_main: true });
        }
        for _ in 0..self.profile.first {
            let call = self.first();
            self.make(call);
        }
        if self.profile.handed_in > 0 {
            self.use_up();
        }
    }

    /// Gives out every number, and hands some of the revisions in. A few clients enter something on
    /// the way, so that the numbers mean a revision with a past.
    fn use_up(&mut self) {
        while self.given < usize::from(REVISIONS) {
            let call = self.fork();
            self.make(call);
            if self.rng.percent(10) {
                self.enter();
            }
        }
        for _ in 0..1 + self.rng.below(self.profile.handed_in) {
            let call = self.back();
            self.make(call);
            if self.rng.percent(10) {
                self.enter();
            }
        }
    }

    /// A transaction of one update; every client has yielded before it and after it.
    fn enter(&mut self) {
        let call = self.update();
        if let Call::Update { client, .. } = call {
            self.make(call);
            self.make(Call::Yield { client });
        }
    }
}
