//! How the generator spoils a call: one argument is replaced.

use calls::{Call, BIBS, CLIENTS};

use crate::generator::Generator;

/// What arguments are replaced by: the first number out of range, or any number.
struct Strange {
    revision: u8,
    client: u8,
    bib: u16,
    kind: u8,
    /// Which argument it is, 0 to 3.
    which: usize,
}

impl Generator<'_> {
    pub(crate) fn spoilt(&mut self, call: Call) -> Call {
        let any = self.rng.bits();
        let strange = Strange {
            revision: self.any_number(),
            client: self.rng.pick(&[CLIENTS, any as u8]),
            bib: self.rng.pick(&[BIBS - 1, BIBS, any as u16]),
            kind: self.rng.pick(&[0, 5, any as u8]),
            which: self.rng.below(4),
        };
        match call {
            Call::Mark { revision, name } if strange.which > 1 => {
                Call::Mark { revision, name: self.ill_formed(name) }
            }
            Call::Drop { name } => Call::Drop { name: self.ill_formed(name) },
            Call::Verify { order } => Call::Verify { order: self.ill_headed(order) },
            Call::Fresh { .. } | Call::Bill { .. } => call,
            Call::Update { .. } | Call::Query { .. } | Call::Yield { .. } | Call::Bundle { .. } => {
                entry_with(call, strange)
            }
            _ => boxes_with(call, strange),
        }
    }
}

/// A call of a client.
fn entry_with(mut call: Call, strange: Strange) -> Call {
    match (&mut call, strange.which) {
        (Call::Yield { client }, _) => *client = strange.client,
        (Call::Update { client, .. }, 0)
        | (Call::Query { client, .. }, 0)
        | (Call::Bundle { client, .. }, 0) => *client = strange.client,
        (Call::Update { kind, .. }, 2) => *kind = strange.kind,
        (Call::Update { bib, .. } | Call::Query { bib, .. }, 3) => *bib = strange.bib,
        (Call::Update { revision, .. }, _)
        | (Call::Query { revision, .. }, _)
        | (Call::Bundle { revision, .. }, _) => *revision = strange.revision,
        _ => unreachable!("a call of a client"),
    }
    call
}

/// A call of boxes.
fn boxes_with(mut call: Call, strange: Strange) -> Call {
    match (&mut call, strange.which) {
        (Call::Fork { revision } | Call::Fill { revision } | Call::Sync { revision }, _) => {
            *revision = strange.revision;
        }
        (Call::List { revision, .. } | Call::Mark { revision, .. }, _) => {
            *revision = strange.revision;
        }
        (Call::Join { joiner, .. }, 0 | 1) | (Call::Preview { joiner, .. }, 0) => {
            *joiner = strange.revision;
        }
        (Call::Join { joinee, .. }, _) | (Call::Preview { joinee, .. }, 1) => {
            *joinee = strange.revision;
        }
        (Call::Preview { bib, .. }, _) => *bib = strange.bib,
        _ => unreachable!("a call of boxes"),
    }
    call
}
