//! One step of a day: the fields of its 12-byte record, and the call that it stands for.

use std::fmt;

use calls::Call;

/// The step bytes that stand for a call.
#[derive(Clone, Copy, Debug, PartialEq, Eq)]
#[repr(u8)]
pub enum StepByte {
    /// An update.
    Update = 1,
    /// A query.
    Query = 2,
    /// A yield.
    Yield = 3,
    /// A fork.
    Fork = 4,
    /// A join.
    Join = 5,
}

impl StepByte {
    /// The step of a byte; none gives code 13.
    pub fn of(byte: u8) -> Option<Self> {
        [StepByte::Update, StepByte::Query, StepByte::Yield, StepByte::Fork, StepByte::Join]
            .into_iter()
            .find(|&step| step as u8 == byte)
    }
}

/// A record, field by field in the order of the file.
#[derive(Clone, Copy, Debug, Default, PartialEq, Eq)]
pub struct Record {
    /// The step byte, 1 to 5 or a strange one.
    pub step: u8,
    /// The client (01: tablet).
    pub client: u8,
    /// The revision (01: box); of a join the joiner.
    pub revision: u8,
    /// The joinee.
    pub second: u8,
    /// The bib.
    pub bib: u16,
    /// The kind of update.
    pub kind: u8,
    /// Not looked at.
    pub spare: u8,
    /// The update's argument.
    pub v: u32,
}

impl Record {
    /// Bytes of a record.
    pub const SIZE: usize = 12;

    /// From the bytes of the file, least significant first.
    pub fn from_bytes(bytes: [u8; Record::SIZE]) -> Self {
        let [step, client, revision, second, bib_low, bib_high, kind, spare, v @ ..] = bytes;
        let bib = u16::from_le_bytes([bib_low, bib_high]);
        Record { step, client, revision, second, bib, kind, spare, v: u32::from_le_bytes(v) }
    }

    /// The bytes in the file.
    pub fn to_bytes(self) -> [u8; Record::SIZE] {
        let Record { step, client, revision, second, bib, kind, spare, v } = self;
        let [bib_low, bib_high] = bib.to_le_bytes();
        let [v0, v1, v2, v3] = v.to_le_bytes();
        [step, client, revision, second, bib_low, bib_high, kind, spare, v0, v1, v2, v3]
    }

    /// The call; none for a strange step. Fields that a step doesn't use aren't looked at.
    pub fn call(self) -> Option<Call> {
        let Record { client, revision, second, bib, kind, v, .. } = self;
        StepByte::of(self.step).map(|step| match step {
            StepByte::Update => Call::Update { client, revision, kind, bib, v },
            StepByte::Query => Call::Query { client, revision, bib },
            StepByte::Yield => Call::Yield { client },
            StepByte::Fork => Call::Fork { revision },
            StepByte::Join => Call::Join { joiner: revision, joinee: second },
        })
    }
}

impl fmt::Display for Record {
    fn fmt(&self, f: &mut fmt::Formatter<'_>) -> fmt::Result {
        match self.call() {
            Some(call) => call.fmt(f),
            None => write!(f, "step {}", self.step),
        }
    }
}

#[cfg(test)]
mod tests {
    use super::*;

    #[test]
    fn fields_stand_where_01_puts_them() {
        let bytes = [1, 2, 3, 4, 0xe7, 0x03, 5, 6, 0x0d, 0x0c, 0x0b, 0x0a];
        let record = Record {
            step: 1,
            client: 2,
            revision: 3,
            second: 4,
            bib: 999,
            kind: 5,
            spare: 6,
            v: 0x0a0b_0c0d,
        };
        assert_eq!(Record::from_bytes(bytes), record);
        assert_eq!(record.to_bytes(), bytes);
    }

    #[test]
    fn each_step_uses_its_own_fields() {
        let record = |step| Record::from_bytes([step, 2, 3, 4, 5, 0, 6, 7, 8, 0, 0, 0]);
        let calls = [
            (0, None),
            (1, Some(Call::Update { client: 2, revision: 3, kind: 6, bib: 5, v: 8 })),
            (2, Some(Call::Query { client: 2, revision: 3, bib: 5 })),
            (3, Some(Call::Yield { client: 2 })),
            (4, Some(Call::Fork { revision: 3 })),
            (5, Some(Call::Join { joiner: 3, joinee: 4 })),
        ];
        for (step, call) in calls.into_iter().chain((6..=255).map(|step| (step, None))) {
            assert_eq!(record(step).call(), call, "step {step}");
        }
    }
}
