//! The choice given to fresh.

/// Which boxes may be forked, and which may take over others. The choice is given to
/// [`Table::fresh`](crate::Table::fresh) and lasts until the next.
#[derive(Clone, Copy, Debug, Default, PartialEq, Eq, Hash)]
pub enum Day {
    /// Any box.
    #[default]
    Ordinary,
    /// Box 0 alone: boxes come from it and go back to it. For another box a fork, a join and its
    /// preview are refused with [`Refusal::OffTheLine`](crate::Refusal::OffTheLine), and so is every mark.
    SingleMain,
}

impl Day {
    /// As the call takes it.
    pub(crate) fn choice(self) -> u8 {
        u8::from(self == Day::SingleMain)
    }
}
