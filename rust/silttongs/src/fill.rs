//! How full a box is.

/// How many updates are a box's own, and how many the whole table took: what
/// [`Table::fill`](crate::Table::fill) answers.
#[derive(Clone, Copy, Debug, PartialEq, Eq, Hash)]
pub struct Fill {
    /// The updates taken on the box and on boxes joined into it, directly or through others. What it
    /// inherited at its start is not among them.
    pub own: u16,
    /// The updates taken by the whole table, on boxes handed in too.
    pub total: u16,
}

impl Fill {
    /// From the value of a packed answer: the total in the upper 16 bits, the own updates in the
    /// lower.
    pub(crate) fn from_value(value: u32) -> Self {
        Fill { own: value as u16, total: (value >> 16) as u16 }
    }
}

#[cfg(test)]
mod tests {
    use super::Fill;

    #[test]
    fn the_two_numbers_of_a_value() {
        assert_eq!(Fill::from_value(0), Fill { own: 0, total: 0 });
        assert_eq!(Fill::from_value(4_096 << 16 | 1), Fill { own: 1, total: 4_096 });
        assert_eq!(Fill::from_value(u32::MAX - 1), Fill { own: 65_534, total: 65_535 });
    }
}
