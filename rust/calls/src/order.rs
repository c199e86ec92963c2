//! An order of updates as a file: 02, U13.

/// The file that has these numbers right behind its header: "a header of a count and an offset, 4 bytes
/// each, then update numbers of 2 bytes, all least significant byte first".
pub fn order_file(numbers: &[u16]) -> Vec<u8> {
    let header = [numbers.len() as u32, 8].map(u32::to_le_bytes);
    header.into_iter().flatten().chain(numbers.iter().flat_map(|n| n.to_le_bytes())).collect()
}

#[cfg(test)]
mod tests {
    use super::*;

    #[test]
    fn header_and_numbers_stand_where_02_puts_them() {
        assert_eq!(order_file(&[]), [0, 0, 0, 0, 8, 0, 0, 0]);
        assert_eq!(order_file(&[1, 0x0203]), [2, 0, 0, 0, 8, 0, 0, 0, 1, 0, 3, 2]);
    }
}
