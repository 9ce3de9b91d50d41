//! What lent cells hold at first, and the sum that tells whether they still do.

/// Makes `cells` so many, each with what a lent cell first holds. The room that they had is used again.
pub fn fill<T: From<u8>>(cells: &mut Vec<T>, count: usize) {
    cells.clear();
    let pattern = (0..count).map(|i| T::from(((i * 7 + 3) % 251) as u8));
    cells.extend(pattern);
}

/// The sum over all cells.
pub fn sum<T: Copy + Into<u64>>(cells: &[T]) -> u64 {
    let folded = |h: u64, cell: &T| (h * 257 + (*cell).into() % 65_521) % 1_000_000_007;
    cells.iter().fold(0, folded)
}

/// The cells of so many used rows; none where the table has fewer.
pub fn used<T>(cells: &[T], rows: u64, width: u64) -> Option<&[T]> {
    let count = usize::try_from(rows.checked_mul(width)?).ok()?;
    cells.get(..count)
}

#[cfg(test)]
mod tests {
    use super::*;

    #[test]
    fn cells_and_their_sum() {
        let mut cells: Vec<u64> = vec![9; 3];
        fill(&mut cells, 300);
        assert_eq!((cells[0], cells[1], cells[250], cells[251]), (3, 10, 247, 3));
        assert_eq!(sum::<u8>(&[]), 0);
        assert_eq!(sum(&[u64::MAX]), u64::MAX % 65_521);
        assert_eq!(sum(&[3_u8, 10]), 781);
    }

    #[test]
    fn used_rows_are_within_the_table() {
        assert_eq!(used(&[0; 13], 2, 6).map(<[i32]>::len), Some(12));
        assert_eq!(used(&[0; 13], 3, 6), None);
        assert_eq!(used(&[0; 13], u64::MAX, 6), None);
    }
}
