//! The lookups over plain rows of numbers, as C has them. [`Code`](crate::Code) has them over its own tables.

use crate::{Refusal, sys};

/// A row that was found: which one it is, and its six numbers as they stand.
#[derive(Debug, Clone, Copy, PartialEq, Eq)]
pub struct Row {
    /// Its number, from 0.
    pub number: usize,
    /// Its numbers.
    pub cells: [u32; 6],
}

/// What was written to seven cells, where the answer is that there is a row.
fn row(answer: sys::Answer, cells: [u64; 7]) -> Option<Row> {
    // With room for seven cells no lookup over rows of numbers refuses.
    if answer.value() != Ok(1) {
        return None;
    }
    let [number, row @ ..] = cells;
    Some(Row {
        number: number as usize,
        cells: row.map(|cell| cell as u32),
    })
}

/// The row of a location table that holds for an offset: the one before the first row whose offset is greater, or the
/// last row where none is. A part of a row at the end is not looked at.
#[must_use]
pub fn location_for_offset(rows: &[u32], offset: usize) -> Option<Row> {
    let mut cells = [0; 7];
    let answer = sys::location_for_offset(rows, offset, &mut cells);
    row(answer, cells)
}

/// The first row of an exception table, in their order, with start <= offset < end.
#[must_use]
pub fn find_exception_handler(rows: &[u32], offset: u32) -> Option<Row> {
    let mut cells = [0; 7];
    let answer = sys::find_exception_handler(rows, offset, &mut cells);
    row(answer, cells)
}

/// The same over two records: start, end, handler, depth, count, kind, twice.
///
/// # Errors
/// 19 where a depth or a count is over 65,535, or a kind over 1.
pub fn find_in_two(offset: u32, records: &[u32; 12]) -> Result<Option<Row>, Refusal> {
    let mut cells = [0; 7];
    let answer = sys::find_in_two(offset, records, &mut cells);
    answer.value()?;
    Ok(row(answer, cells))
}

/// The constant of an index.
#[must_use]
pub fn constant(constants: &[u64], index: usize) -> Option<u64> {
    let mut cell = [0];
    let answer = sys::constant(constants, index, &mut cell).value();
    (answer == Ok(1)).then_some(cell[0])
}

/// The number of a local slot's name. A cell of `names` holds a name's number and 1, or 0 for none.
#[must_use]
pub fn local_name(names: &[u64], slot: usize) -> Option<u32> {
    let mut cell = [0];
    let answer = sys::local_name(names, slot, &mut cell).value();
    (answer == Ok(1)).then_some(cell[0] as u32)
}
