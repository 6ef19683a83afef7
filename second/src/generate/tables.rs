//! Tables put together from rows, and where their header has what.

use crate::table::COLUMNS;
use crate::DOCUMENT;

/// The numbers of one row.
pub type Row = [u16; COLUMNS];

pub const ROWS: usize = 0;
pub const KEPT: usize = 1;
pub const FIRST: usize = 2;
pub const USED: usize = 3;
pub const TYPE: usize = 4;
pub const KIND: usize = 5;

/// How many of the header's numbers tell of the rows.
pub const COUNTS: usize = 4;

/// The table of these rows, with a header that agrees with them where one can:
/// what does not fit 16 bits is cut.
pub fn table_of(typ: u16, kind: u16, rows: &[Row]) -> Vec<u16> {
    let first = DOCUMENT.sizes.first_row;
    let used = DOCUMENT.used(rows.len());
    let counts = [rows.len(), kept(rows), first, used];
    let mut table = counts.map(|count| count as u16).to_vec();
    table.extend([typ, kind]);
    table.extend(rows.as_flattened());
    table
}

pub fn kept(rows: &[Row]) -> usize {
    rows.iter().filter(|row| row[5] == 0).count()
}

/// All rows of a table that has a header.
pub fn rows(table: &[u16]) -> &[Row] {
    table[DOCUMENT.sizes.first_row..].as_chunks().0
}

/// Makes of a table what it was before its header told type and kind: four
/// numbers, then the rows.
pub fn make_old(table: &mut Vec<u16>) {
    make_numbers_old(table);
    table.drain(TYPE..=KIND);
}

/// The place of the first row and the numbers used as they were with a header of
/// four numbers.
pub fn make_numbers_old(table: &mut [u16]) {
    table[FIRST] = 4;
    table[USED] -= 2;
}
