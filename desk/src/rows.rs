//! How many rows a message has, from the proved library, and how large a table they need.

use crate::library::Five;
use std::os::raw::c_uint;

extern "C" {
    fn wok_rows(kind: c_uint, message: *const u8, len: usize, answer: *mut u8, answer_len: usize) -> u16;
}

/// The rows of a message; or the five numbers of the refusal, which 11 and 12 are not.
pub fn count(kind: u32, message: &[u8]) -> Result<u16, Five> {
    let mut answer = [0u8; 12];
    // SAFETY: each pointer is valid for the length beside it, and the answer overlaps nothing.
    let code = unsafe { wok_rows(kind, message.as_ptr(), message.len(), answer.as_mut_ptr(), 12) };
    let number = |i: usize| u16::from_be_bytes([answer[2 * i], answer[2 * i + 1]]);
    if code != 0 {
        return Err(std::array::from_fn(number));
    }
    Ok(number(5))
}

/// A table has six numbers, and six more a row; a number has two octets.
pub fn sentence(rows: u16) -> String {
    let numbers = 6 + 6 * usize::from(rows);
    let s = if rows == 1 { "" } else { "s" };
    format!("{rows} row{s}: a table of {numbers} numbers, {} octets", 2 * numbers)
}
