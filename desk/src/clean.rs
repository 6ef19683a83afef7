//! The cleaned copy, from the proved library.

use crate::library::Five;
use std::os::raw::c_uint;

extern "C" {
    fn wok_clean(kind: c_uint, message: *const u8, len: usize, clean: *mut u8, clean_len: usize, answer: *mut u8, answer_len: usize) -> u16;
}

/// The message without the rows set aside; or the five numbers of the refusal. It is never longer than the message.
pub fn cleaned(kind: u32, message: &[u8]) -> Result<Vec<u8>, Five> {
    let mut clean = vec![0; message.len()];
    let mut answer = [0u8; 12];
    // SAFETY: each pointer is valid for the length beside it, and the buffers overlap nothing.
    let code = unsafe { wok_clean(kind, message.as_ptr(), message.len(), clean.as_mut_ptr(), clean.len(), answer.as_mut_ptr(), 12) };
    let number = |i: usize| u16::from_be_bytes([answer[2 * i], answer[2 * i + 1]]);
    if code != 0 {
        return Err(std::array::from_fn(number));
    }
    clean.truncate(number(5).into());
    Ok(clean)
}

/// What is said of a file's messages in which no row is set aside; of those alone that have a copy.
#[derive(Default)]
pub struct Unchanged {
    copies: usize,
    same: usize,
}

impl Unchanged {
    pub fn count(&mut self, message: &[u8], copy: &[u8]) {
        self.copies += 1;
        self.same += usize::from(message == copy);
    }

    pub fn sentence(&self) -> Option<String> {
        match (self.same, self.copies) {
            (0, _) => None,
            (1, 1) => Some("no row is set aside: the copy is the message itself".into()),
            (same, of) => Some(format!("no row is set aside in {same} of {of} messages: their copies are the messages themselves")),
        }
    }
}
