//! The covered octets, and the copy that has zero in each.

use std::ops::Range;

use crate::framing;
use crate::rules::{Cover, Rules};
use crate::walk::Row;

impl Rules {
    /// Writes the message with every covered octet zero; octets past its length
    /// stay, and all of a copy that is shorter.
    pub fn write_copy(&self, message: &[u8], rows: &[Row], copy: &mut [u8]) {
        let Some(copy) = copy.get_mut(..message.len()) else {
            return;
        };
        copy.copy_from_slice(message);
        for row in rows {
            self.each_covered(row, message, |part| copy[part].fill(0));
        }
    }

    /// Which octets of the message are covered, one answer an octet.
    pub fn covered(&self, kind: u32, message: &[u8]) -> Vec<bool> {
        let mut covered = vec![false; message.len()];
        if let Ok(rows) = self.rows(kind, message) {
            for row in &rows {
                self.each_covered(row, message, |part| covered[part].fill(true));
            }
        }
        covered
    }

    /// Does something with each covered part of one row's value.
    fn each_covered(&self, row: &Row, message: &[u8], mut with: impl FnMut(Range<usize>)) {
        let place = usize::from(row.place);
        let end = place + usize::from(row.length);
        match self.facts(row.typ).cover[row.standing as usize] {
            Cover::Nothing => {}
            Cover::Rest => with(end.min(place + 1)..end),
            Cover::Whole => with(place..end),
            Cover::Values => {
                // A void group is not broken, or it would not be void.
                let inside = framing::elements(self, &message[place..end]);
                for element in inside.unwrap_or_default() {
                    with(place + element.place..place + element.end());
                }
            }
        }
    }
}
