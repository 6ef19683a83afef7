//! How many rows the walk of a message lists, asked before it is judged.
//!
//! It makes no rows. It counts the elements of a level, and those of each kept group
//! in it by asking the same of its value; so it needs no table, and what a void group
//! holds is never counted.

use std::ops::Range;

use crate::checks::{fault, Header};
use crate::framing::{self, Broken};
use crate::rules::{Check, Listed, Rules};
use crate::verdict::{Count, Verdict};
use crate::walk::Level;

impl Rules {
    /// The rows of a message that its header and its framing do not refuse; what is
    /// short or missing is not told.
    pub fn count_rows(&self, kind: u32, message: &[u8]) -> Count {
        let order = &self.checks.count;
        let header = Header::new(self, kind, message);
        if let Some(check) = order.first_before_the_walk(header.faults()) {
            return Count::refused(self.refusal(check));
        }
        let body = header.body..message.len();
        let counted = self.counted(kind, header.listing(), message, body);
        let faults = header.faults() | fault(Check::Framing, counted.is_err());
        match (order.first(faults), counted) {
            (Some(Check::Framing), Err(Broken(place))) => {
                Count::refused(self.refusal(Check::Framing).at(place as u16))
            }
            (Some(check), _) => Count::refused(self.refusal(check)),
            // A message of the longest length has 1,022 elements at most.
            (None, counted) => Count {
                verdict: Verdict::ACCEPTED,
                rows: counted.unwrap_or_default() as u16,
            },
        }
    }

    /// The elements of a level that lies there, and those inside what is entered.
    fn counted(
        &self,
        kind: u32,
        listing: &[Listed],
        message: &[u8],
        lies: Range<usize>,
    ) -> Result<usize, Broken> {
        let Range { start: mut at, end } = lies;
        let mut level = Level::new(0, listing);
        let mut rows = 0;
        while let Some(element) = framing::element(self, message, at, end)? {
            let value = element.place..element.end();
            let stand = level.stand(self, kind, &element, &message[value.clone()]);
            rows += 1;
            if let Some(inside) = stand.inside(self) {
                rows += self.counted(kind, inside, message, value)?;
            }
            at = element.end();
        }
        Ok(rows)
    }
}
