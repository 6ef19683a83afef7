//! Judge and copy in one call: what it answers, and what it leaves in both lent
//! buffers.

use crate::checks::{fault, Checked};
use crate::rules::{Check, Rules};
use crate::verdict::Verdict;
use crate::walk::{Row, Walk};

impl Rules {
    /// Judges one whole message and makes the masked copy of it, both from one
    /// walk. Acceptance writes table and copy; of a refusal the rules say which is
    /// written. Numbers past those used stay, and octets past the message's length.
    pub fn judge_copy(
        &self,
        kind: u32,
        message: &[u8],
        table: &mut [u16],
        copy: &mut [u8],
    ) -> Verdict {
        let judged = self.judged(kind, message, table.len(), copy.len());
        if self.checks.copied(judged.check) {
            self.write_copy(message, &judged.rows, copy);
        }
        if self.checks.tabled(judged.check) {
            self.write_table(kind, message, &judged.rows, table);
        }
        judged.verdict
    }

    /// What the checks say with a table of so many numbers and a copy of so many
    /// octets.
    pub(crate) fn judged(
        &self,
        kind: u32,
        message: &[u8],
        numbers: usize,
        octets: usize,
    ) -> Checked {
        let lent = |walk: &Walk| {
            fault(Check::CopyRoom, octets < message.len())
                | fault(Check::TableRoom, numbers < self.used(walk.rows.len()))
        };
        self.checked(&self.checks.judge, kind, message, lent)
    }

    /// The same with buffers that are large enough for any message.
    pub(crate) fn judged_with_room(&self, kind: u32, message: &[u8]) -> Checked {
        self.judged(kind, message, usize::MAX, usize::MAX)
    }

    /// The rows of a message that its header and its framing do not refuse.
    pub fn rows(&self, kind: u32, message: &[u8]) -> Result<Vec<Row>, Verdict> {
        let judged = self.judged_with_room(kind, message);
        match judged.check {
            None | Some(Check::Short | Check::Missing) => Ok(judged.rows),
            Some(_) => Err(judged.verdict),
        }
    }
}
