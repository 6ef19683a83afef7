//! Reading a value: the desk's lookup and the plain lookup.

use crate::rules::{Rules, Told};
use crate::table::Entry;

impl Rules {
    /// The rows of a lent table that agrees with itself and is one of this kind
    /// and of this message's type. Kind and type are compared and not tested.
    fn rows_of(&self, kind: u32, message: &[u8], table: &[u16]) -> Option<Vec<Entry>> {
        let rows = self.entries(table)?;
        let typ = *message.get(self.sizes.type_octet)?;
        let is_of = self.told(table, Told::Kind).map(u32::from) == Some(kind)
            && self.told(table, Told::Type) == Some(typ.into());
        (is_of && self.agrees(table, &rows)).then_some(rows)
    }

    /// The value that the message has for a pair, by the table's first row that
    /// is kept, has no parent and is of that pair. No row after it is tried,
    /// also where its part is not in the message.
    pub fn plain_part<'a>(
        &self,
        kind: u32,
        typ: u16,
        inst: u16,
        message: &'a [u8],
        table: &[u16],
    ) -> Option<&'a [u8]> {
        let rows = self.rows_of(kind, message, table)?;
        let mut rows = rows.iter().filter(|row| self.is_plain(row));
        let row = rows.find(|row| row.typ == typ && row.inst == inst)?;
        row.value(message)
    }

    fn is_plain(&self, row: &Entry) -> bool {
        row.standing == self.lookups.standing && row.parent == self.lookups.parent
    }

    /// The value of a row, counted from 0: the message's for the right to see
    /// subscribers, else the copy's. What type it is, the message says, and
    /// never the copy.
    pub fn desk_part<'a>(
        &self,
        kind: u32,
        row: usize,
        right: bool,
        message: &'a [u8],
        copy: &'a [u8],
        table: &[u16],
    ) -> Option<&'a [u8]> {
        let lengths = message.len().cmp(&copy.len());
        if !self.lookups.lengths.contains(&lengths) {
            return None;
        }
        let rows = self.rows_of(kind, message, table)?;
        let row = rows.get(row)?;
        row.value(if right { message } else { copy })
    }
}
