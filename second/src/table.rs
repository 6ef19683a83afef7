//! The table: a header that says what it is a table of, then the rows.
//!
//! A lent table is taken as it comes: nothing in it is believed before it is
//! tested.

use crate::rules::{Rules, Told};
use crate::walk::Row;

/// What a row says, whatever the room that the rules give it.
pub const COLUMNS: usize = 6;

impl Rules {
    /// Writes the table of these rows of a message; numbers past those used stay.
    /// The caller has seen to it that the table is large enough.
    pub fn write_table(&self, kind: u32, message: &[u8], rows: &[Row], table: &mut [u16]) {
        let is_kept = |row: &&Row| row.standing as u16 == self.table.kept;
        let kept = rows.iter().filter(is_kept).count();
        let typ = message.get(self.sizes.type_octet).copied();
        let header = self.header(kind, typ.unwrap_or_default(), rows.len(), kept);
        for (number, place) in header.zip(&mut *table) {
            *place = number;
        }
        for (at, row) in rows.iter().enumerate() {
            let rest = table.get_mut(self.place_of(at)..);
            if let Some(place) = rest.and_then(<[_]>::first_chunk_mut) {
                *place = numbers(row);
            }
        }
    }

    /// The header of a table with so many rows and kept ones.
    pub(crate) fn header(
        &self,
        kind: u32,
        typ: u8,
        rows: usize,
        kept: usize,
    ) -> impl Iterator<Item = u16> + '_ {
        let number = move |told: &Told| match *told {
            Told::Type => usize::from(typ),
            Told::Kind => kind as usize,
            told => told.counted(rows, kept).unwrap_or_default(),
        };
        // At most 1,022 rows and four kinds, so all of them fit 16 bits.
        let numbers = self.table.header.iter().map(number);
        numbers.map(|number| number as u16)
    }

    /// What the header of a lent table tells, if it has the number.
    pub(crate) fn told(&self, table: &[u16], wanted: Told) -> Option<u16> {
        let at = self.table.header.iter().position(|&told| told == wanted)?;
        table.get(at).copied()
    }

    /// How many rows a lent table has, or none if it is shorter than it says.
    fn count(&self, table: &[u16]) -> Option<usize> {
        let rows = usize::from(self.told(table, Told::Rows)?);
        (table.len() >= self.used(rows)).then_some(rows)
    }

    /// All rows of a lent table, or nothing where it is shorter than it says.
    pub(crate) fn entries(&self, table: &[u16]) -> Option<Vec<Entry>> {
        let rows = 0..self.count(table)?;
        Some(rows.map_while(|row| self.entry(table, row)).collect())
    }

    fn entry(&self, table: &[u16], row: usize) -> Option<Entry> {
        let rest = table.get(self.place_of(row)..)?;
        rest.first_chunk().map(Entry::of)
    }

    /// Does the header of a lent table agree with itself and with its rows? What
    /// message and kind it tells is another matter.
    pub(crate) fn agrees(&self, table: &[u16], rows: &[Entry]) -> bool {
        let Some(count) = self.count(table) else {
            return false;
        };
        let is_kept = |row: &&Entry| row.standing == self.table.kept;
        let kept = rows.iter().filter(is_kept).count();
        // Nothing here is cut to 16 bits before it is compared.
        self.table.header.iter().zip(table).all(|(&told, &number)| {
            let counted = told.counted(count, kept);
            counted.is_none_or(|counted| usize::from(number) == counted)
        })
    }
}

impl Told {
    /// What the number has to be where there are so many rows and kept ones;
    /// nothing for what rows do not say.
    fn counted(self, rows: usize, kept: usize) -> Option<usize> {
        match self {
            Told::Rows => Some(rows),
            Told::Kept => Some(kept),
            Told::First(place) => Some(place),
            Told::Used { beside, row } => Some(beside + row * rows),
            Told::Type | Told::Kind => None,
        }
    }
}

fn numbers(row: &Row) -> [u16; COLUMNS] {
    [
        row.parent,
        row.typ.into(),
        row.inst.into(),
        row.place,
        row.length,
        row.standing as u16,
    ]
}

/// One row as it stands in a lent table.
#[derive(Clone, Copy)]
pub struct Entry {
    pub parent: u16,
    pub typ: u16,
    pub inst: u16,
    pub place: u16,
    pub length: u16,
    pub standing: u16,
}

impl Entry {
    fn of(&[parent, typ, inst, place, length, standing]: &[u16; COLUMNS]) -> Self {
        Self {
            parent,
            typ,
            inst,
            place,
            length,
            standing,
        }
    }

    /// The part of the buffer where its value stands, if it lies there.
    pub fn value<'a>(&self, buffer: &'a [u8]) -> Option<&'a [u8]> {
        let place = usize::from(self.place);
        buffer.get(place..place + usize::from(self.length))
    }
}
