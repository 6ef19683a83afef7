//! Lookups: over a message with its own table, and with a table that is of
//! something else, spoiled, or made by no judge.

use super::random::Random;
use super::tables::{self, table_of, Row, COUNTS, FIRST, KEPT, KIND, ROWS, TYPE, USED};
use super::{Case, Generator};
use crate::rules::{Rules, Standing};
use crate::DOCUMENT;

/// Which lookup is asked, and for what.
#[derive(Debug, Clone, Copy, PartialEq, Eq)]
pub enum Ask {
    Plain { typ: u16, inst: u16 },
    Desk { row: usize, right: bool },
}

/// One lookup with all that is lent to it. The plain one has no use for the copy.
#[derive(Debug, Clone, PartialEq, Eq)]
pub struct Lookup {
    pub kind: u32,
    pub ask: Ask,
    pub message: Vec<u8>,
    pub copy: Vec<u8>,
    pub table: Vec<u16>,
}

impl Lookup {
    pub fn answer(&self, rules: &Rules) -> Option<&[u8]> {
        let Self {
            kind,
            message,
            copy,
            table,
            ..
        } = self;
        match self.ask {
            Ask::Plain { typ, inst } => rules.plain_part(*kind, typ, inst, message, table),
            Ask::Desk { row, right } => rules.desk_part(*kind, row, right, message, copy, table),
        }
    }

    /// Changes the message's octet 1 and the copy's.
    fn put_types(&mut self, message: u8, copy: u8) {
        self.message[DOCUMENT.sizes.type_octet] = message;
        self.copy[DOCUMENT.sizes.type_octet] = copy;
    }

    fn typ(&self) -> u8 {
        self.message[DOCUMENT.sizes.type_octet]
    }
}

impl Generator {
    /// A lookup over some message, whole or with one thing wrong.
    pub fn lookup(&mut self) -> Lookup {
        let mut lookup = self.whole_lookup();
        let random = &mut self.random;
        random.weighted(&SHAPES)(random, &mut lookup);
        lookup
    }

    fn whole_lookup(&mut self) -> Lookup {
        let Case { kind, message } = match self.random.percent(5) {
            true => self.void(),
            false => self.good(),
        };
        let random = &mut self.random;
        let mut table = vec![0; DOCUMENT.used(DOCUMENT.sizes.most_rows)];
        let mut copy = vec![0; message.len()];
        DOCUMENT.judge_copy(kind, &message, &mut table, &mut copy);
        table.truncate(usize::from(table[USED]) + random.below(3));
        Lookup {
            kind,
            ask: ask(random, &table),
            message,
            copy,
            table,
        }
    }
}

type Shape = fn(&mut Random, &mut Lookup);

/// Each shape with its weight.
const SHAPES: [(usize, Shape); 21] = [
    (16, as_it_is),
    (4, number),
    (3, cut),
    (6, hostile),
    (1, copy_cut),
    (2, copy_one_shorter),
    (2, copy_longer),
    (3, other_kind_told),
    (3, other_kind_in_the_table),
    (2, one_kind_for_both),
    (3, other_type_in_the_table),
    (3, other_type_in_the_message),
    (2, one_type_for_both),
    (2, other_type_in_the_copy),
    (1, no_type),
    (4, count),
    (2, rows_alone),
    (2, fewer_rows),
    (2, standing),
    (1, old_table),
    (1, old_numbers),
];

fn as_it_is(_: &mut Random, _: &mut Lookup) {}

/// Any number of the table.
fn number(random: &mut Random, lookup: &mut Lookup) {
    let at = random.below(lookup.table.len());
    let number = &mut lookup.table[at];
    *number = match random.below(4) {
        0 => 0,
        1 => u16::MAX,
        2 => number.wrapping_add(1),
        _ => random.number() as u16,
    };
}

/// A table that ends before it should, mostly by one number or in its header.
fn cut(random: &mut Random, lookup: &mut Lookup) {
    let used = usize::from(lookup.table[USED]);
    let any = random.below(used);
    let tiny = random.between(0, DOCUMENT.sizes.table_header);
    let length = *random.pick(&[used - 1, used - 1, used - 2, tiny, any]);
    lookup.table.truncate(length);
}

fn hostile(random: &mut Random, lookup: &mut Lookup) {
    let hostile = hostile_tables(lookup.kind, &lookup.message);
    lookup.table = random.pick(&hostile).clone();
    lookup.ask = ask(random, &lookup.table);
}

fn copy_cut(random: &mut Random, lookup: &mut Lookup) {
    let length = random.below(lookup.copy.len());
    lookup.copy.truncate(length);
}

fn copy_one_shorter(_: &mut Random, lookup: &mut Lookup) {
    lookup.copy.pop();
}

fn copy_longer(random: &mut Random, lookup: &mut Lookup) {
    let length = lookup.copy.len() + random.between(1, 2);
    lookup.copy.resize(length, 0);
}

/// Another kind than this: one that there is, one beside those, one that is this
/// once it is cut to an octet.
fn other_kind(random: &mut Random, own: u16) -> u16 {
    let (first, last) = (*DOCUMENT.kinds.start(), *DOCUMENT.kinds.end());
    let mut kinds = (first - 1..=last + 1)
        .map(|kind| kind as u16)
        .collect::<Vec<_>>();
    kinds.extend([own + 256, u16::MAX]);
    kinds.retain(|&kind| kind != own);
    *random.pick(&kinds)
}

/// The table is of another kind than the one told, which may be this once it is
/// cut to 16 bits.
fn other_kind_told(random: &mut Random, lookup: &mut Lookup) {
    let other = other_kind(random, lookup.kind as u16);
    lookup.kind = match random.below(4) {
        0 => lookup.kind + 0x0001_0000,
        1 => lookup.kind | 0x8000_0000,
        _ => other.into(),
    };
}

fn other_kind_in_the_table(random: &mut Random, lookup: &mut Lookup) {
    lookup.table[KIND] = other_kind(random, lookup.table[KIND]);
}

/// Kinds are only compared, also those that are none.
fn one_kind_for_both(random: &mut Random, lookup: &mut Lookup) {
    other_kind_in_the_table(random, lookup);
    lookup.kind = lookup.table[KIND].into();
}

/// Another type than this, listed or not.
fn other_type(random: &mut Random, own: u8) -> u8 {
    let listed = random.pick(&DOCUMENT.messages).typ;
    let types = [listed, 0, random.octet(), own.wrapping_add(1)];
    let mut types = types.to_vec();
    types.retain(|&typ| typ != own);
    *random.pick(&types)
}

/// The table is of another type than the message, which may be the message's once
/// it is cut to an octet.
fn other_type_in_the_table(random: &mut Random, lookup: &mut Lookup) {
    let own = lookup.typ();
    lookup.table[TYPE] = match random.below(4) {
        0 => u16::from(own) + 256,
        _ => other_type(random, own).into(),
    };
}

/// The message has another type, and the copy that of the table or that of the
/// message.
fn other_type_in_the_message(random: &mut Random, lookup: &mut Lookup) {
    let own = lookup.typ();
    let other = other_type(random, own);
    let copy = *random.pick(&[own, other]);
    lookup.put_types(other, copy);
}

/// Types are only compared, also those that are not listed.
fn one_type_for_both(random: &mut Random, lookup: &mut Lookup) {
    let own = lookup.typ();
    let other = other_type(random, own);
    let copy = *random.pick(&[own, other]);
    lookup.put_types(other, copy);
    lookup.table[TYPE] = other.into();
}

/// What type the copy has does not matter.
fn other_type_in_the_copy(random: &mut Random, lookup: &mut Lookup) {
    let own = lookup.typ();
    let other = other_type(random, own);
    lookup.put_types(own, other);
}

/// A message that ends before its type, with a part for the row that is asked for.
fn no_type(random: &mut Random, lookup: &mut Lookup) {
    let length = random.between(0, DOCUMENT.sizes.type_octet);
    let own = lookup.typ();
    lookup.message.truncate(length);
    lookup.copy.truncate(length);
    let first = lookup.message.first().copied().unwrap_or_default();
    let typ = *random.pick(&[0, own, first]);
    let part = random.between(0, length) as u16;
    lookup.table = table_of(typ.into(), lookup.kind as u16, &[[0, 73, 0, 0, part, 0]]);
    lookup.ask = match random.below(3) {
        0 => Ask::Plain { typ: 73, inst: 0 },
        right => Ask::Desk {
            row: 0,
            right: right == 1,
        },
    };
}

/// Puts a row after the last, kept or not, that the header does not count.
fn add_row(random: &mut Random, lookup: &mut Lookup) {
    lookup.table.truncate(usize::from(lookup.table[USED]));
    let standing = random.below(2) as u16;
    lookup.table.extend([0, 73, 0, 0, 0, standing]);
}

/// Counts the kept rows anew.
fn count_kept(lookup: &mut Lookup) {
    let rows = usize::from(lookup.table[ROWS]);
    let kept = tables::kept(&tables::rows(&lookup.table)[..rows]);
    lookup.table[KEPT] = kept as u16;
}

/// One of the header's counts is another: the rows, the kept ones, the first
/// row's place or the numbers used. There are numbers enough for a row more.
fn count(random: &mut Random, lookup: &mut Lookup) {
    add_row(random, lookup);
    let by = *random.pick(&[1, 1, u16::MAX, u16::MAX, 2, 6, 256]);
    let number = &mut lookup.table[random.below(COUNTS)];
    *number = number.wrapping_add(by);
}

/// One row more or less, all of them counted right but for the numbers used.
fn rows_alone(random: &mut Random, lookup: &mut Lookup) {
    add_row(random, lookup);
    match random.percent(50) {
        true => lookup.table[ROWS] += 1,
        false => lookup.table[ROWS] -= 1,
    }
    count_kept(lookup);
}

/// The last rows are not counted. That agrees where the kept rows are counted
/// anew, and where the rows left out are not kept.
fn fewer_rows(random: &mut Random, lookup: &mut Lookup) {
    let rows = random.below(usize::from(lookup.table[ROWS]));
    lookup.table[ROWS] = rows as u16;
    lookup.table[USED] = DOCUMENT.used(rows) as u16;
    if random.percent(50) {
        count_kept(lookup);
    }
}

/// The standing of some row is another; the kept rows are counted anew or not.
fn standing(random: &mut Random, lookup: &mut Lookup) {
    let row = random.below(lookup.table[ROWS].into());
    let standing = &mut lookup.table[DOCUMENT.place_of(row) + 5];
    *standing = *random.pick(&[0, 1, 2, 3, 4, 256]);
    if random.percent(50) {
        count_kept(lookup);
    }
}

/// A table with a header of four, and perhaps some numbers after it.
fn old_table(random: &mut Random, lookup: &mut Lookup) {
    tables::make_old(&mut lookup.table);
    let more = random.below(4);
    lookup.table.extend(vec![0; more]);
}

/// A header of six whose place of the first row or numbers used, or both, are
/// those of four.
fn old_numbers(random: &mut Random, lookup: &mut Lookup) {
    let (first, used) = (lookup.table[FIRST], lookup.table[USED]);
    tables::make_numbers_old(&mut lookup.table);
    match random.below(3) {
        0 => lookup.table[FIRST] = first,
        1 => lookup.table[USED] = used,
        _ => {}
    }
}

/// Asks mostly for something that the table has.
fn ask(random: &mut Random, table: &[u16]) -> Ask {
    let rows = table.get(DOCUMENT.sizes.first_row..).unwrap_or_default();
    let rows = rows.chunks_exact(DOCUMENT.sizes.row).collect::<Vec<_>>();
    let void = rows.iter().position(|row| row[5] == Standing::Void as u16);
    if random.percent(50) {
        let row = match (random.below(20), void) {
            (0, _) => usize::MAX,
            (1, _) => usize::from(u16::MAX),
            (2..=9, Some(void)) => void,
            _ => random.between(0, rows.len()),
        };
        let right = random.percent(50);
        return Ask::Desk { row, right };
    }
    if rows.is_empty() || random.percent(10) {
        let typ = random.below(300) as u16;
        let inst = random.below(20) as u16;
        return Ask::Plain { typ, inst };
    }
    let row = match void {
        Some(void) if random.percent(30) => rows[void],
        _ => random.pick(&rows),
    };
    Ask::Plain {
        typ: row[1],
        inst: row[2],
    }
}

/// Tables that no judge writes for that message, and tables at the edge of what
/// still answers a part. Where nothing else is said, header and rows agree.
pub fn hostile_tables(kind: u32, message: &[u8]) -> Vec<Vec<u16>> {
    let typ = message.get(DOCUMENT.sizes.type_octet).copied();
    let typ = u16::from(typ.unwrap_or_default());
    let end = message.len() as u16;
    let past = end.saturating_add(1);
    let of = |rows: &[Row]| table_of(typ, kind as u16, rows);
    let one = |place, length| of(&[[0, 73, 0, place, length, 0]]);
    let with = |mut table: Vec<u16>, at: usize, number| {
        table[at] = number;
        table
    };
    let none = of(&[]);
    let good = one(0, end.min(1));
    // Standings and parents that no row has.
    let strange = of(&[[0, 73, 0, 0, 0, 256], [256, 73, 0, 0, 0, 0]]);
    vec![
        vec![],
        none[..3].to_vec(),
        none[..5].to_vec(),
        none,
        good[..6].to_vec(),
        good[..11].to_vec(),
        with(good.clone(), ROWS, u16::MAX),
        with(good.clone(), KEPT, 0),
        with(good.clone(), KEPT, 257),
        with(good.clone(), FIRST, 4),
        with(good.clone(), FIRST, 262),
        with(good.clone(), USED, 10),
        with(good, USED, 268),
        one(end, 0),
        one(past, 0),
        one(0, end),
        one(0, past),
        one(end, 1),
        one(end.saturating_sub(1), 2),
        one(u16::MAX, u16::MAX),
        one(u16::MAX, 0),
        one(0, u16::MAX),
        // The first row of the pair decides, though the second has a part.
        of(&[[0, 73, 0, end, 1, 0], [0, 73, 0, 0, 0, 0]]),
        // Numbers past a byte: no row of pair 73/0.
        of(&[[0, 329, 256, 0, 0, 0]]),
        with(strange.clone(), KEPT, 2),
        strange,
        of(&[[256, 73, 0, 0, 0, 0], [0, 73, 0, 0, 0, 0]]),
    ]
}
