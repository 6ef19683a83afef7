//! Small tables by chance, most of them sound.

use super::Build;
use crate::generate::random::Random;
use crate::generate::tables::{table_of, Row};
use crate::{Head, DOCUMENT};

/// Types of rows: those that small messages demand, groups, and some others.
const TYPES: [u16; 16] = [
    3, 3, 2, 2, 73, 73, 93, 93, 109, 180, 255, 100, 85, 1, 152, 200,
];
const MOST_ROWS: usize = 6;
const VALUES: usize = 12;

pub fn small(random: &mut Random) -> Build {
    let message = random.pick(&DOCUMENT.messages);
    let kind = match random.percent(95) {
        true => random.kind_of(message),
        false => random.kind(),
    };
    let (typ, kind) = (message.typ.into(), kind as u16);
    let head = Head {
        teid: random.number() as u32,
        sequence: random.number() as u32 >> 8,
    };
    let values = random.octets(VALUES);
    let mut rows = Vec::new();
    for _ in 0..random.below(MOST_ROWS + 1) {
        let row = row(random, &rows);
        rows.push(row);
    }
    Build {
        head,
        table: table_of(typ, kind, &rows),
        values,
    }
}

fn row(random: &mut Random, before: &[Row]) -> Row {
    let length = *random.pick(&[0, 1, 1, 2, 2, 4]);
    let inst = if random.percent(85) { 0 } else { 1 };
    [
        parent(random, before),
        *random.pick(&TYPES),
        inst,
        random.below(VALUES + 1 - length) as u16,
        length as u16,
        0,
    ]
}

/// Mostly the message or the row just before, else any so far.
fn parent(random: &mut Random, before: &[Row]) -> u16 {
    let last = before.len() as u16;
    let of_last = before.last().map_or(0, |row| row[0]);
    let any = random.between(0, before.len()) as u16;
    *random.pick(&[0, 0, 0, last, last, of_last, of_last, any])
}
