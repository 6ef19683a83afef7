//! Facts by element type: least value length, group and cover.

use std::array;

use crate::rules::{ByFirst, Cover, Facts, Least, STANDINGS};

pub fn types() -> [Facts; 256] {
    array::from_fn(|typ| Facts {
        least: least(typ),
        group: matches!(typ, 93 | 109 | 180),
        cover: cover(typ),
    })
}

fn least(typ: usize) -> Least {
    match typ {
        79 => by_first(0, &[1, 5, 18, 22, 1, 1, 1, 1]),
        86 => by_first(0, &user_location()),
        // 5, and 4 more for the top bit, and 16 more for the next.
        87 => by_first(6, &[5, 5 + 16, 5 + 4, 5 + 4 + 16]),
        93 | 109 | 180 => Least::Fixed(0),
        2 | 95 | 114 | 255 => Least::Fixed(2),
        83 => Least::Fixed(3),
        74 | 94 | 170 | 183 => Least::Fixed(4),
        72 => Least::Fixed(8),
        81 => Least::Fixed(21),
        80 => Least::Fixed(22),
        _ => Least::Fixed(1),
    }
}

/// CGI, SAI, RAI, TAI, ECGI and LAI: a bit each, from the lowest up.
const LOCATIONS: [usize; 6] = [7, 7, 7, 5, 7, 5];

/// The flags and the locations that they announce, for each value of the six
/// bits; the two bits above them announce nothing here.
fn user_location() -> [usize; 64] {
    array::from_fn(|flags| {
        let locations = LOCATIONS.iter().enumerate();
        let announced = locations.filter(|(bit, _)| flags >> bit & 1 != 0);
        1 + announced.map(|(_, octets)| octets).sum::<usize>()
    })
}

fn by_first(shift: u8, least: &[usize]) -> Least {
    Least::ByFirst(Box::new(ByFirst {
        shift,
        least: least.to_vec(),
        empty: 1,
    }))
}

/// Kept and short values by their type; unexpected and repeated ones whole; of a
/// void group the values inside.
fn cover(typ: usize) -> [Cover; STANDINGS] {
    let by_type = match typ {
        1 | 74 | 75 | 76 | 78 | 103..=108 | 255 => Cover::Whole,
        79 | 86 => Cover::Rest,
        _ => Cover::Nothing,
    };
    [by_type, Cover::Whole, Cover::Whole, by_type, Cover::Values]
}
