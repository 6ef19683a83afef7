//! Builds of a Delete Bearer Failure Indication whose overload reports hold about
//! as many APNs as they may.

use super::Build;
use crate::generate::random::Random;
use crate::generate::tables::{table_of, Row};
use crate::{Head, DOCUMENT};

const MESSAGE: u8 = 67;
const COUNTS: std::ops::RangeInclusive<usize> = 9..=13;
const VALUES: usize = 16;

/// On each kind each count of APNs: by itself, with a short one, without what is
/// mandatory, with an APN of another instance, and with a second report.
pub fn overloads(random: &mut Random) -> Vec<Build> {
    let mut builds = Vec::new();
    let message = DOCUMENT.message_of(MESSAGE).expect("67 is listed");
    for kind in message.kinds.each() {
        for count in COUNTS {
            for shape in 0..5 {
                let rows = rows(random, count, shape);
                builds.push(Build {
                    head: Head {
                        teid: random.number() as u32,
                        sequence: random.number() as u32 >> 8,
                    },
                    table: table_of(MESSAGE.into(), kind as u16, &rows),
                    values: random.octets(VALUES),
                });
            }
        }
    }
    builds
}

fn rows(random: &mut Random, count: usize, shape: usize) -> Vec<Row> {
    // 2/0, and 93/0 with 73/0 and 2/0.
    let mut rows = vec![
        [0, 2, 0, 0, 2, 0],
        [0, 93, 0, 0, 0, 0],
        [2, 73, 0, 3, 1, 0],
        [2, 2, 0, 1, 2, 0],
    ];
    let mut inside = vec![[71, 0, 1]; count];
    if shape != 2 {
        inside.extend([[183, 0, 4], [182, 0, 1], [156, 0, 1]]);
    }
    match shape {
        1 => inside[0][2] = 0,
        3 => inside[0][1] = 1,
        _ => {}
    }
    random.shuffle(&mut inside);
    add_report(&mut rows, &inside);
    if shape == 4 {
        add_report(&mut rows, &[[183, 0, 4], [182, 0, 1], [156, 0, 1]]);
    }
    rows
}

/// 180/0 with rows of these types, instances and lengths.
fn add_report(rows: &mut Vec<Row>, inside: &[[u16; 3]]) {
    rows.push([0, 180, 0, 0, 0, 0]);
    let number = rows.len() as u16;
    let row = |&[typ, inst, length]: &[u16; 3]| [number, typ, inst, 5, length, 0];
    rows.extend(inside.iter().map(row));
}
