//! Builds at the limits: of a message's octets, of what a table's header can say,
//! of depth; and of every message type.

use super::small::small;
use super::Build;
use crate::generate::random::Random;
use crate::generate::tables::{table_of, Row, TYPE};
use crate::{Head, DOCUMENT};

/// The most rows whose numbers a header can count in 16 bits.
const MOST_COUNTED: usize = 10_921;

/// Every message type there could be, and those past an octet that look like a
/// listed one once they are cut.
pub fn types(random: &mut Random) -> Vec<Build> {
    let types = 0..=256 + 131;
    let build = |typ| {
        let mut build = small(random);
        build.table[TYPE] = typ;
        build.put_rows(&[[0, 3, 0, 0, 1, 0]]);
        build
    };
    types.map(build).collect()
}

pub fn limits(random: &mut Random) -> Vec<Build> {
    let values = random.octets(16);
    let kind = random.kind() as u16;
    let head = Head {
        teid: random.number() as u32,
        sequence: random.number() as u32 >> 8,
    };
    let build = |rows: Vec<Row>| Build {
        head,
        table: table_of(1, kind, &rows),
        values: values.clone(),
    };
    let most = DOCUMENT.sizes.most_rows;
    let restart: Row = [0, 3, 0, 0, 1, 0];
    let private: Row = [0, 255, 3, 1, 2, 0];
    let empty: Row = [0, 3, 0, 16, 0, 0];
    let many = |count| [vec![restart], vec![private; count]].concat();
    vec![
        build(Vec::new()),
        // 8 + 5 octets, and 680 times 6: 4,093. One more does not fit.
        build(many(680)),
        build(many(681)),
        // 4,096 octets of elements without a value, and one too many.
        build(vec![empty; most]),
        build(vec![empty; most + 1]),
        build(vec![empty; MOST_COUNTED]),
        // Of these the header says 65,538 cut to 16 bits.
        build(vec![empty; MOST_COUNTED + 1]),
        build(nested(most)),
        build(nested(most + 1)),
    ]
}

/// Groups, each in the one before.
fn nested(depth: usize) -> Vec<Row> {
    let group = |parent: usize| [parent as u16, 93, 0, 0, 0, 0];
    (0..depth).map(group).collect()
}
