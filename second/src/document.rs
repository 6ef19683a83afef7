//! The figures of the rules (docs/RULES.md). A change request changes these files first, and
//! the rest of the program only where it brings a new shape of rule.

mod listings;
mod types;

use std::cmp::Ordering;
use std::sync::LazyLock;

use crate::rules::{Bits, Builds, Check, Checks, Lookups, Order, Rules, Sizes, Table, Told, CODES};

pub static DOCUMENT: LazyLock<Rules> = LazyLock::new(|| Rules {
    kinds: 1..=4,
    messages: listings::messages(),
    types: types::types(),
    bits: Bits {
        version: 2,
        piggyback: 0x10,
        teid: 0x08,
        instance: 0x0F,
    },
    sizes: sizes(),
    table: table(),
    checks: checks(),
    cleaned: [true, false, false, false, false],
    builds: Builds {
        sequence: 16_777_215,
        typ: 255,
        inst: 15,
        standing: 0,
    },
    lookups: Lookups {
        parent: 0,
        standing: 0,
        lengths: vec![Ordering::Equal],
    },
});

fn sizes() -> Sizes {
    Sizes {
        longest: 4096,
        header: [8, 12],
        body: [8, 12],
        uncounted: 4,
        type_octet: 1,
        remnant: 1..=3,
        table_header: 6,
        first_row: 6,
        row: 6,
        five: 10,
        answer: 12,
        count: 12,
        state: 306,
        most_rows: 1022,
        program_copy: 4096,
    }
}

fn table() -> Table {
    Table {
        header: vec![
            Told::Rows,
            Told::Kept,
            Told::First(6),
            Told::Used { beside: 6, row: 6 },
            Told::Type,
            Told::Kind,
        ],
        kept: 0,
    }
}

/// Cause 67 of TS 29.274: invalid length.
const INVALID_LENGTH: u16 = 67;
/// Cause 70 of TS 29.274: mandatory element missing.
const MANDATORY_MISSING: u16 = 70;

fn checks() -> Checks {
    use Check::*;
    let framing = [
        Kind, Size, Version, Header, Piggyback, Length, Type, OffKind, Teid, Framing,
    ];
    let mut causes = [0; CODES];
    for check in [Length, Framing, Short] {
        causes[check as usize] = INVALID_LENGTH;
    }
    causes[Missing as usize] = MANDATORY_MISSING;
    Checks {
        judge: Order::new(&[&framing[..], &[CopyRoom, TableRoom, Short, Missing]].concat()),
        clean: Order::new(&[&framing[..], &[Short, Missing, CopyRoom]].concat()),
        count: Order::new(&framing),
        build: Order::new(&[TableHeader, Kind, Type, OffKind, Table, Room, Built]),
        with_copy: vec![Short, Missing],
        with_table: Vec::new(),
        causes,
    }
}
