//! Text lines of the command line.
//!
//! A case is `KIND HEX`. A lookup is one of
//!
//! ```text
//! plain KIND TYPE INSTANCE MESSAGE TABLE
//! desk KIND ROW RIGHT MESSAGE COPY TABLE
//! ```
//!
//! and what a builder is given is
//!
//! ```text
//! build TEID SEQUENCE TABLE VALUES
//! ```
//!
//! with blanks between the fields. RIGHT is `1` for yes and `0` for no, MESSAGE,
//! COPY and VALUES are hex octets, TABLE is decimal numbers with commas between
//! them; `-` stands for an empty one of these four. The others are decimal.
//! The answer to a lookup is `1 HEX` for a row's part, which may be empty, and
//! `0 ` where there is none. Hex is written with capitals and without blanks.

use std::fmt::Write;
use std::str::FromStr;

use crate::generate::{Ask, Build, Case, Lookup};
use crate::rules::Rules;
use crate::Head;

const EMPTY: &str = "-";

/// Octets as hex digits.
pub fn hex(octets: &[u8]) -> String {
    let mut text = String::with_capacity(2 * octets.len());
    for octet in octets {
        write!(text, "{octet:02X}").expect("a string takes all text");
    }
    text
}

/// Octets from pairs of hex digits, blanks and line ends left out.
pub fn octets(text: &str) -> Result<Vec<u8>, String> {
    let digits = text
        .chars()
        .filter(|digit| !digit.is_ascii_whitespace())
        .map(|digit| digit.to_digit(16).ok_or(format!("no hex digit: {digit}")))
        .collect::<Result<Vec<_>, _>>()?;
    let (pairs, odd) = digits.as_chunks::<2>();
    if !odd.is_empty() {
        return Err("an odd number of hex digits".into());
    }
    Ok(pairs
        .iter()
        .map(|[high, low]| (high << 4 | low) as u8)
        .collect())
}

pub fn case_line(case: &Case) -> String {
    format!("{} {}", case.kind, hex_field(&case.message))
}

pub fn build_line(build: &Build) -> String {
    let Head { teid, sequence } = build.head;
    let (table, values) = (table_field(&build.table), hex_field(&build.values));
    format!("build {teid} {sequence} {table} {values}")
}

pub fn lookup_line(lookup: &Lookup) -> String {
    let kind = lookup.kind;
    let message = hex_field(&lookup.message);
    let table = table_field(&lookup.table);
    match lookup.ask {
        Ask::Plain { typ, inst } => format!("plain {kind} {typ} {inst} {message} {table}"),
        Ask::Desk { row, right } => {
            let (right, copy) = (u8::from(right), hex_field(&lookup.copy));
            format!("desk {kind} {row} {right} {message} {copy} {table}")
        }
    }
}

pub fn answer_line(rules: &Rules, lookup: &Lookup) -> String {
    match lookup.answer(rules) {
        Some(part) => format!("1 {}", hex(part)),
        None => "0 ".into(),
    }
}

/// The lookup of one line.
pub fn lookup(line: &str) -> Result<Lookup, String> {
    let fields = line.split_ascii_whitespace().collect::<Vec<_>>();
    match fields[..] {
        ["plain", kind, typ, inst, message, table] => Ok(Lookup {
            kind: number(kind)?,
            ask: Ask::Plain {
                typ: number(typ)?,
                inst: number(inst)?,
            },
            message: octets_field(message)?,
            copy: Vec::new(),
            table: numbers_field(table)?,
        }),
        ["desk", kind, row, right, message, copy, table] => Ok(Lookup {
            kind: number(kind)?,
            ask: Ask::Desk {
                row: number(row)?,
                right: yes_no(right)?,
            },
            message: octets_field(message)?,
            copy: octets_field(copy)?,
            table: numbers_field(table)?,
        }),
        _ => Err(format!("no lookup: {line}")),
    }
}

fn hex_field(octets: &[u8]) -> String {
    if octets.is_empty() {
        EMPTY.into()
    } else {
        hex(octets)
    }
}

fn table_field(table: &[u16]) -> String {
    if table.is_empty() {
        return EMPTY.into();
    }
    let numbers = table.iter().map(u16::to_string).collect::<Vec<_>>();
    numbers.join(",")
}

fn octets_field(field: &str) -> Result<Vec<u8>, String> {
    if field == EMPTY {
        Ok(Vec::new())
    } else {
        octets(field)
    }
}

fn numbers_field(field: &str) -> Result<Vec<u16>, String> {
    if field == EMPTY {
        Ok(Vec::new())
    } else {
        field.split(',').map(number).collect()
    }
}

fn number<T: FromStr>(field: &str) -> Result<T, String> {
    field
        .parse()
        .map_err(|_| format!("no such number: {field}"))
}

fn yes_no(field: &str) -> Result<bool, String> {
    match field {
        "1" => Ok(true),
        "0" => Ok(false),
        _ => Err(format!("neither 1 nor 0: {field}")),
    }
}
