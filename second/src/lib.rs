//! Independent second program for GTPv2-C messages: judge and masked copy in one
//! call, the cleaner, the builder, the judge's form that is fed in parts, and the
//! number of rows that a message needs.
//!
//! It is written from the document alone and serves as a comparison, for
//! correctness and for speed. `rules` is the shape of the rules and `document`
//! their figures; the other modules follow the document's sections, as methods
//! of `Rules`. The functions here go by the document's own figures.

mod build;
mod checks;
mod clean;
mod count;
mod cover;
mod document;
mod framing;
pub mod generate;
mod judge_copy;
pub mod lines;
pub mod listings;
mod lookup;
mod octets;
mod pieces;
mod program;
pub mod rules;
mod table;
mod verdict;
pub mod walk;

pub use build::Head;
pub use document::DOCUMENT;
pub use octets::State;
pub use pieces::Pieces;
pub use rules::Rules;
pub use verdict::{Answer, Count, Verdict};

/// Judges one whole message and writes the masked copy of it.
pub fn judge_copy(kind: u32, message: &[u8], table: &mut [u16], copy: &mut [u8]) -> Verdict {
    DOCUMENT.judge_copy(kind, message, table, copy)
}

/// How many rows the judge's walk lists of a message.
pub fn rows(kind: u32, message: &[u8]) -> Count {
    DOCUMENT.count_rows(kind, message)
}

/// Writes the cleaned copy of a message.
pub fn clean(kind: u32, message: &[u8], clean: &mut [u8]) -> Answer {
    DOCUMENT.clean(kind, message, clean)
}

/// Writes the message of a table and a buffer of values.
pub fn build(head: Head, table: &[u16], values: &[u8], room: &mut [u8]) -> Answer {
    DOCUMENT.build(head, table, values, room)
}

/// Begins a message that comes in parts; `Pieces` takes them, and the end.
pub fn start(kind: u32, table: &mut [u16]) -> Pieces<'static> {
    DOCUMENT.start(kind, table)
}

/// Judge and copy in one call for the C receiver.
pub fn judge_copy_octets(
    kind: u32,
    message: &[u8],
    table: &mut [u8],
    copy: &mut [u8],
    five: &mut [u8],
) -> u16 {
    DOCUMENT.judge_copy_octets(kind, message, table, copy, five)
}

/// The number of rows for the C receiver.
pub fn rows_octets(kind: u32, message: &[u8], answer: &mut [u8]) -> u16 {
    DOCUMENT.count_rows_octets(kind, message, answer)
}

/// The cleaner for the C receiver.
pub fn clean_octets(kind: u32, message: &[u8], clean: &mut [u8], answer: &mut [u8]) -> u16 {
    DOCUMENT.clean_octets(kind, message, clean, answer)
}

/// The builder for the C receiver.
pub fn build_octets(
    head: Head,
    table: &[u8],
    values: &[u8],
    room: &mut [u8],
    answer: &mut [u8],
) -> u16 {
    DOCUMENT.build_octets(head, table, values, room, answer)
}

/// The start of the pieces form for the C receiver.
pub fn start_octets(
    kind: u32,
    state: &mut State<'static>,
    state_len: usize,
    table: &mut [u8],
) -> u16 {
    DOCUMENT.start_octets(kind, state, state_len, table)
}

/// A part for the C receiver.
pub fn part_octets(
    state: &mut State,
    state_len: usize,
    part: &[u8],
    table: &mut [u8],
    five: &mut [u8],
) -> u16 {
    DOCUMENT.part_octets(state, state_len, part, table, five)
}

/// The end for the C receiver.
pub fn end_octets(state: &mut State, state_len: usize, table: &mut [u8], five: &mut [u8]) -> u16 {
    DOCUMENT.end_octets(state, state_len, table, five)
}

/// The plain lookup; the empty part where there is none.
pub fn plain<'a>(kind: u32, typ: u16, inst: u16, message: &'a [u8], table: &[u16]) -> &'a [u8] {
    let part = DOCUMENT.plain_part(kind, typ, inst, message, table);
    part.unwrap_or_default()
}

/// Does the plain lookup answer a row's part, be it empty?
pub fn plain_found(kind: u32, typ: u16, inst: u16, message: &[u8], table: &[u16]) -> bool {
    let part = DOCUMENT.plain_part(kind, typ, inst, message, table);
    part.is_some()
}

/// The desk's lookup; the empty part where there is none.
pub fn desk<'a>(
    kind: u32,
    row: usize,
    right: bool,
    message: &'a [u8],
    copy: &'a [u8],
    table: &[u16],
) -> &'a [u8] {
    let part = DOCUMENT.desk_part(kind, row, right, message, copy, table);
    part.unwrap_or_default()
}

/// Does the desk's lookup answer a row's part, be it empty?
pub fn desk_found(
    kind: u32,
    row: usize,
    right: bool,
    message: &[u8],
    copy: &[u8],
    table: &[u16],
) -> bool {
    let part = DOCUMENT.desk_part(kind, row, right, message, copy, table);
    part.is_some()
}
