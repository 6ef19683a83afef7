//! The message of a text, from the proved builder.

use crate::library::Library;
use crate::text::{self, fault, Element, Fault, Text};
use crate::why;
use std::os::raw::c_uint;

extern "C" {
    fn wok_build(
        teid: c_uint,
        sequence: c_uint,
        table: *const u8,
        table_len: usize,
        values: *const u8,
        values_len: usize,
        room: *mut u8,
        room_len: usize,
        answer: *mut u8,
        answer_len: usize,
    ) -> u16;
}

/// The longest message, in octets.
const LARGEST: usize = 4096;

/// Why there is no message: a line that cannot be read, or what the library refuses.
pub enum Refused {
    Line(Fault),
    Message(Vec<Fault>),
}

impl From<Fault> for Refused {
    fn from(fault: Fault) -> Refused {
        Refused::Line(fault)
    }
}

/// The message that a text says.
pub fn message(text: &str) -> Result<Vec<u8>, Refused> {
    let text = text::read(text)?;
    let mut library = Library::new(text.kind.1 .0);
    teid(&mut library, &text)?;
    for element in &text.elements {
        group(&library, element)?;
    }
    short_enough(&text).map_err(|f| Refused::Message(vec![f]))?;
    let mut room = vec![0; LARGEST];
    let (table, values) = table(&text);
    match build(&text, &table, &values, &mut room) {
        Ok(length) => {
            room.truncate(length);
            Ok(room)
        }
        Err(code) => Err(Refused::Message(refusal(&mut library, &text, code))),
    }
}

/// The message over the start of the room, and its length; or the code of the refusal.
fn build(text: &Text, table: &[u8], values: &[u8], room: &mut [u8]) -> Result<usize, u16> {
    let (teid, sequence) = (text.teid.map_or(0, |t| t.1), text.sequence.1);
    let mut answer = [0u8; 12];
    // SAFETY: each pointer is valid for the length beside it, and the buffers overlap nothing.
    let code = unsafe {
        wok_build(
            teid,
            sequence,
            table.as_ptr(),
            table.len(),
            values.as_ptr(),
            values.len(),
            room.as_mut_ptr(),
            room.len(),
            answer.as_mut_ptr(),
            answer.len(),
        )
    };
    if code == 0 {
        Ok(u16::from_be_bytes([answer[10], answer[11]]).into())
    } else {
        Err(code)
    }
}

/// The table of a text, two octets a number, and the buffer of its values. What is short enough fits in such numbers.
fn table(text: &Text) -> (Vec<u8>, Vec<u8>) {
    let (rows, mut values) = (text.elements.len(), vec![]);
    let mut numbers = vec![rows, rows, 6, 6 + 6 * rows, text.typ.1.into(), text.kind.1 .0 as usize];
    for e in &text.elements {
        let value = e.value.as_deref().unwrap_or(&[]);
        numbers.extend([e.parent, e.typ.into(), e.instance.into(), values.len(), value.len(), 0]);
        values.extend(value);
    }
    (numbers.iter().flat_map(|n| (*n as u16).to_be_bytes()).collect(), values)
}

/// Whether a type is a group's; found by asking the builder for a row inside one of that type, with no room: it refuses the table unless that is a
/// group.
pub fn is_group(typ: u8) -> bool {
    let inside = |parent, typ| Element { line: 0, parent, typ, instance: 0, value: None };
    let text = Text { kind: (0, (1, "S11")), typ: (0, 1), teid: None, sequence: (0, 0), elements: vec![inside(0, typ), inside(1, typ)] };
    let (table, values) = table(&text);
    build(&text, &table, &values, &mut []) != Err(14)
}

/// A TEID stands there if messages of the type bear one. A type that is not listed, or not on the kind, is left to the builder.
fn teid(library: &mut Library, text: &Text) -> Result<(), Fault> {
    let name = library.message_name(text.typ.1);
    match (library.bears_teid(text.typ.1), text.teid) {
        (Some(true), None) => fault(text.typ.0, format!("{name} bears a TEID: a line 'teid 0x00000001' is missing")),
        (Some(false), Some((line, _))) => fault(line, format!("{name} bears no TEID")),
        _ => Ok(()),
    }
}

/// A group has no value, and what is none has one.
fn group(library: &Library, e: &Element) -> Result<(), Fault> {
    let pair = library.pair(e.typ, e.instance);
    match (is_group(e.typ), &e.value) {
        (true, Some(_)) => fault(e.line, format!("{pair} is a group: it has no colon and no value, and its elements stand below it, further in")),
        (false, None) => fault(e.line, format!("{pair} is no group: a colon stands after it, and then its value")),
        _ => Ok(()),
    }
}

/// Refuses the line with which the message is longer than the longest.
fn short_enough(text: &Text) -> Result<(), Fault> {
    let header = if text.teid.is_some() { 12 } else { 8 };
    let of = |e: &Element| 4 + e.value.as_ref().map_or(0, Vec::len);
    let all = header + text.elements.iter().map(of).sum::<usize>();
    let mut length = header;
    for e in &text.elements {
        length += of(e);
        if length > LARGEST {
            return fault(e.line, format!("here the message passes {LARGEST} octets, which are the most: it would have {all} in all"));
        }
    }
    Ok(())
}

/// A refusal of the builder in sentences.
fn refusal(library: &mut Library, text: &Text, code: u16) -> Vec<Fault> {
    let (line, typ) = text.typ;
    let faults = match code {
        7 => vec![Fault { line, why: format!("message type {typ} {} is not handled", library.message_name(typ)) }],
        21 => vec![Fault { line, why: format!("message type {typ} {} is not handled on {}", library.message_name(typ), text.kind.1 .1) }],
        16 => why::faults(library, text),
        _ => vec![],
    };
    if faults.is_empty() {
        return vec![Fault { line, why: format!("the library does not build this: its code is {code}") }];
    }
    faults
}
