//! Files as messages. Everything stays in memory: no other file has a message in it.

use crate::capture::{self, Capture};
use crate::hex;
use std::ffi::OsStr;
use std::io::Read;

pub enum Content {
    Messages(Vec<Vec<u8>>),
    Capture(Capture),
}

/// What a file has, or why it cannot be read.
pub fn load(file: &OsStr, port: u16) -> Result<Content, String> {
    told(octets(file)?, port)
}

/// A file's text.
pub fn text(file: &OsStr) -> Result<String, String> {
    match octets(file)? {
        octets if octets.is_empty() => Ok(String::new()),
        octets => text_of(&octets).ok_or("it is no text, as wok edit writes one".into()),
    }
}

fn octets(file: &OsStr) -> Result<Vec<u8>, String> {
    let mut octets = vec![];
    let read = if file == "-" {
        std::io::stdin().lock().read_to_end(&mut octets)
    } else {
        std::fs::File::open(file).and_then(|mut f| f.read_to_end(&mut octets))
    };
    read.map_err(|e| format!("cannot be read: {e}"))?;
    Ok(octets)
}

/// Octets told by what they are: a capture, hex text, or a message.
pub fn told(octets: Vec<u8>, port: u16) -> Result<Content, String> {
    if capture::is_capture(&octets) {
        return capture::read(&octets, port).map(Content::Capture);
    }
    if octets.starts_with(&[0x1f, 0x8b, 8]) {
        return Err("it is compressed: gunzip it first".into());
    }
    match text_of(&octets) {
        Some(text) => hex::read(&text).map(Content::Messages).map_err(|f| format!("line {}: expected {}", f.line, f.expected)),
        None => Ok(Content::Messages(vec![octets])),
    }
}

/// Octets as text, if they are: UTF-8, or UTF-16 by its mark, with no character that cannot be seen but tabs and line ends.
fn text_of(octets: &[u8]) -> Option<String> {
    let wide = |order: fn([u8; 2]) -> u16| String::from_utf16(&octets[2..].chunks_exact(2).map(|p| order([p[0], p[1]])).collect::<Vec<_>>()).ok();
    let text = match octets {
        [] => None,
        [0xff, 0xfe, ..] => wide(u16::from_le_bytes),
        [0xfe, 0xff, ..] => wide(u16::from_be_bytes),
        _ => String::from_utf8(octets.to_vec()).ok(),
    }?;
    text.chars().all(|c| c == '\t' || c == '\r' || c == '\n' || !c.is_control()).then_some(text)
}
