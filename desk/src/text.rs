//! A message as text that a person can change: `wok edit` writes it, `wok build` reads it. The reader is strict: it takes a line as what it says, or
//! refuses it with its number. A refusal never repeats what stands there, since that may be a subscriber's.
//!
//! TEXT     lines; a byte-order mark, carriage returns, blank lines and what follows `#` on a line are passed over.
//! FIELDS   first, each once, in any order, at the line's start: `kind S11`, `type 66`, `teid 0x00000001` if messages of that type bear one, and
//!          `sequence 2`. A TEID has 8 hex digits, with `0x` or without; a sequence number is decimal, or hex with `0x`.
//! ELEMENTS then a line each, in the message's order: `TYPE/INSTANCE: VALUE`, or for a group `TYPE/INSTANCE` alone. What is in a group follows it,
//!          further in than its line, all of it equally far: by tabs or by blanks, in one text by one of them.
//! VALUE    hex digits on the same line, two an octet; blanks may stand between octets. Nothing after the colon is an empty value.

use crate::args;
use crate::forms;
use crate::hex::{blank, is_hex, pairs};

/// What is wrong with a line.
#[derive(Debug, PartialEq)]
pub struct Fault {
    pub line: usize,
    pub why: String,
}

/// A field, and its line.
pub type Field<T> = (usize, T);

#[derive(Clone, Debug, PartialEq)]
pub struct Element {
    pub line: usize,
    /// 0, or the group's number among the elements, counted from 1
    pub parent: usize,
    pub typ: u8,
    pub instance: u8,
    /// none for a group
    pub value: Option<Vec<u8>>,
}

#[derive(Clone, Debug, PartialEq)]
pub struct Text {
    pub kind: Field<(u32, &'static str)>,
    pub typ: Field<u8>,
    pub teid: Option<Field<u32>>,
    pub sequence: Field<u32>,
    pub elements: Vec<Element>,
}

pub fn fault<T>(line: usize, why: impl Into<String>) -> Result<T, Fault> {
    Err(Fault { line, why: why.into() })
}

/// An element as it stands on its line; none is a group's value.
pub fn element(typ: u8, instance: u8, value: Option<&[u8]>) -> String {
    let value = value.map_or(String::new(), |v| format!(": {}", forms::hex(v).to_uppercase()));
    format!("{typ}/{instance}{}", value.trim_end())
}

pub fn read(text: &str) -> Result<Text, Fault> {
    let text = text.strip_prefix('\u{feff}').unwrap_or(text);
    let mut reader = Reader { levels: vec![(0, 0)], ..Reader::default() };
    let mut last = 1;
    for (line, i) in text.split('\n').zip(1..) {
        let said = line.split('#').next().unwrap_or("").trim_end_matches(|c| blank(c) || c == '\r');
        if !said.is_empty() {
            reader.line(i, said)?;
            last = i;
        }
    }
    reader.whole(last)
}

#[derive(Default)]
struct Reader {
    kind: Option<Field<(u32, &'static str)>>,
    typ: Option<Field<u8>>,
    teid: Option<Field<u32>>,
    sequence: Option<Field<u32>>,
    elements: Vec<Element>,
    /// how far in the open levels are, and whose they are
    levels: Vec<(usize, usize)>,
    /// what the first line that is further in is indented by
    indent: Option<Field<char>>,
}

impl Reader {
    fn line(&mut self, number: usize, line: &str) -> Result<(), Fault> {
        let words = line.trim_start_matches(blank);
        let indent = &line[..line.len() - words.len()];
        if !words.starts_with(|c: char| c.is_ascii_digit()) {
            return self.field(number, indent, words);
        }
        let parent = self.parent(number, indent)?;
        self.elements.push(told(number, parent, words)?);
        Ok(())
    }

    fn field(&mut self, number: usize, indent: &str, words: &str) -> Result<(), Fault> {
        let (name, value) = words.split_once(blank).unwrap_or((words, ""));
        let value = value.trim_start_matches(blank);
        match name {
            "kind" => once(number, &mut self.kind, args::kind_of(value), "S11, S4, S5/S8 or S10 after 'kind'"),
            "type" => once(number, &mut self.typ, small(value, 255), "a message type from 0 to 255 after 'type'"),
            "teid" => once(number, &mut self.teid, teid(value), "a TEID after 'teid': 8 hex digits, as 0x00000001"),
            "sequence" => once(number, &mut self.sequence, sequence(value), "a number from 0 to 16777215 after 'sequence', or in hex with 0x"),
            _ => fault(number, "expected kind, type, teid or sequence with its value, or an element as '73/0: 05'"),
        }?;
        if !indent.is_empty() {
            return fault(number, format!("'{name}' stands at the line's start"));
        }
        if let Some(first) = self.elements.first() {
            return fault(number, format!("'{name}' stands before the elements, which begin on line {}", first.line));
        }
        Ok(())
    }

    /// The group that a line stands in, by how far in it is.
    fn parent(&mut self, number: usize, indent: &str) -> Result<usize, Fault> {
        self.even(number, indent)?;
        let open = self.levels.len();
        self.levels.retain(|level| level.0 <= indent.len());
        let (at, parent) = self.levels[self.levels.len() - 1];
        if at == indent.len() {
            return Ok(parent);
        }
        match self.elements.last() {
            _ if self.levels.len() < open => fault(number, "it is as far in as none of the lines above that it could stand beside"),
            None => fault(number, "the first element stands at the line's start"),
            Some(e) if e.value.is_some() => fault(number, format!("it is further in than line {}, which is no group", e.line)),
            Some(_) => {
                self.levels.push((indent.len(), self.elements.len()));
                Ok(self.elements.len())
            }
        }
    }

    /// How wide a tab is nobody knows, so that tabs and blanks cannot be compared.
    fn even(&mut self, number: usize, indent: &str) -> Result<(), Fault> {
        let Some(first) = indent.chars().next() else { return Ok(()) };
        let (line, c) = *self.indent.get_or_insert((number, first));
        if indent.chars().all(|other| other == c) {
            return Ok(());
        }
        let word = if c == '\t' { "tabs" } else { "blanks" };
        fault(number, format!("tabs and blanks are mixed: line {line} is indented by {word}"))
    }

    fn whole(self, last: usize) -> Result<Text, Fault> {
        let at = self.elements.first().map_or(last, |e| e.line);
        let missing = |field: &str| Fault { line: at, why: format!("a line '{field}' is missing before the elements") };
        Ok(Text {
            kind: self.kind.ok_or_else(|| missing("kind S11"))?,
            typ: self.typ.ok_or_else(|| missing("type 66"))?,
            teid: self.teid,
            sequence: self.sequence.ok_or_else(|| missing("sequence 2"))?,
            elements: self.elements,
        })
    }
}

/// Takes a field that was not there before.
fn once<T>(number: usize, field: &mut Option<Field<T>>, value: Option<T>, expected: &str) -> Result<(), Fault> {
    if let Some((line, _)) = field {
        return fault(number, format!("this stood on line {line} already"));
    }
    let Some(value) = value else { return fault(number, format!("expected {expected}")) };
    *field = Some((number, value));
    Ok(())
}

/// A decimal number up to the largest.
fn decimal(word: &str, largest: u32) -> Option<u32> {
    let digits = !word.is_empty() && word.bytes().all(|b| b.is_ascii_digit());
    word.parse().ok().filter(|n| digits && *n <= largest)
}

fn small(word: &str, largest: u8) -> Option<u8> {
    decimal(word, largest.into()).map(|n| n as u8)
}

fn bare(word: &str) -> Option<&str> {
    word.strip_prefix("0x").or(word.strip_prefix("0X"))
}

fn teid(word: &str) -> Option<u32> {
    let digits = bare(word).unwrap_or(word);
    u32::from_str_radix(digits, 16).ok().filter(|_| digits.len() == 8 && is_hex(digits))
}

fn sequence(word: &str) -> Option<u32> {
    match bare(word) {
        Some(digits) if is_hex(digits) => u32::from_str_radix(digits, 16).ok().filter(|n| *n <= 0xff_ffff),
        _ => decimal(word, 0xff_ffff),
    }
}

/// The element of a line.
fn told(line: usize, parent: usize, words: &str) -> Result<Element, Fault> {
    let (pair, value) = words.split_once(':').map_or((words, None), |(pair, value)| (pair.trim_end_matches(blank), Some(value)));
    let Some((typ, instance)) = pair.split_once('/') else {
        return fault(line, "expected an element as '73/0: 05', or a group as '93/0'");
    };
    if value.is_none() && instance.contains(blank) {
        return fault(line, "expected a colon before a value, as in '73/0: 05'");
    }
    let Some(typ) = small(typ, 255) else { return fault(line, "expected an element's type from 0 to 255 before the /") };
    let Some(instance) = small(instance, 15) else { return fault(line, "expected an instance from 0 to 15 after the /") };
    let value = value.map(|v| octets(line, v)).transpose()?;
    Ok(Element { line, parent, typ, instance, value })
}

fn octets(line: usize, value: &str) -> Result<Vec<u8>, Fault> {
    let mut octets = vec![];
    for word in value.split(blank).filter(|w| !w.is_empty()) {
        if !is_hex(word) {
            return fault(line, "expected a value of hex digits after the colon");
        }
        if word.len() % 2 != 0 {
            return fault(line, "expected two hex digits an octet");
        }
        octets.extend(pairs(word));
    }
    Ok(octets)
}
