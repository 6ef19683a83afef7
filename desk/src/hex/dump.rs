//! Text with offsets: the forms DUMP of the grammar.

use super::{blank, fault, groups, is_hex, Fault, Lines};

/// Whether a text with this first line has offsets.
pub fn begins(line: &str) -> bool {
    let word = line.trim_start_matches(blank).split(blank).next().unwrap_or("");
    word.starts_with("0000") || (word.starts_with("0x") && word.ends_with(':'))
}

#[derive(Clone, Copy, PartialEq)]
struct Style {
    prefixed: bool,
    colon: bool,
    digits: usize,
}

#[derive(Clone, Copy, PartialEq)]
enum Column {
    None,
    Text,
    Bars,
    Angles,
}

/// A line's offset as written, and what follows it.
fn offset(number: usize, line: &str) -> Result<(Style, &str, &str), Fault> {
    let line = line.trim_start_matches(blank);
    let end = line.find(blank).unwrap_or(line.len());
    let (word, rest) = line.split_at(end);
    let (prefixed, word) = word.strip_prefix("0x").map_or((false, word), |w| (true, w));
    let (colon, word) = word.strip_suffix(':').map_or((false, word), |w| (true, w));
    if word.len() < 4 || !is_hex(word) {
        return fault(number, "an offset of four digits or more, as all other lines have");
    }
    Ok((Style { prefixed, colon, digits: word.len() }, word, rest))
}

pub fn read(parts: &[Vec<(usize, &str)>]) -> Result<Vec<Vec<u8>>, Fault> {
    let (style, _, _) = offset(parts[0][0].0, parts[0][0].1)?;
    let radices: &[u32] = if style.digits == 7 && !style.colon && !style.prefixed { &[8, 10] } else { &[16] };
    let mut read: Vec<Vec<Vec<u8>>> = vec![];
    let mut worst: Option<Fault> = None;
    for &radix in radices {
        for column in [Column::None, Column::Text, Column::Bars, Column::Angles] {
            match (Dump { style, radix, column, group: 0 }).messages(parts) {
                Ok(messages) if !read.contains(&messages) => read.push(messages),
                Ok(_) => {}
                Err(f) if worst.as_ref().is_none_or(|w| w.line < f.line) => worst = Some(f),
                Err(_) => {}
            }
        }
    }
    match read.len() {
        1 => Ok(read.remove(0)),
        0 => Err(worst.unwrap()),
        _ => fault(parts[0][0].0, "a dump that can be read in one way only: this one's text column may be octets"),
    }
}

/// How a dump is read.
struct Dump {
    style: Style,
    radix: u32,
    column: Column,
    group: usize,
}

impl Dump {
    fn messages(mut self, parts: &[Vec<(usize, &str)>]) -> Result<Vec<Vec<u8>>, Fault> {
        let mut messages = vec![];
        for part in parts {
            self.part(part, &mut messages)?;
        }
        Ok(messages)
    }

    /// The messages of lines with no blank line between them.
    fn part(&mut self, lines: &Lines, messages: &mut Vec<Vec<u8>>) -> Result<(), Fault> {
        let mut open: Option<Open> = None;
        for &(number, line) in lines {
            let (style, word, rest) = offset(number, line)?;
            let Ok(at) = usize::from_str_radix(word, self.radix) else { return fault(number, "an offset") };
            if style != self.style {
                return fault(number, "an offset written as the first line's");
            }
            if at == 0 {
                if let Some(before) = open.take() {
                    messages.push(before.ended_by_next(number, self)?);
                }
            }
            let expected = open.as_ref().map_or(0, |o| o.octets.len());
            if at != expected {
                return fault(number, format!("offset {}", self.written(expected)));
            }
            if rest.trim_matches(blank).is_empty() {
                let Some(whole) = open.take() else { return fault(number, "octets after offset 0") };
                messages.push(whole.octets);
                continue;
            }
            let octets = self.line(number, rest)?;
            let narrow = !style.colon && !rest.starts_with('\t') && !rest.starts_with("  ");
            open.get_or_insert_with(Open::default).add(octets, narrow);
        }
        match open {
            Some(o) if o.narrow => fault(lines.last().unwrap().0, "a last line with the bare offset, or two blanks after each offset"),
            Some(o) => {
                messages.push(o.octets);
                Ok(())
            }
            None => Ok(()),
        }
    }

    fn written(&self, n: usize) -> String {
        let width = self.style.digits;
        match self.radix {
            8 => format!("{n:0width$o}"),
            10 => format!("{n:0width$}"),
            _ => format!("{n:0width$x}"),
        }
    }

    /// The octets of what follows an offset.
    fn line(&mut self, number: usize, rest: &str) -> Result<Vec<u8>, Fault> {
        let rest = rest.trim_start_matches(blank).trim_end_matches(blank);
        match self.column {
            Column::None => self.groups(number, rest),
            Column::Text => self.beside_text(number, rest),
            Column::Bars => self.beside(number, rest, '|', '|'),
            Column::Angles => self.beside(number, rest, '>', '<'),
        }
    }

    fn groups(&mut self, number: usize, text: &str) -> Result<Vec<u8>, Fault> {
        let (octets, sizes) = groups(number, text)?;
        if self.group == 0 {
            self.group = sizes[0];
        }
        let last = sizes.len() - 1;
        if sizes[..last].iter().any(|&s| s != self.group) || sizes[last] > self.group {
            return fault(number, format!("groups of {} hex digits", self.group));
        }
        if self.group > 2 && self.column == Column::None && !(self.style.prefixed && self.style.colon) {
            return fault(number, "octets one by one, since the order within words is not known: od -tx1, hexdump -C, xxd");
        }
        Ok(octets)
    }

    fn beside(&mut self, number: usize, rest: &str, open: char, close: char) -> Result<Vec<u8>, Fault> {
        let expected = format!("a text column in {open} and {close}, as long as the octets and the same");
        let Some(start) = rest.find(open) else { return fault(number, expected) };
        let Some(text) = rest[start + 1..].strip_suffix(close) else { return fault(number, expected) };
        let before = &rest[..start];
        if !before.ends_with("  ") {
            return fault(number, "two blanks before the text column");
        }
        let octets = self.groups(number, before.trim_end_matches(blank))?;
        if !shows(text, &octets, false) {
            return fault(number, expected);
        }
        Ok(octets)
    }

    /// The column begins where what follows is the text of what came before.
    fn beside_text(&mut self, number: usize, rest: &str) -> Result<Vec<u8>, Fault> {
        let mut found: Option<Vec<u8>> = None;
        let group = self.group;
        let mut ends: Vec<usize> = rest.match_indices("  ").map(|(i, _)| i).filter(|&i| !rest[..i].ends_with(' ')).collect();
        ends.push(rest.len());
        for end in ends {
            self.group = group;
            let Ok(octets) = self.groups(number, &rest[..end]) else { continue };
            let gap = rest[end..].chars().take_while(|&c| c == ' ').count();
            let fits = (2..=gap).any(|n| shows(&rest[end + n..], &octets, true)) || (end == rest.len() && shows("", &octets, true));
            if fits && found.as_ref().is_some_and(|f| *f != octets) {
                return fault(number, "a text column that can be told from octets");
            }
            if fits {
                found = Some(octets);
            }
        }
        self.group = group;
        match found {
            Some(octets) => {
                if group == 0 {
                    let first = rest.split(blank).next().unwrap_or("");
                    self.group = first.len();
                }
                Ok(octets)
            }
            None => fault(number, "hex octets, and no text column or the octets' own"),
        }
    }
}

/// A message whose dump goes on.
#[derive(Default)]
struct Open {
    octets: Vec<u8>,
    /// how many octets each line has
    counts: Vec<usize>,
    /// one blank after an offset: a bare offset must end it
    narrow: bool,
}

impl Open {
    fn add(&mut self, octets: Vec<u8>, narrow: bool) {
        self.counts.push(octets.len());
        self.octets.extend(octets);
        self.narrow |= narrow;
    }

    /// The message, if its last line is shorter than a whole one, so that no damaged offset parts it.
    fn ended_by_next(self, number: usize, dump: &Dump) -> Result<Vec<u8>, Fault> {
        let short = match self.counts[..] {
            [one] => one % 8 != 0,
            [first, .., last] => last < first,
            [] => false,
        };
        if !short || self.narrow {
            return fault(number, format!("offset {}, or a blank line before another message", dump.written(self.octets.len())));
        }
        Ok(self.octets)
    }
}

/// Whether a text column shows octets; its last blanks may be lost.
fn shows(column: &str, octets: &[u8], cut: bool) -> bool {
    let mut column = column.chars();
    for &octet in octets {
        let fits = match column.next() {
            Some('.') | Some('\u{b7}') => octet == b'.' || !octet.is_ascii_graphic(),
            Some(c) => c == octet as char && (octet.is_ascii_graphic() || octet == b' '),
            None => cut && octet == b' ',
        };
        if !fits {
            return false;
        }
    }
    column.next().is_none()
}
