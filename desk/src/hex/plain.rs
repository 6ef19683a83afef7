//! Text without offsets: the forms PLAIN of the grammar.

use super::{blank, commented, fault, groups, is_hex, pairs, Fault, Lines};

/// A line without what follows `#`.
fn uncommented(number: usize, line: &str) -> Result<&str, Fault> {
    match line.split_once('#') {
        Some((before, comment)) => commented(number, comment).map(|_| before),
        None => Ok(line),
    }
}

/// The message of lines without offsets.
pub fn read(lines: &Lines) -> Result<Vec<u8>, Fault> {
    let mut kept = vec![];
    for &(number, line) in lines {
        kept.push((number, uncommented(number, line)?.trim_matches(blank)));
    }
    let has = |s: &str| kept.iter().any(|(_, line)| line.contains(s));
    if has("\\x") {
        escapes(&kept)
    } else if has("0x") || has("0X") || has("{") {
        array(&kept)
    } else if has(":") {
        parted(&kept, ':')
    } else if has(",") {
        parted(&kept, ',')
    } else {
        grouped(&kept)
    }
}

fn grouped(lines: &Lines) -> Result<Vec<u8>, Fault> {
    let (mut octets, mut all) = (vec![], vec![]);
    for &(number, line) in lines {
        let (found, sizes) = groups(number, line)?;
        octets.extend(found);
        all.push((number, sizes));
    }
    let Some(size) = all.iter().find(|(_, sizes)| sizes.len() > 1).map(|(_, sizes)| sizes[0]) else { return Ok(octets) };
    let last = all.len() - 1;
    for (i, (number, sizes)) in all.iter().enumerate() {
        let end = sizes.len() - 1;
        let even = sizes[..end].iter().all(|&s| s == size) && (sizes[end] == size || (i == last && sizes[end] < size));
        if !even || !size.is_power_of_two() || size > 32 {
            return fault(*number, "groups of one size: 2, 4, 8, 16 or 32 hex digits");
        }
    }
    Ok(octets)
}

/// Pairs of digits with a mark between them.
fn parted(lines: &Lines, mark: char) -> Result<Vec<u8>, Fault> {
    let mut octets = vec![];
    for (i, &(number, line)) in lines.iter().enumerate() {
        let line = match line.strip_suffix(mark) {
            Some(before) if i + 1 < lines.len() || (lines.len() == 1 && !before.contains(mark)) => before,
            Some(_) => return fault(number, format!("an octet after the last '{mark}'")),
            None => line,
        };
        for word in line.split(mark) {
            let word = if mark == ',' { word.trim_matches(blank) } else { word };
            if word.len() != 2 || !is_hex(word) {
                return fault(number, format!("two hex digits between each '{mark}'"));
            }
            octets.extend(pairs(word));
        }
    }
    Ok(octets)
}

fn escapes(lines: &Lines) -> Result<Vec<u8>, Fault> {
    let mut octets = vec![];
    for &(number, line) in lines {
        let line = line.trim_end_matches(';');
        let line = match line.strip_prefix('"') {
            Some(rest) => match rest.strip_suffix('"') {
                Some(inner) => inner,
                None => return fault(number, "a quote at the end, as at the beginning"),
            },
            None => line,
        };
        let Some(rest) = line.strip_prefix("\\x") else { return fault(number, "\\x and two hex digits") };
        for word in rest.split("\\x") {
            if word.len() != 2 || !is_hex(word) {
                return fault(number, "\\x and two hex digits");
            }
            octets.extend(pairs(word));
        }
    }
    Ok(octets)
}

/// The number between two marks, if anything stands there.
fn between(line: &str, open: &str, close: &str) -> Option<Option<usize>> {
    let (_, rest) = line.split_once(open)?;
    let (inner, _) = rest.split_once(close)?;
    match inner.trim_matches(blank) {
        "" => Some(None),
        digits => digits.parse().ok().map(Some),
    }
}

/// A C comment is passed over, if it ends on its line.
fn without_c_comments(number: usize, line: &str) -> Result<String, Fault> {
    let (mut kept, mut rest) = (String::new(), line);
    while let Some((before, after)) = rest.split_once("/*") {
        let Some((inner, left)) = after.split_once("*/") else { return fault(number, "*/ on the line of /*") };
        commented(number, inner)?;
        kept.push_str(before);
        rest = left;
    }
    kept.push_str(rest);
    Ok(kept)
}

/// `0x48` each, bare or as a C array with its declaration and its length.
#[derive(Default)]
struct Array {
    octets: Vec<u8>,
    /// lengths that are said, and where
    sizes: Vec<(usize, usize)>,
    open: bool,
    closed: bool,
    /// the last word was a comma
    comma: bool,
}

fn array(lines: &Lines) -> Result<Vec<u8>, Fault> {
    let mut array = Array::default();
    for &(number, line) in lines {
        let line = without_c_comments(number, line)?;
        let line = line.trim_matches(blank);
        if array.closed {
            array.length(number, line)?;
        } else {
            let rest = array.declared(number, line)?;
            let (rest, end) = array.ended(number, rest)?;
            array.tokens(number, rest)?;
            array.closed = end;
        }
    }
    array.whole(lines.last().map_or(1, |l| l.0))
}

impl Array {
    /// What follows the array: its length.
    fn length(&mut self, number: usize, line: &str) -> Result<(), Fault> {
        let rest = line.strip_prefix("unsigned int ").or(line.strip_prefix("size_t "));
        match rest.and_then(|r| between(r, "_len = ", ";")) {
            Some(Some(n)) => self.sizes.push((number, n)),
            _ => return fault(number, "nothing after the array but its length, 'unsigned int NAME_len = N;'"),
        }
        Ok(())
    }

    /// A line without the declaration up to {.
    fn declared<'a>(&mut self, number: usize, line: &'a str) -> Result<&'a str, Fault> {
        let Some((declared, rest)) = line.split_once('{') else { return Ok(line) };
        if self.open || !self.octets.is_empty() {
            return fault(number, "one array, or a blank line before the next");
        }
        self.open = true;
        let declared = declared.trim_matches(blank);
        if declared.is_empty() {
            return Ok(rest);
        }
        let typed = ["unsigned char ", "uint8_t ", "char "].iter().any(|t| declared.contains(t)) && declared.ends_with('=');
        match between(declared, "[", "]") {
            Some(size) if typed => self.sizes.extend(size.map(|n| (number, n))),
            _ => return fault(number, "a declaration as 'unsigned char NAME[N] = {'"),
        }
        Ok(rest)
    }

    /// A line without the }, and whether it has one.
    fn ended<'a>(&self, number: usize, line: &'a str) -> Result<(&'a str, bool), Fault> {
        let Some((before, after)) = line.split_once('}') else { return Ok((line, false)) };
        if !self.open || !["", ";"].contains(&after.trim_matches(blank)) {
            return fault(number, "} at the end of what { began, and no more than ; after it");
        }
        Ok((before, true))
    }

    /// `0x48` each, with commas or blanks between them.
    fn tokens(&mut self, number: usize, text: &str) -> Result<(), Fault> {
        let text = text.replace(',', " , ");
        for word in text.split(blank).filter(|w| !w.is_empty()) {
            if word == "," {
                if self.comma || self.octets.is_empty() {
                    return fault(number, "an octet before each comma");
                }
                self.comma = true;
                continue;
            }
            match word.strip_prefix("0x").or(word.strip_prefix("0X")) {
                Some(digits) if digits.len() == 2 && is_hex(digits) => self.octets.extend(pairs(digits)),
                _ => return fault(number, "0x and two hex digits each"),
            }
            self.comma = false;
        }
        Ok(())
    }

    fn whole(self, last: usize) -> Result<Vec<u8>, Fault> {
        if self.open != self.closed {
            return fault(last, "} at the end of what { began");
        }
        if !self.open && (self.comma || self.octets.len() < 2) {
            return fault(last, "two octets at least, and one after the last comma");
        }
        if self.octets.is_empty() {
            return fault(last, "octets in the array");
        }
        for (number, n) in self.sizes {
            if n != self.octets.len() {
                return fault(number, format!("{} as the length, since so many octets are there", self.octets.len()));
            }
        }
        Ok(self.octets)
    }
}
