//! Hex text as octets. The reader is strict: a text is read as the messages that it shows, or refused with the line and what was expected
//! there. One character too few, too many or other than it was never makes another message of it, but where a hex digit stands for another.
//!
//! TEXT   lines; a byte-order mark and carriage returns are passed over. A line whose first character is `#` is a comment; so is what follows
//!        `#` on a line without an offset. A comment does not begin with hex digits (but with `a` before a word it may),
//!        so that no `#` too many hides octets.
//!        Blank lines part messages. Either every line has an offset or none has.
//!
//! DUMP   each line: OFFSET GAP OCTETS COLUMN. It is a dump if the first word begins with four zeros, or with `0x` and ends with `:`.
//! OFFSET how many octets came before, in the same number of digits on every line, four at least: hexadecimal, or octal or decimal if there are seven
//!        (od's). `:` may follow, and `0x` stand before it. A bare offset ends the dump. Offset 0 begins a message: after a bare offset, a blank
//!        line, or a line that is shorter than a whole one.
//! GAP    blanks. After an offset without `:` two at least, unless a bare offset ends the dump, as od's does.
//! OCTETS groups of one size, the last of a line may be shorter; one blank between them, or two after eight octets. Groups of more than two digits
//!        only after `0x` and `:` (tcpdump's) or beside a column: there alone their order is known (hexdump's and od's words are swapped).
//! COLUMN nothing on every line, or on every line the octets as text: after two blanks, or in `|..|` or `>..<`. It has one character an octet,
//!        that octet's own, or `.` for one that cannot be seen. So it shows where it begins, and it is compared.
//!
//! PLAIN  lines without offsets, of one of these forms:
//!        groups of two, four, eight, 16 or 32 digits with one blank between them, or two after eight octets, the very last may be shorter;
//!        or one group a line, of any even number of digits;
//!        pairs with `:` or with `,` between them, also at a line's end if more follows;
//!        `0x48` with commas or blanks between them, two at least, or in a C array with its declaration and, after it, its length;
//!        `\x48\x42`, in quotes or not.
//! In plain text nothing tells that a blank line was lost or added; how many messages there are is said.

mod dump;
mod plain;

/// What was expected in a line.
#[derive(Debug, PartialEq)]
pub struct Fault {
    pub line: usize,
    pub expected: String,
}

type Lines<'a> = [(usize, &'a str)];

fn fault<T>(line: usize, expected: impl Into<String>) -> Result<T, Fault> {
    Err(Fault { line, expected: expected.into() })
}

pub(crate) fn blank(c: char) -> bool {
    c == ' ' || c == '\t'
}

pub(crate) fn is_hex(word: &str) -> bool {
    !word.is_empty() && word.bytes().all(|b| b.is_ascii_hexdigit())
}

/// The messages of a text.
pub fn read(text: &str) -> Result<Vec<Vec<u8>>, Fault> {
    let text = text.strip_prefix('\u{feff}').unwrap_or(text);
    let mut parts: Vec<Vec<(usize, &str)>> = vec![vec![]];
    for (i, line) in text.split('\n').enumerate() {
        let line = line.strip_suffix('\r').unwrap_or(line);
        let words = line.trim_matches(blank);
        if let Some(comment) = words.strip_prefix('#') {
            commented(i + 1, comment)?;
        } else if !words.is_empty() {
            parts.last_mut().unwrap().push((i + 1, line));
        } else if !parts.last().unwrap().is_empty() {
            parts.push(vec![]);
        }
    }
    parts.retain(|part| !part.is_empty());
    let Some(first) = parts.first() else { return fault(1, "octets in hex") };
    if dump::begins(first[0].1) {
        return dump::read(&parts);
    }
    let mut messages = vec![];
    for part in &parts {
        if dump::begins(part[0].1) {
            return fault(part[0].0, "no offset, since the first line has none");
        }
        messages.push(plain::read(part)?);
    }
    Ok(messages)
}

/// A comment may not hide octets.
fn commented(line: usize, comment: &str) -> Result<(), Fault> {
    let rest = comment.trim_start_matches(|c: char| blank(c) || "#,:;{}\"\\".contains(c));
    let word: String = rest.chars().take_while(|c| c.is_ascii_alphanumeric()).collect();
    let digits = word.strip_prefix("0x").or(word.strip_prefix("0X")).or(word.strip_prefix('x')).unwrap_or(&word);
    // the article, before a word
    let article =
        word == "a" && rest[1..].strip_prefix(' ').is_some_and(|r| r.starts_with(|c: char| c.is_ascii_alphabetic() && !c.is_ascii_hexdigit()));
    if is_hex(digits) && !article {
        return fault(line, "a comment that does not begin with hex digits");
    }
    Ok(())
}

/// Groups of hex digits with one blank between them, or two after eight octets: the octets, and how many digits each group has.
fn groups(number: usize, text: &str) -> Result<(Vec<u8>, Vec<usize>), Fault> {
    let (mut octets, mut sizes, mut gap) = (vec![], vec![], 0);
    for word in text.split(blank) {
        if word.is_empty() {
            gap += 1;
            continue;
        }
        if gap > 1 || (gap == 1 && octets.len() != 8) {
            return fault(number, "one blank between octets, or two after eight");
        }
        gap = 0;
        if !is_hex(word) {
            return fault(number, "hex digits");
        }
        if word.len() % 2 != 0 {
            return fault(number, "two hex digits an octet");
        }
        octets.extend(pairs(word));
        sizes.push(word.len());
    }
    if sizes.is_empty() {
        return fault(number, "octets in hex");
    }
    Ok((octets, sizes))
}

pub(crate) fn pairs(digits: &str) -> Vec<u8> {
    digits.as_bytes().chunks(2).map(|p| u8::from_str_radix(std::str::from_utf8(p).unwrap(), 16).unwrap()).collect()
}
