//! The proved library through its C exports: all that is said of a message comes from here.

use crate::page;
use std::os::raw::c_uint;

extern "C" {
    fn wok_judge_copy(
        kind: c_uint,
        message: *const u8,
        len: usize,
        table: *mut u8,
        table_len: usize,
        copy: *mut u8,
        copy_len: usize,
        five: *mut u8,
        five_len: usize,
    ) -> u16;
    fn wok_show(kind: c_uint, right: u8, full: u8, message: *const u8, len: usize, page: *mut u8, page_len: usize) -> usize;
    fn wok_name(what: u8, number: u8, name: *mut u8, name_len: usize) -> usize;
}

/// A table with room for 1,022 rows.
const TABLE: usize = 12276;
/// A copy of the largest message fits.
const COPY: usize = 4096;
/// A page on any message fits, with values cut.
const PAGE: usize = 163840;

/// A row of the table: parent, type, instance, value place, value length, standing.
pub type Row = [u16; 6];

/// The standing of a group that is set aside whole: it has no rows inside, and the values there are covered.
pub const VOID: u16 = 4;

/// The five numbers: code, cause, place, type, instance.
pub type Five = [u16; 5];

/// The judge's answer; rows and kept rows of an accepted message; the masked copy of one that passes checks 1 to 9, 21 among them.
pub struct Judged {
    pub five: Five,
    pub rows: Vec<Row>,
    pub kept: u16,
    pub copy: Option<Vec<u8>>,
}

/// Buffers that are lent to the library again and again.
pub struct Library {
    kind: c_uint,
    table: Vec<u8>,
    copy: Vec<u8>,
    page: Vec<u8>,
}

fn number(octets: &[u8], i: usize) -> u16 {
    u16::from_be_bytes([octets[2 * i], octets[2 * i + 1]])
}

fn numbers(octets: &[u8; 10]) -> Five {
    std::array::from_fn(|i| number(octets, i))
}

fn named(what: u8, number: u8) -> String {
    let mut name = [0u8; 64];
    // SAFETY: the pointer is valid for the length beside it.
    let n = unsafe { wok_name(what, number, name.as_mut_ptr(), name.len()) };
    String::from_utf8_lossy(&name[..n.min(name.len())]).into_owned()
}

impl Library {
    pub fn new(kind: u32) -> Library {
        Library { kind, table: vec![0; TABLE], copy: vec![0; COPY], page: vec![0; PAGE] }
    }

    /// Verdict, table and masked copy, all from one call. The buffers are large enough for any message, so that 10 and 13 are never the answer.
    pub fn judge(&mut self, message: &[u8]) -> Judged {
        let mut five = [0u8; 10];
        let Library { kind, table, copy, .. } = self;
        // SAFETY: each pointer is valid for the length beside it, and the buffers overlap nothing.
        unsafe { wok_judge_copy(*kind, message.as_ptr(), message.len(), table.as_mut_ptr(), TABLE, copy.as_mut_ptr(), COPY, five.as_mut_ptr(), 10) };
        let five = numbers(&five);
        let copied = matches!(five[0], 0 | 11 | 12).then(|| copy[..message.len()].to_vec());
        if five[0] != 0 {
            return Judged { five, rows: vec![], kept: 0, copy: copied };
        }
        let row = |i: usize| std::array::from_fn(|j| number(table, 6 + 6 * i + j));
        Judged { five, rows: (0..number(table, 0) as usize).map(row).collect(), kept: number(table, 1), copy: copied }
    }

    /// The same with the rows of every message that passes checks 1 to 9, since 11 and 12 leave no table; none of any other.
    pub fn read(&mut self, message: &[u8]) -> Option<Judged> {
        let judged = self.judge(message);
        match judged.five[0] {
            0 => Some(judged),
            11 | 12 => {
                let rows = page::rows(self.show(false, false, message))?;
                let kept = rows.iter().filter(|row| row[5] == 0).count() as u16;
                Some(Judged { rows, kept, ..judged })
            }
            _ => None,
        }
    }

    /// Whether messages of a type bear a TEID; found by judging a header without one. Nothing of a type that is not listed, or not on the kind.
    pub fn bears_teid(&mut self, typ: u8) -> Option<bool> {
        match self.judge(&[0x40, typ, 0, 4, 0, 0, 0, 0]).five[0] {
            7 | 21 => None,
            code => Some(code == 8),
        }
    }

    /// The masked copy, which 11 and 12 leave too.
    pub fn mask(&mut self, message: &[u8]) -> Option<Vec<u8>> {
        self.judge(message).copy
    }

    /// The message in words, with the subscriber's values for a viewer with the right, and with whole values if they are asked for.
    pub fn show(&mut self, right: bool, long: bool, message: &[u8]) -> &str {
        loop {
            // SAFETY: as above.
            let n = unsafe { wok_show(self.kind, right as u8, long as u8, message.as_ptr(), message.len(), self.page.as_mut_ptr(), self.page.len()) };
            // a page that fills its buffer may be cut; only whole values make one so long
            if n < self.page.len() || !long {
                return std::str::from_utf8(&self.page[..n.min(self.page.len())]).unwrap_or("");
            }
            self.page.resize(2 * n, 0);
        }
    }

    /// An element's name.
    pub fn name(&self, typ: u8) -> String {
        named(0, typ)
    }

    /// An element's pair and name.
    pub fn pair(&self, typ: u8, instance: u8) -> String {
        match self.name(typ).as_str() {
            "not named" => format!("{typ}/{instance}"),
            name => format!("{typ}/{instance} {name}"),
        }
    }

    pub fn message_name(&self, typ: u8) -> String {
        named(1, typ)
    }

    /// How many octets of a value, from its end, are covered; found by asking for the copy of one with other octets there.
    pub fn covered(&mut self, copy: &[u8], place: usize, length: usize) -> usize {
        let end = place + length;
        let mut hidden = |from: usize, to: usize| {
            let mut other = copy.to_vec();
            other[from..to].fill(0xff);
            self.mask(&other).is_some_and(|masked| masked[from..to].iter().all(|&o| o == 0))
        };
        if length == 0 || end > copy.len() {
            return 0;
        }
        if copy[place] == 0 && hidden(place, place + 1) {
            return length;
        }
        if length > 1 && copy[place + 1..end].iter().all(|&o| o == 0) && hidden(place + 1, end) {
            return length - 1;
        }
        0
    }
}
