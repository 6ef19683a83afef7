//! What several tests share.

use second::{lines, Rules, Verdict, DOCUMENT};

/// A number that no table of a short message holds.
pub const UNTOUCHED: u16 = 0xAAAA;

/// The judge: the one call with a copy that is large enough.
pub fn judge(kind: u32, message: &[u8], table: &mut [u16]) -> Verdict {
    judge_by(&DOCUMENT, kind, message, table)
}

/// The same by other rules.
pub fn judge_by(rules: &Rules, kind: u32, message: &[u8], table: &mut [u16]) -> Verdict {
    let mut copy = vec![0; message.len()];
    rules.judge_copy(kind, message, table, &mut copy)
}

/// The masked copy: the one call with a table that is large enough.
pub fn mask(kind: u32, message: &[u8], copy: &mut [u8]) -> Verdict {
    let mut table = vec![0; DOCUMENT.used(DOCUMENT.sizes.most_rows)];
    DOCUMENT.judge_copy(kind, message, &mut table, copy)
}

pub fn octets(hex: &str) -> Vec<u8> {
    lines::octets(hex).expect("hex in a test")
}

pub fn verdict(numbers: [u16; 5]) -> Verdict {
    let [code, cause, place, typ, inst] = numbers;
    Verdict {
        code,
        cause,
        place,
        typ,
        inst,
    }
}

/// The verdict and the table's used numbers, judged with the largest table.
/// A refusal must leave the table as it was.
pub fn judged(kind: u32, message: &[u8]) -> (Verdict, Vec<u16>) {
    let mut table = vec![UNTOUCHED; DOCUMENT.used(1022)];
    let verdict = judge(kind, message, &mut table);
    let written = if verdict.accepted() {
        usize::from(table[3])
    } else {
        0
    };
    assert!(table[written..].iter().all(|&number| number == UNTOUCHED));
    table.truncate(written);
    (verdict, table)
}

/// The five numbers with the largest table.
pub fn five(kind: u32, message: &[u8]) -> [u16; 5] {
    judged(kind, message).0.numbers()
}

/// The table of an accepted message.
pub fn table(kind: u32, message: &[u8]) -> Vec<u16> {
    let (verdict, table) = judged(kind, message);
    assert_eq!(verdict, Verdict::ACCEPTED);
    table
}

/// The rows of a table of the judge.
pub fn rows(table: &[u16]) -> &[[u16; 6]] {
    let (rows, rest) = table[6..].as_chunks();
    assert!(rest.is_empty());
    rows
}

/// A message of that type from the hex of its body, header and lengths right.
pub fn message(typ: u8, body: &str) -> Vec<u8> {
    let mut message = if matches!(typ, 1 | 2) {
        octets("40 00 00 00 00 00 01 00")
    } else {
        octets("48 00 00 00 00 00 00 01 00 00 02 00")
    };
    message.extend(octets(body));
    message[1] = typ;
    let length = u16::try_from(message.len() - 4).expect("a short message");
    message[2..4].copy_from_slice(&length.to_be_bytes());
    message
}
