//! The cleaner: examples worked out by hand, what is promised of it over
//! generated messages, and wrong cleaners, which the gate's messages show.

use crate::support::{judged, mask, message, octets, rows, verdict};
use second::generate::{figures, Case, Generator, Random};
use second::rules::Standing;
use second::walk::Row;
use second::{clean, Answer, Verdict, DOCUMENT};

const CASES: usize = 24_000;
const UNTOUCHED: u8 = 0xEE;

/// The answer, and the buffer after it.
fn cleaned_in(case: &Case, length: usize) -> (Answer, Vec<u8>) {
    let mut lent = vec![UNTOUCHED; length];
    let answer = clean(case.kind, &case.message, &mut lent);
    (answer, lent)
}

fn refused(numbers: [u16; 5]) -> Answer {
    Answer::refused(verdict(numbers))
}

/// The cleaned copy of a message that is accepted, in a buffer with three
/// octets to spare.
fn cleaned(kind: u32, message: &[u8]) -> Vec<u8> {
    let message = message.to_vec();
    let case = Case { kind, message };
    let (answer, mut lent) = cleaned_in(&case, case.message.len() + 3);
    assert_eq!(answer.verdict, Verdict::ACCEPTED);
    let past = lent.split_off(usize::from(answer.length));
    assert!(past.iter().all(|&octet| octet == UNTOUCHED));
    lent
}

#[test]
fn an_element_set_aside_inside_a_kept_group() {
    // Body: 93/0 with 15 octets, in it 73/0 (5), 200/0 (5) and 97/0 (5). 200/0 is
    // not listed there. Without it the group has 10 octets, and the message
    // 31 - 5 = 26, of which 22 (16 in hex) follow the length field.
    let body = "5D 00 0F 30 49 00 01 00 05 C8 00 01 00 99 61 00 01 F0 01";
    let expected = "48 42 00 16 00 00 00 01 00 00 02 00 \
                    5D 00 0A 30 49 00 01 00 05 61 00 01 F0 01";
    assert_eq!(cleaned(1, &message(66, body)), octets(expected));
}

#[test]
fn a_group_set_aside() {
    // 180/1 is listed in 66 on kind 3 alone. On kind 1 its six octets go, also
    // though two octets are no element; on kind 3 that is 9, at 21 + 4.
    let body = "5D 00 05 00 49 00 01 00 05 B4 00 02 01 00 00";
    let expected = "48 42 00 11 00 00 00 01 00 00 02 00 5D 00 05 00 49 00 01 00 05";
    assert_eq!(cleaned(1, &message(66, body)), octets(expected));
    let message = message(66, body);
    assert_eq!(clean(3, &message, &mut [0; 64]), refused([9, 67, 25, 0, 0]));
}

#[test]
fn a_repeat_and_a_short_optional_element() {
    let d = octets("40 01 00 09 00 00 01 00 03 00 01 00 07");
    // F: the second 3/0 is a repeat.
    assert_eq!(cleaned(1, &message(1, "03 00 01 00 07 03 00 00 00")), d);
    // An empty 152/0 is short, and the good one after it a repeat: both go.
    let body = "98 00 00 00 03 00 01 00 07 98 00 01 00 00";
    assert_eq!(cleaned(1, &message(1, body)), d);
}

#[test]
fn spare_bits_stay_as_they_came() {
    // The low bits of octet 0, the header's last octet and the high bits beside
    // an instance; 4 of 17 octets go, and 13 - 4 = 9 follow the length field.
    let message = octets("47 01 00 0D 01 02 03 5A 03 00 01 A0 07 C8 00 00 F0");
    let expected = octets("47 01 00 09 01 02 03 5A 03 00 01 A0 07");
    assert_eq!(cleaned(2, &message), expected);
}

#[test]
fn all_of_them_at_both_levels() {
    // 67 on kind 3. The body's elements, with their octets:
    //   2/0 (6): kept
    //   93/0 (4 + 20): kept; in it 73/0 (5), 73/0 repeated (4), 2/0 (6) and
    //     255/0 (5), which no group lists
    //   2/0 (5): repeated, though short
    //   180/1 (4 + 5): not listed on kind 3
    //   3/0 (4): short; 3/0 (5): repeated after it
    //   180/0 (4 + 27): kept; in it 183/0 (8), 182/0 (5), 71/0 short (4),
    //     156/0 (5) and 71/0 (5)
    //   255/7 (5): short; 255/7 (6): kept
    // Of 12 + 95 octets 13 go inside groups and 28 beside them. 12 + 54 stay, 62
    // (3E in hex) after the length field; 93/0 has 11 (0B), 180/0 has 23 (17).
    let body = "02 00 02 00 40 00 \
                5D 00 14 00 49 00 01 00 05 49 00 00 00 02 00 02 00 40 01 FF 00 01 00 00 \
                02 00 01 00 40 \
                B4 00 05 01 49 00 01 00 05 \
                03 00 00 00 03 00 01 00 09 \
                B4 00 1B 00 B7 00 04 00 00 00 00 2A B6 00 01 00 1E 47 00 00 00 9C 00 01 00 4A \
                47 00 01 00 00 FF 00 01 07 28 FF 00 02 07 28 AF";
    let expected = "48 43 00 3E 00 00 00 01 00 00 02 00 02 00 02 00 40 00 \
                    5D 00 0B 00 49 00 01 00 05 02 00 02 00 40 01 \
                    B4 00 17 00 B7 00 04 00 00 00 00 2A B6 00 01 00 1E 9C 00 01 00 4A \
                    47 00 01 00 00 FF 00 02 07 28 AF";
    assert_eq!(cleaned(3, &message(67, body)), octets(expected));
}

#[test]
fn eleven_comes_before_twelve_before_thirteen() {
    let with_none = |message: &[u8]| clean(1, message, &mut []);
    // 2/0 is missing in the body; the second context's 73/0 is short.
    let contexts = "5D 00 00 00 5D 00 04 00 49 00 00 00";
    let short = message(67, contexts);
    assert_eq!(with_none(&short), refused([11, 67, 20, 73, 0]));
    let missing = message(67, "5D 00 00 00");
    assert_eq!(with_none(&missing), refused([12, 70, 0, 2, 0]));
    let good = message(1, "03 00 01 00 07 C8 00 00 00");
    assert_eq!(with_none(&good), refused([13, 0, 0, 0, 0]));
    // 17 octets, cleaned 13.
    let mut lent = [UNTOUCHED; 12];
    assert_eq!(clean(1, &good, &mut lent), refused([13, 0, 0, 0, 0]));
    assert_eq!(lent, [UNTOUCHED; 12]);
    let mut lent = [UNTOUCHED; 13];
    assert_eq!(clean(1, &good, &mut lent).numbers(), [0, 0, 0, 0, 0, 13]);
    assert_eq!(lent[..], message(1, "03 00 01 00 07"));
    // A broken message and a wrong kind come before all of these.
    let broken = message(1, "03 00 00 00 00");
    assert_eq!(with_none(&broken), refused([9, 67, 12, 0, 0]));
    assert_eq!(clean(257, &good, &mut []), refused([1, 0, 0, 0, 0]));
}

/// What a row says that a cleaned copy must say again: its parent among the kept
/// rows, its pair, and its value unless it is a group's.
fn said(message: &[u8], rows: &[[u16; 6]]) -> Vec<(u16, u16, u16, Vec<u8>)> {
    let mut said = Vec::new();
    // The number of each row among the kept ones.
    let mut numbers = vec![0];
    for &[parent, typ, inst, place, length, standing] in rows {
        let kept = standing == 0;
        let (place, length) = (usize::from(place), usize::from(length));
        let value = match DOCUMENT.facts(typ as u8).group {
            true => Vec::new(),
            false => message[place..place + length].to_vec(),
        };
        if kept {
            said.push((numbers[usize::from(parent)], typ, inst, value));
        }
        numbers.push(said.len() as u16);
    }
    said
}

fn assert_promised(case: &Case, table: &[u16], copy: &[u8]) {
    let Case { kind, message } = case;
    let (verdict, copied) = judged(*kind, copy);
    assert_eq!(verdict, Verdict::ACCEPTED);
    assert_eq!(copied[0], copied[1], "every row is kept");
    assert_eq!(copied[1], table[1], "as many as the message has kept");
    assert_eq!(copied[4..6], table[4..6], "of the same type and kind");
    assert_eq!(said(copy, rows(&copied)), said(message, rows(table)));
    assert_eq!(cleaned(*kind, copy), copy, "once more changes nothing");
    assert!(copy.len() <= message.len());
    assert_eq!(copy == message, table[0] == table[1]);
}

/// Masked and then cleaned, or cleaned and then masked: the same octets.
fn assert_commutes(case: &Case, copy: &[u8]) {
    let masked = |message: &[u8]| {
        let mut masked = vec![0; message.len()];
        assert!(mask(case.kind, message, &mut masked).accepted());
        masked
    };
    assert_eq!(cleaned(case.kind, &masked(&case.message)), masked(copy));
}

/// Holds one case to all that is promised; answers whether its copy is shorter.
fn assert_clean(case: &Case, length: usize) -> bool {
    let (verdict, table) = judged(case.kind, &case.message);
    let (answer, lent) = cleaned_in(case, length);
    let need = case.clean_need();
    let expected = match (verdict.accepted(), length < need) {
        (false, _) => Answer::refused(verdict),
        (true, true) => refused([13, 0, 0, 0, 0]),
        (true, false) => Answer {
            verdict,
            length: need as u16,
        },
    };
    assert_eq!(answer, expected, "{case:?}");
    let (copy, past) = lent.split_at(usize::from(answer.length));
    assert!(past.iter().all(|&octet| octet == UNTOUCHED));
    if answer.verdict.accepted() {
        assert_promised(case, &table, copy);
        assert_commutes(case, copy);
    }
    answer.verdict.accepted() && need < case.message.len()
}

#[test]
fn promises_over_the_mix() {
    let mut random = Random::new(72);
    let mut shorter = 0;
    for case in Generator::new(71).take(CASES) {
        let length = *random.pick(&case.clean_lengths());
        shorter += usize::from(assert_clean(&case, length));
    }
    assert!(shorter > CASES / 10, "{shorter}");
}

#[test]
fn promises_over_overloads() {
    let (mut generator, mut random) = (Generator::new(73), Random::new(74));
    let mut shorter = 0;
    for _ in 0..CASES / 4 {
        let case = generator.overload();
        let length = *random.pick(&case.clean_lengths());
        shorter += usize::from(assert_clean(&case, length));
    }
    assert!(shorter > CASES / 20, "{shorter}");
}

#[test]
fn promises_over_the_figures() {
    let mut shorter = 0;
    for (turn, case) in figures().iter().enumerate() {
        let length = case.clean_lengths()[turn % 5];
        shorter += usize::from(assert_clean(case, length));
    }
    assert!(shorter > 1_000, "{shorter}");
}

/// What a cleaner may get wrong that is no figure of the rules.
#[derive(Debug, Clone, Copy, PartialEq, Eq)]
enum Wrong {
    Nothing,
    HeaderLengthLeft,
    GroupLengthLeft,
    /// Lengths without their high octet.
    HighOctetLost,
    SpareBitsCleared,
    IgnoredBitsCleared,
    LastOctetCleared,
    GroupsAsTheyCame,
    /// A group with something set aside inside is dropped whole.
    GroupDropped,
    Order,
}

/// The cleaned copy put together from the rows, row by row.
fn by_rows(case: &Case, rows: &[Row], wrong: Wrong) -> Vec<u8> {
    let message = &case.message;
    let header = if message[0] & 8 == 0 { 8 } else { 12 };
    let mut copy = message[..header].to_vec();
    match wrong {
        Wrong::IgnoredBitsCleared => copy[0] &= 0xF8,
        Wrong::LastOctetCleared => copy[header - 1] = 0,
        _ => {}
    }
    copy.extend(children(message, rows, 0, wrong));
    if wrong != Wrong::HeaderLengthLeft {
        let length = length_of(copy.len() - 4, wrong);
        copy[2..4].copy_from_slice(&length);
    }
    copy
}

fn length_of(length: usize, wrong: Wrong) -> [u8; 2] {
    let [high, low] = (length as u16).to_be_bytes();
    [
        if wrong == Wrong::HighOctetLost {
            0
        } else {
            high
        },
        low,
    ]
}

fn is_group(row: &Row) -> bool {
    matches!(row.typ, 93 | 109 | 180)
}

/// The kept rows with that parent, as octets.
fn children(message: &[u8], rows: &[Row], parent: usize, wrong: Wrong) -> Vec<u8> {
    let mut elements = Vec::new();
    for (number, row) in rows.iter().enumerate() {
        if usize::from(row.parent) != parent || row.standing != Standing::Kept {
            continue;
        }
        let place = usize::from(row.place);
        let value = &message[place..place + usize::from(row.length)];
        let mut element = message[place - 4..place].to_vec();
        if wrong == Wrong::SpareBitsCleared {
            element[3] &= 0x0F;
        }
        let entered = is_group(row) && wrong != Wrong::GroupsAsTheyCame;
        let inside = match entered {
            true => children(message, rows, number + 1, wrong),
            false => value.to_vec(),
        };
        if wrong == Wrong::GroupDropped && inside.len() < value.len() {
            continue;
        }
        if wrong != Wrong::GroupLengthLeft {
            element[1..3].copy_from_slice(&length_of(inside.len(), wrong));
        }
        elements.push([element, inside].concat());
    }
    if wrong == Wrong::Order {
        elements.sort_by_key(|element| element[0]);
    }
    elements.concat()
}

#[test]
fn wrong_cleaners_are_seen() {
    let all = [
        Wrong::HeaderLengthLeft,
        Wrong::GroupLengthLeft,
        Wrong::HighOctetLost,
        Wrong::SpareBitsCleared,
        Wrong::IgnoredBitsCleared,
        Wrong::LastOctetCleared,
        Wrong::GroupsAsTheyCame,
        Wrong::GroupDropped,
        Wrong::Order,
    ];
    let mut seen = [0; 9];
    for case in figures() {
        if !judged(case.kind, &case.message).0.accepted() {
            continue;
        }
        let rows = DOCUMENT.rows(case.kind, &case.message);
        let rows = rows.expect("an accepted message");
        let copy = cleaned(case.kind, &case.message);
        assert_eq!(by_rows(&case, &rows, Wrong::Nothing), copy);
        for (seen, wrong) in seen.iter_mut().zip(all) {
            *seen += usize::from(by_rows(&case, &rows, wrong) != copy);
        }
    }
    println!("{seen:?}");
    assert!(seen.iter().all(|&seen| seen >= 100), "{seen:?}");
}
