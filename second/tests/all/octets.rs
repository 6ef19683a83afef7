//! The forms for the C receiver around the edges of their buffers.

use crate::support::octets;
use second::generate::{Generator, ANSWERS};
use second::{clean, clean_octets, judge_copy, judge_copy_octets, Verdict};

fn as_octets(numbers: &[u16]) -> Vec<u8> {
    numbers.iter().flat_map(|n| n.to_be_bytes()).collect()
}

/// The five-buffer after a verdict, lent with that length and all octets 0xEE.
fn five_after(verdict: Verdict, length: usize) -> Vec<u8> {
    let mut five = vec![0xEE; length];
    if length >= 10 {
        five[..10].copy_from_slice(&as_octets(&verdict.numbers()));
    }
    five
}

#[test]
fn example_d_in_octets() {
    let message = octets("40 01 00 09 00 00 01 00 03 00 01 00 07");
    let judge = |table: &mut [u8], copy: &mut [u8], five: &mut [u8]| {
        judge_copy_octets(1, &message, table, copy, five)
    };
    let (mut table, mut copy, mut five) = ([0xEE; 27], [0xEE; 14], [0xEE; 12]);
    assert_eq!(judge(&mut table, &mut copy, &mut five), 0);
    let expected =
        octets("00 01 00 01 00 06 00 0C 00 01 00 01 00 00 00 03 00 00 00 0C 00 01 00 00 EE EE EE");
    assert_eq!(table[..], expected);
    assert_eq!(copy[..13], message);
    assert_eq!(copy[13], 0xEE);
    assert_eq!(five[..], octets("00 00 00 00 00 00 00 00 00 00 EE EE"));
    // 23 octets are 11 numbers.
    let (mut table, mut copy) = ([0xEE; 23], [0xEE; 13]);
    assert_eq!(judge(&mut table, &mut copy, &mut five), 10);
    assert_eq!((table, copy), ([0xEE; 23], [0xEE; 13]));
    assert_eq!(five[..], octets("00 0A 00 00 00 00 00 00 00 00 EE EE"));
    // The copy is tested before the table.
    let (mut table, mut copy) = ([0xEE; 23], [0xEE; 12]);
    assert_eq!(judge(&mut table, &mut copy, &mut five), 13);
    assert_eq!((table, copy), ([0xEE; 23], [0xEE; 12]));
    assert_eq!(five[..], octets("00 0D 00 00 00 00 00 00 00 00 EE EE"));
}

#[test]
fn example_f_in_octets() {
    let message = octets("40 01 00 0D 00 00 01 00 03 00 00 00 03 00 01 00 07");
    let (mut table, mut copy, mut five) = ([0xEE; 36], [0xEE; 18], [0xEE; 10]);
    let code = judge_copy_octets(1, &message, &mut table, &mut copy, &mut five);
    assert_eq!((code, table), (11, [0xEE; 36]));
    assert_eq!(five[..], octets("00 0B 00 43 00 08 00 03 00 00"));
    // The good one after the short one is a repeat, and covered.
    assert_eq!(copy[..16], message[..16]);
    assert_eq!(copy[16..], [0, 0xEE]);
    let code = judge_copy_octets(257, &message, &mut [], &mut [], &mut []);
    assert_eq!(code, 1);
}

#[test]
fn a_short_five_buffer_stops_no_other_write() {
    let message = octets("40 01 00 09 00 00 01 00 03 00 01 00 07");
    let (mut table, mut copy, mut five) = ([0xEE; 24], [0xEE; 13], [0xEE; 9]);
    let code = judge_copy_octets(1, &message, &mut table, &mut copy, &mut five);
    assert_eq!(code, 0);
    assert_eq!(table[..2], [0, 1]);
    assert_eq!(copy[..], message);
    assert_eq!(five, [0xEE; 9]);
}

#[test]
fn six_numbers_in_octets() {
    // Example M: its last element, six octets of 19, is set aside.
    let message = octets("40 01 00 0F 00 00 01 00 03 00 01 00 07 C8 00 02 00 11 22");
    let mut lent = [0xEE; 15];
    let mut answer = [0xEE; 15];
    assert_eq!(clean_octets(1, &message, &mut lent, &mut answer), 0);
    let d = octets("40 01 00 09 00 00 01 00 03 00 01 00 07 EE EE");
    assert_eq!(lent[..], d);
    let six = octets("00 00 00 00 00 00 00 00 00 00 00 0D EE EE EE");
    assert_eq!(answer[..], six);
    // Eleven octets are left alone, and the copy is written all the same.
    let (mut lent, mut answer) = ([0xEE; 15], [0xEE; 11]);
    assert_eq!(clean_octets(1, &message, &mut lent, &mut answer), 0);
    assert_eq!((&lent[..], answer), (&d[..], [0xEE; 11]));
    let (mut lent, mut answer) = ([0xEE; 12], [0xEE; 12]);
    assert_eq!(clean_octets(1, &message, &mut lent, &mut answer), 13);
    assert_eq!(lent, [0xEE; 12]);
    assert_eq!(answer[..], octets("00 0D 00 00 00 00 00 00 00 00 00 00"));
}

#[test]
fn clean_octets_agrees_with_clean() {
    for case in Generator::new(33).take(10_000) {
        for length in case.clean_lengths() {
            let mut copy = vec![0xEE; length];
            let cleaned = clean(case.kind, &case.message, &mut copy);
            for length in ANSWERS {
                let mut lent = vec![0xEE; copy.len()];
                let mut answer = vec![0xEE; length];
                let code = clean_octets(case.kind, &case.message, &mut lent, &mut answer);
                assert_eq!((code, lent), (cleaned.verdict.code, copy.clone()));
                let mut expected = vec![0xEE; length];
                if length >= 12 {
                    expected[..12].copy_from_slice(&as_octets(&cleaned.numbers()));
                }
                assert_eq!(answer, expected);
            }
        }
    }
}

#[test]
fn judge_copy_octets_agrees_with_judge_copy() {
    for case in Generator::new(31).take(10_000) {
        let mut pairs = case.around_both();
        let copies = case.copy_lengths();
        let tables = case.table_lengths().into_iter().enumerate();
        pairs.extend(tables.map(|(at, numbers)| (numbers, copies[at % copies.len()])));
        for (numbers, octets) in pairs {
            let (mut table, mut copy) = (vec![0xEEEE; numbers], vec![0xEE; octets]);
            let verdict = judge_copy(case.kind, &case.message, &mut table, &mut copy);
            for (odd, length) in [(0, 0), (1, 9), (0, 10), (1, 11)] {
                let (mut lent, mut copied) = (vec![0xEE; 2 * numbers + odd], vec![0xEE; octets]);
                let mut five = vec![0xEE; length];
                let code =
                    judge_copy_octets(case.kind, &case.message, &mut lent, &mut copied, &mut five);
                assert_eq!((code, &copied), (verdict.code, &copy));
                assert_eq!(lent[..2 * numbers], as_octets(&table));
                assert_eq!(lent[2 * numbers..], [0xEE][..odd]);
                assert_eq!(five, five_after(verdict, length));
            }
        }
    }
}
