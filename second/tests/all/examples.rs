//! The examples A to M, with every variant.

use crate::support::{five, mask, octets, table};
use second::{Verdict, DOCUMENT};

const D: &str = "40 01 00 09 00 00 01 00 03 00 01 00 07";
const G: &str = "48 42 00 11 00 00 00 01 00 00 02 00 5D 00 05 00 49 00 01 00 05";

/// G's first 12 octets with another length, then `rest`.
fn after_header_of_g(length: u8, rest: &str) -> Vec<u8> {
    let mut message = octets(G)[..12].to_vec();
    message[3] = length;
    message.extend(octets(rest));
    message
}

fn k() -> Vec<u8> {
    after_header_of_g(0x15, "5D 00 05 00 49 00 01 00 05 B4 00 00 01")
}

#[test]
fn a_empty() {
    assert_eq!(five(1, &[]), [2, 0, 0, 0, 0]);
}

#[test]
fn b_version() {
    assert_eq!(five(1, &octets("60")), [3, 0, 0, 0, 0]);
}

#[test]
fn c_header() {
    assert_eq!(five(1, &octets("40")), [4, 0, 0, 0, 0]);
}

#[test]
fn d_echo() {
    let table = table(1, &octets(D));
    assert_eq!(table, [1, 1, 6, 12, 1, 1, 0, 3, 0, 12, 1, 0]);
}

#[test]
fn d_without_its_last_octet() {
    let message = octets(D);
    assert_eq!(five(1, &message[..12]), [6, 67, 0, 0, 0]);
}

#[test]
fn e_mandatory_missing() {
    let message = octets("40 01 00 04 00 00 01 00");
    assert_eq!(five(1, &message), [12, 70, 0, 3, 0]);
}

#[test]
fn f_repeated() {
    let message = octets("40 01 00 0D 00 00 01 00 03 00 01 00 07 03 00 00 00");
    let expected = [2, 1, 6, 18, 1, 1, 0, 3, 0, 12, 1, 0, 0, 3, 0, 17, 0, 2];
    assert_eq!(table(1, &message), expected);
}

#[test]
fn f_exchanged() {
    let message = octets("40 01 00 0D 00 00 01 00 03 00 00 00 03 00 01 00 07");
    assert_eq!(five(1, &message), [11, 67, 8, 3, 0]);
}

#[test]
fn g_group() {
    let message = octets(G);
    let expected = [2, 2, 6, 18, 66, 1, 0, 93, 0, 16, 5, 0, 1, 73, 0, 20, 1, 0];
    assert_eq!(table(1, &message), expected);
    let input = [&[1], &message[..]].concat();
    assert_eq!(
        DOCUMENT.program(&input),
        "accept 2 2\n0 93 0 16 5 0\n1 73 0 20 1 0\n"
    );
}

#[test]
fn h_old_number() {
    let message = octets(&G.replace("5D", "60"));
    assert_eq!(five(1, &message), [12, 70, 0, 93, 0]);
}

#[test]
fn i_empty_group() {
    let message = after_header_of_g(0x0C, "5D 00 00 00");
    assert_eq!(five(1, &message), [12, 70, 12, 73, 0]);
}

#[test]
fn j_autumn_night() {
    let contexts = "5D 00 05 00 49 00 0A 00 05 5D 00 05 00 49 00 01 00 06";
    let message = after_header_of_g(0x1A, contexts);
    assert_eq!(five(1, &message), [9, 67, 16, 0, 0]);
}

#[test]
fn k_unexpected_on_kind_1() {
    let expected = [
        3, 2, 6, 24, 66, 1, 0, 93, 0, 16, 5, 0, 1, 73, 0, 20, 1, 0, 0, 180, 1, 25, 0, 1,
    ];
    assert_eq!(table(1, &k()), expected);
}

#[test]
fn l_listed_on_kind_3() {
    assert_eq!(five(3, &k()), [12, 70, 21, 183, 0]);
}

#[test]
fn m_masked() {
    let message = octets("40 01 00 0F 00 00 01 00 03 00 01 00 07 C8 00 02 00 11 22");
    let expected = [2, 1, 6, 18, 1, 1, 0, 3, 0, 12, 1, 0, 0, 200, 0, 17, 2, 1];
    assert_eq!(table(1, &message), expected);
    let mut copy = vec![0xEE; message.len()];
    assert_eq!(mask(1, &message, &mut copy), Verdict::ACCEPTED);
    assert_eq!(copy[..17], message[..17]);
    assert_eq!(copy[17..], [0, 0]);
}
