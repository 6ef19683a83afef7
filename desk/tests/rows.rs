//! How many rows a message has, and what is said of that.

use wok::rows::{count, sentence};

/// A Delete Bearer Command with a bearer context, and these elements after it.
fn command(rest: &[u8]) -> Vec<u8> {
    let mut message = vec![0x48, 66, 0, 0, 0, 0, 0, 1, 0, 0, 2, 0, 93, 0, 5, 0, 73, 0, 1, 0, 5];
    message.extend(rest);
    message[3] = message.len() as u8 - 4;
    message
}

#[test]
fn rows_of_a_message() {
    assert_eq!(count(1, &command(&[])), Ok(2));
    // not listed on S11; on S5/S8 it is, and entered, though what is mandatory there is short or missing
    let overload = command(&[180, 0, 4, 1, 183, 0, 0, 0]);
    assert_eq!([1, 3].map(|kind| count(kind, &overload)), [Ok(3), Ok(4)]);
    assert_eq!(count(3, &command(&[180, 0, 0, 1])), Ok(3));
    let most = [&[0x40, 1, 0x0F, 0xFC, 0, 0, 1, 0][..], &[200, 0, 0, 0].repeat(1022)].concat();
    assert_eq!(count(4, &most), Ok(1022));
}

#[test]
fn refusals() {
    assert_eq!(count(1, &[]), Err([2, 0, 0, 0, 0]));
    assert_eq!(count(5, &command(&[])), Err([1, 0, 0, 0, 0]));
    assert_eq!(count(4, &command(&[])), Err([21, 0, 0, 0, 0]));
    assert_eq!(count(2, &command(&[93, 0, 1, 0])), Err([9, 67, 21, 0, 0]));
}

#[test]
fn one_row_is_not_several() {
    assert_eq!(sentence(0), "0 rows: a table of 6 numbers, 12 octets");
    assert_eq!(sentence(1), "1 row: a table of 12 numbers, 24 octets");
    assert_eq!(sentence(2), "2 rows: a table of 18 numbers, 36 octets");
    assert_eq!(sentence(1022), "1022 rows: a table of 6138 numbers, 12276 octets");
}
