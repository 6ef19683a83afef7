//! Which octets of a value are covered, against the library asked octet by octet: so many at its end, or of a void group each value inside.

use std::path::Path;
use wok::hex;
use wok::library::{Library, VOID};

/// Whether each octet of a group is one of a value inside it.
fn inside(group: &[u8]) -> Vec<bool> {
    let mut all = vec![];
    while all.len() < group.len() {
        let length = usize::from(u16::from_be_bytes([group[all.len() + 1], group[all.len() + 2]]));
        all.extend([false; 4]);
        all.extend(vec![true; length]);
    }
    all
}

/// The samples: name, kind, code, octets.
fn samples() -> Vec<(String, u32, u16, Vec<u8>)> {
    let samples = Path::new(env!("CARGO_MANIFEST_DIR")).join("../samples");
    let expected = std::fs::read_to_string(samples.join("expected.txt")).unwrap();
    let lines = expected.lines().filter(|l| !l.is_empty() && !l.starts_with('#'));
    let sample = |line: &str| {
        let words: Vec<&str> = line.split(' ').collect();
        let message = hex::read(&std::fs::read_to_string(samples.join(format!("{}.hex", words[0]))).unwrap()).unwrap().remove(0);
        (words[0].to_owned(), words[1].parse().unwrap(), words[2].parse().unwrap(), message)
    };
    lines.map(sample).collect()
}

/// Acceptance, 11 and 12 leave a copy, and no other verdict does; the copy has the same verdict, rows and copy.
#[test]
fn which_verdicts_leave_a_copy() {
    let mut refused = 0;
    for (name, kind, code, message) in samples() {
        let mut library = Library::new(kind);
        let judged = library.judge(&message);
        assert_eq!((judged.five[0], judged.copy.is_some()), (code, matches!(code, 0 | 11 | 12)), "{name}");
        let Some(copy) = judged.copy else { continue };
        let again = library.judge(&copy);
        assert_eq!((again.five, again.rows, again.copy), (judged.five, judged.rows, Some(copy)), "{name}");
        refused += usize::from(code != 0);
    }
    assert!(refused > 5, "{refused} refused");
}

#[test]
fn octet_by_octet() {
    let (mut rows, mut hidden) = (0, 0);
    for (name, kind, _, message) in samples() {
        let mut library = Library::new(kind);
        let judged = library.judge(&message);
        let Some(copy) = &judged.copy else { continue };
        for (i, row) in judged.rows.iter().enumerate() {
            if judged.rows.get(i + 1).is_some_and(|next| next[0] as usize == i + 1) {
                continue;
            }
            let (place, length) = (row[3] as usize, row[4] as usize);
            let covered = library.covered(copy, place, length);
            let zeros: Vec<bool> = match row[5] {
                VOID => inside(&message[place..place + length]),
                _ => (0..length).map(|at| at >= length - covered).collect(),
            };
            for at in place..place + length {
                let mut other = copy.clone();
                other[at] = 0xff;
                let zero = library.mask(&other).is_some_and(|masked| masked[at] == 0);
                assert_eq!(zero, zeros[at - place], "{name} row {} octet {at}", i + 1);
            }
            (rows, hidden) = (rows + 1, hidden + covered);
        }
    }
    assert!(rows > 60 && hidden > 100, "{rows} rows, {hidden} octets");
}
