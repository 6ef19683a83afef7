//! A Context Response, whose groups stand in groups: what is written of it and built again, and what is said where it is wrong, by its lines.

use wok::build::{self, Refused};
use wok::edit;
use wok::library::Library;

const TEXT: &str = "kind S10\ntype 131\nteid 0x00000001\nsequence 2\n2/0: 10 00\n109/0\n  71/0: 00\n  73/0: 05\n  87/0: 07 00 00 00 01
  93/0\n    73/0: 05\n    80/0: 01 02 03 04 05 06 07 08 09 0A 0B 0C 0D 0E 0F 10 11 12 13 14 15 16\n  72/0: 00 00 00 01 00 00 00 02\n";

/// The same, laid out by hand: 109/0 at 18 with 66 octets, 93/0 at 41 with 31.
const MESSAGE: [u8; 88] = [
    0x48, 131, 0, 84, 0, 0, 0, 1, 0, 0, 2, 0, 2, 0, 2, 0, 0x10, 0, // 2/0
    109, 0, 66, 0, 71, 0, 1, 0, 0, 73, 0, 1, 0, 5, 87, 0, 5, 0, 7, 0, 0, 0, 1, // to 93/0
    93, 0, 31, 0, 73, 0, 1, 0, 5, 80, 0, 22, 0, 1, 2, 3, 4, 5, 6, 7, 8, 9, 10, 11, 12, 13, 14, 15, 16, 17, 18, 19, 20, 21, 22, // to 72/0
    72, 0, 8, 0, 0, 0, 0, 1, 0, 0, 0, 2,
];

/// What is said of a text, each with its line.
fn said(text: &str) -> Vec<(usize, String)> {
    match build::message(text) {
        Err(Refused::Message(faults)) => faults.into_iter().map(|f| (f.line, f.why)).collect(),
        Err(Refused::Line(f)) => panic!("line {}: {}", f.line, f.why),
        Ok(_) => vec![],
    }
}

#[test]
fn built_and_written_again() {
    assert_eq!(build::message(TEXT).ok(), Some(MESSAGE.to_vec()));
    let written = edit::text(&mut Library::new(4), true, "S10", &MESSAGE).unwrap();
    let without = |text: &str| text.lines().map(|l| l.split('#').next().unwrap().trim_end().to_owned()).filter(|l| !l.is_empty()).collect::<Vec<_>>();
    let packed = |line: String| line.split_once(": ").map_or(line.clone(), |(pair, value)| format!("{pair}: {}", value.replace(' ', "")));
    assert_eq!(without(&written), without(TEXT).into_iter().map(packed).collect::<Vec<_>>());
}

#[test]
fn on_other_kinds() {
    for kind in ["S11", "S4", "S5/S8"] {
        assert_eq!(said(&TEXT.replace("S10", kind)), [(2, format!("message type 131 Context Response is not handled on {kind}"))]);
    }
    assert_eq!(said(&TEXT.replace("131", "97")), [(2, "message type 97 Update Bearer Request is not handled on S10".to_owned())]);
    assert_eq!(said(&TEXT.replace("131", "130")), [(2, "message type 130 Context Request is not handled".to_owned())]);
}

/// The outer group where both lack something, and the inner one alone.
#[test]
fn what_is_missing() {
    let without = |lines: &[usize]| TEXT.lines().zip(1..).filter(|l| !lines.contains(&l.1)).map(|l| format!("{}\n", l.0)).collect::<String>();
    let lacks = |line: usize, why: &str| vec![(line, format!("{why}, which is mandatory"))];
    assert_eq!(said(&without(&[12])), lacks(10, "93/0 Bearer Context lacks 80/0 Bearer QoS"));
    assert_eq!(said(&without(&[12, 13])), lacks(6, "109/0 PDN Connection lacks 72/0 AMBR"));
    assert_eq!(said(&without(&[10, 11, 12])), lacks(6, "109/0 PDN Connection lacks 93/0 Bearer Context"));
    assert_eq!(said(&without(&[5, 12, 13])), lacks(2, "Context Response lacks 2/0 Cause"));
}
