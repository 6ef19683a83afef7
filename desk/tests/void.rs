//! A group that is set aside whole, since it holds more than ten APNs: what is said of it, and that nothing of its inside is shown without the right.

use wok::build::{self, Refused};
use wok::forms::{self, Origin, View};
use wok::library::{Library, VOID};
use wok::{edit, page};

/// A Delete Bearer Failure Indication with an overload report that holds this many APNs, as text.
fn text(apns: usize) -> String {
    let head = "kind S11\ntype 67\nteid 0x00000001\nsequence 2\n2/0: 10 00\n93/0\n  73/0: 05\n  2/0: 10 00\n180/0\n";
    format!("{head}  183/0: 00 00 00 2A\n  182/0: 1E\n  156/0: 4A\n{}", "  71/0: 61 62 63\n".repeat(apns))
}

/// The octets of such a message, from one with ten: the further APNs are put behind it, since none is built.
fn report(apns: usize) -> Vec<u8> {
    let mut message = build::message(&text(10)).ok().unwrap();
    for _ in 10..apns {
        message.extend([71, 0, 3, 0, 0x61, 0x62, 0x63]);
        message[3] += 7;
        message[35] += 7;
    }
    message
}

const ORIGIN: Origin = Origin { file: "f", kind: "S11", number: 1, packet: None };

fn json(right: bool, message: &[u8]) -> String {
    let mut library = Library::new(1);
    let view = View::of(&mut library, right, message);
    forms::json(&mut library, right, &ORIGIN, &view)
}

#[test]
fn ten_are_kept() {
    let judged = Library::new(1).judge(&report(10));
    assert_eq!((judged.five[0], judged.kept, judged.rows.len()), (0, 18, 18));
}

#[test]
fn eleven_are_one_row_that_says_why() {
    let message = report(11);
    let mut library = Library::new(1);
    let rows = library.judge(&message).rows;
    assert_eq!(rows[4..], [[0, 180, 0, 37, 95, VOID]]);
    for (right, long) in [(false, false), (true, false), (true, true)] {
        let shown = library.show(right, long, &message).to_owned();
        let last = "   5      0 180 Overload Control Information        0    37   95 void       set aside: more than ten APNs";
        assert_eq!(shown.lines().last(), Some(last));
        assert_eq!(page::rows(&shown), Some(rows.clone()));
    }
}

#[test]
fn its_inside_is_for_the_right() {
    let message = report(11);
    let row = |right| json(right, &message).split_once("\"row\":5,").unwrap().1.to_owned();
    assert!(row(false).ends_with("\"length\":95,\"standing\":4,\"value\":null,\"covered\":39}]}\n"), "{}", row(false));
    assert!(row(true).contains("\"value\":\"b700040000") && row(true).ends_with("616263\",\"covered\":0}]}\n"), "{}", row(true));
    let mut library = Library::new(1);
    let view = View::of(&mut library, false, &message);
    assert!(forms::csv(&mut library, false, &ORIGIN, &view).ends_with(",180,Overload Control Information,0,37,95,4,,39\n"));
}

#[test]
fn it_is_left_out_of_a_text() {
    let said = edit::text(&mut Library::new(1), false, "S11", &report(11)).unwrap();
    let last = "#180/0                          # Overload Control Information; left out with its inside: more than ten APNs";
    assert_eq!(said.lines().last(), Some(last));
}

#[test]
fn none_is_built() {
    let Err(Refused::Message(faults)) = build::message(&text(11)) else { panic!() };
    let said: Vec<_> = faults.iter().map(|f| (f.line, f.why.as_str())).collect();
    assert_eq!(said, [(9, "180/0 Overload Control Information holds 11 elements 71/0 Access Point Name (APN): ten are the most")]);
}
