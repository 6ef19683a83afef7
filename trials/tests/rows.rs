//! How many rows a message needs, through the library: numbers worked out by hand, every answer against the second program, and what the number says of
//! the judge's own table.

use second::generate::{figures, Case, Generator};
use std::collections::BTreeMap;
use trials::{filled, judge_copy, rows, rows_difference, OFF_KIND};

/// Octets of a table for 1,022 rows.
const TABLE: usize = 12_276;

fn octets(text: &str) -> Vec<u8> {
    second::lines::octets(text).expect("hex")
}

/// A message of a type with these elements, its length put right. Types 1 and 2 bear no TEID.
fn message(typ: u8, elements: &str) -> Vec<u8> {
    let (first, rest) = if typ <= 2 { (0x40, "00 00 01 00") } else { (0x48, "00 00 00 01 00 00 02 00") };
    let rest = [octets(rest), octets(elements)].concat();
    let [high, low] = (rest.len() as u16).to_be_bytes();
    [&[first, typ, high, low], &rest[..]].concat()
}

fn numbers(octets: &[u8]) -> Vec<u16> {
    octets.chunks(2).map(|two| u16::from_be_bytes([two[0], two[1]])).collect()
}

/// The five numbers and the rows. The result is the first of them.
fn six(kind: u32, message: &[u8]) -> [u16; 6] {
    let mut answer = [0xEE; 12];
    let code = rows(kind, message, &mut answer);
    let six: [u16; 6] = numbers(&answer).try_into().expect("six numbers");
    assert_eq!(code, six[0]);
    six
}

/// The rows of a message that nothing refuses.
fn number(kind: u32, message: &[u8]) -> u16 {
    let [five @ .., rows] = six(kind, message);
    assert_eq!(five, [0; 5], "{message:02x?} on {kind}");
    rows
}

const D: &str = "03 00 01 00 07";
const G: &str = "5D 00 05 00 49 00 01 00 05";

#[test]
fn by_hand() {
    assert_eq!([number(1, &message(1, D)), number(4, &message(2, D))], [1, 1]);
    assert_eq!(number(1, &message(66, G)), 2);
    // what is set aside has its row: a repeat, an unlisted one, a short one, a group that is not entered
    assert_eq!(number(1, &message(1, &format!("{D} {D} C8 00 01 00 00 98 00 00 00"))), 4);
    assert_eq!(number(1, &message(66, &format!("{G} 5D 00 05 01 49 00 01 00 05"))), 3);
    assert_eq!(number(1, &message(66, "60 00 05 00 49 00 01 00 05")), 1);
    // 180/1 is listed on kind 3, and entered there
    let overload = message(66, &format!("{G} B4 00 04 01 B7 00 00 00"));
    assert_eq!([1, 2, 3].map(|kind| number(kind, &overload)), [3, 3, 4]);
    // 11 and 12 are not told: 3/0 short, none at all, no 73/0, the last on kind 3
    assert_eq!(number(1, &message(1, &format!("03 00 00 00 {D}"))), 2);
    assert_eq!(number(1, &message(1, "")), 0);
    assert_eq!(number(1, &message(66, "5D 00 00 00")), 1);
    let mut copy = [0; 25];
    let judged = [1, 2, 3].map(|kind| judge_copy(kind, &overload, &mut [0; TABLE], &mut [0; 29], &mut []));
    assert_eq!(judged, [0, 0, 11]);
    assert_eq!(judge_copy(1, &message(66, "5D 00 00 00"), &mut [0; TABLE], &mut copy, &mut []), 12);
}

#[test]
fn refusals_have_no_rows() {
    let d = message(1, D);
    let with = |at: usize, octet: u8| {
        let mut message = d.clone();
        message[at] = octet;
        message
    };
    for kind in [0, 5, 6, 255, 256, 257, 260, 65_537, u32::MAX] {
        assert_eq!(six(kind, &d), [1, 0, 0, 0, 0, 0]);
        assert_eq!(six(kind, &[]), [1, 0, 0, 0, 0, 0]);
    }
    assert_eq!(six(1, &[]), [2, 0, 0, 0, 0, 0]);
    assert_eq!(six(1, &[0x40; 4097]), [2, 0, 0, 0, 0, 0]);
    assert_eq!(six(1, &with(0, 0x60)), [3, 0, 0, 0, 0, 0]);
    assert_eq!(six(1, &d[..7]), [4, 0, 0, 0, 0, 0]);
    assert_eq!(six(1, &with(0, 0x50)), [5, 0, 0, 0, 0, 0]);
    assert_eq!(six(1, &d[..12]), [6, 67, 0, 0, 0, 0]);
    assert_eq!(six(1, &with(1, 3)), [7, 0, 0, 0, 0, 0]);
    assert_eq!(six(1, &with(1, 131)), [21, 0, 0, 0, 0, 0]);
    assert_eq!(six(4, &message(66, G)), [21, 0, 0, 0, 0, 0]);
    assert_eq!(six(1, &with(1, 66)), [8, 0, 0, 0, 0, 0]);
}

/// A break is told with its place and with no row, however many stand before it: in the body, in a group, and in a void one.
#[test]
fn rows_before_a_break() {
    assert_eq!(six(1, &message(1, &format!("{D} {D} {D} 03 00 02 00 07"))), [9, 67, 23, 0, 0, 0]);
    assert_eq!(six(2, &message(1, &format!("{D} 03"))), [9, 67, 13, 0, 0, 0]);
    assert_eq!(six(1, &message(66, &format!("{G} {G} 5D 00 06 00 49 00 01 00 05 00"))), [9, 67, 39, 0, 0, 0]);
    assert_eq!(six(1, &message(66, &format!("{G} 5D 00 05 00 49 00 0A 00 05 {G}"))), [9, 67, 25, 0, 0, 0]);
    assert_eq!(six(1, &report(11, "FF")), [9, 67, 81, 0, 0, 0]);
}

/// Message 67 with 2/0, a 93/0 with two inside, and at 33 a 180/0 with so many empty APNs and then these.
fn report(apns: usize, rest: &str) -> Vec<u8> {
    let inside = format!("{} {rest}", "47 00 00 00 ".repeat(apns));
    let length = octets(&inside).len();
    message(67, &format!("02 00 02 00 10 00 5D 00 0B 00 49 00 01 00 05 02 00 02 00 10 00 B4 00 {length:02X} 00 {inside}"))
}

/// Past ten APNs the report is one row, whatever it holds; what stands beside it counts.
#[test]
fn a_void_report() {
    let other = "C8 00 04 00 01 02 03 04 5D 00 05 00 49 00 01 00 05";
    for kind in 1..=3 {
        for apns in 0..=10 {
            assert_eq!(usize::from(number(kind, &report(apns, ""))), 5 + apns);
            assert_eq!(usize::from(number(kind, &report(apns, other))), 7 + apns);
        }
        for apns in 11..=30 {
            assert_eq!(number(kind, &report(apns, "")), 5);
            assert_eq!(number(kind, &report(apns, other)), 5);
        }
    }
    // one that stands and a 3/0 behind a void one
    let mut beside = report(11, "");
    beside.extend(octets("B4 00 08 00 47 00 00 00 47 00 00 00 03 00 01 00 07"));
    beside[3] += 17;
    assert_eq!(number(1, &beside), 9);
}

/// A PDN connection with six inside, of which its bearer has two more: three levels.
#[test]
fn three_levels() {
    let bearer = format!("5D 00 1F 00 49 00 01 00 05 50 00 16 00 {}", "01".repeat(22));
    let inside = format!("47 00 01 00 61 4A 00 04 00 0A 01 02 03 49 00 01 00 05 57 00 05 00 0A 00 00 00 01 {bearer} 48 00 08 00 {}", "02".repeat(8));
    let context = message(131, &format!("02 00 02 00 10 00 69 00 02 00 11 22 6D 00 4A 00 {inside}"));
    assert_eq!(context.len(), 102);
    assert_eq!(number(4, &context), 11);
    assert_eq!([1, 2, 3].map(|kind| six(kind, &context)), [[21, 0, 0, 0, 0, 0]; 3]);
    // the innermost 80/0, at 64, claims an octet too many
    let mut broken = context.clone();
    broken[66] = 0x17;
    assert_eq!(six(4, &broken), [9, 67, 64, 0, 0, 0]);
    // 80/0 made a type that is not listed there: 12, and as many rows; 109/0 made a 93/0: not listed in the body, and not entered
    let mut other = context.clone();
    other[64] = 0x54;
    assert_eq!(number(4, &other), 11);
    other[24] = 0x5D;
    assert_eq!(number(4, &other), 3);
}

/// A quarter of what follows the shorter header.
fn quarter(length: usize) -> usize {
    length.saturating_sub(8) / 4
}

#[test]
fn the_quarter_is_reached() {
    assert_eq!([0, 7, 8, 11, 12, 4096].map(quarter), [0, 0, 0, 0, 1, 1022]);
    for count in [0, 1, 63, 64, 65, 255, 256, 257, 1021, 1022] {
        for typ in ["03", "C8", "FF", "5D"] {
            let empty = message(2, &format!("{typ} 00 00 00 ").repeat(count));
            assert_eq!(usize::from(number(4, &empty)), count);
            assert_eq!(quarter(empty.len()), count);
        }
    }
}

/// The fields of every line but comments and empty ones.
fn lines_of(file: &str) -> Vec<Vec<String>> {
    let text = std::fs::read_to_string(format!("{}/../samples/{file}", env!("CARGO_MANIFEST_DIR"))).expect("text");
    let lines = text.lines().filter(|line| !line.is_empty() && !line.starts_with('#'));
    lines.map(|line| line.split(' ').map(String::from).collect()).collect()
}

/// On its kind each sample has the rows that were counted by hand, or is refused as it was by hand.
#[test]
fn samples_as_counted() {
    let counted: BTreeMap<_, _> = lines_of("rows.txt").into_iter().map(|line| (line[0].clone(), line[1].parse().expect("a number"))).collect();
    let mut met = 0;
    for line in lines_of("expected.txt") {
        let [kind, five @ ..] = &line[1..].iter().map(|field| field.parse().expect("a number")).collect::<Vec<u16>>()[..] else { panic!("{line:?}") };
        let message = octets(&std::fs::read_to_string(format!("{}/../samples/{}.hex", env!("CARGO_MANIFEST_DIR"), line[0])).expect("a sample"));
        let expected = match (counted.get(&line[0]), five[0]) {
            (None, 1..=9 | OFF_KIND) => [five, &[0]].concat(),
            (Some(&rows), 0 | 11 | 12) => vec![0, 0, 0, 0, 0, rows],
            (counted, code) => panic!("{}: {code} and {counted:?}", line[0]),
        };
        assert_eq!(six((*kind).into(), &message)[..], expected, "{}", line[0]);
        met += usize::from(counted.contains_key(&line[0]));
    }
    assert_eq!(met, counted.len());
    assert!(met >= 65, "only {met} samples are counted");
}

/// Generated messages of every sort.
fn generated(seed: u64, count: usize) -> impl Iterator<Item = Case> {
    let mut generator = Generator::new(seed);
    (0..count).map(move |turn| match turn % 8 {
        0 | 1 => generator.damaged(),
        2 | 3 => generator.overload(),
        4 if turn % 80 == 4 => generator.at_limit(),
        _ => generator.case(),
    })
}

/// Each kind and others that are none, each with answers of 0 to 14 octets, which are compared whole.
#[test]
fn every_answer_on_every_kind() {
    const KINDS: [u32; 13] = [0, 1, 2, 3, 4, 5, 6, 255, 257, 260, 65_537, 1 << 31, u32::MAX];
    for (turn, mut case) in generated(2040, 5_000).enumerate() {
        let own = case.kind;
        for kind in [&KINDS[..], &[own]].concat() {
            case.kind = kind;
            for octets in 0..=14 {
                if let Some(what) = rows_difference(&case, octets) {
                    panic!("{what}\n{}", second::lines::case_line(&case));
                }
                let (before, mut answer) = (filled(octets, turn), filled(octets, turn));
                rows(kind, &case.message, &mut answer);
                let written = if octets < 12 { 0 } else { 12 };
                assert_eq!(answer[written..], before[written..]);
            }
        }
    }
}

/// Verdict, table and copy with a table of so many octets.
fn judged(case: &Case, table: usize) -> (Vec<u16>, Vec<u8>, Vec<u8>) {
    let (mut table, mut copy, mut five) = (vec![0; table], vec![0; case.message.len()], [0; 10]);
    judge_copy(case.kind, &case.message, &mut table, &mut copy, &mut five);
    (numbers(&five), table, copy)
}

/// Holds the number of one message to all that is promised of it; answers the judge's code with room enough.
fn held(case: &Case) -> u16 {
    let said = || second::lines::case_line(case);
    let [five @ .., rows] = six(case.kind, &case.message);
    let (found, table, copy) = judged(case, TABLE);
    let code = found[0];
    if matches!(code, 1..=9 | OFF_KIND) {
        assert_eq!((&five[..], rows), (&found[..], 0), "{}", said());
        return code;
    }
    assert_eq!(five, [0; 5], "{}", said());
    let quarter = quarter(case.message.len());
    assert!(usize::from(rows) <= quarter, "{rows}, {}", said());
    if code == 0 {
        assert_eq!(rows, numbers(&table)[0], "{}", said());
    }
    // so many numbers are enough and one less is not, nor is one octet less
    let octets = 12 + 12 * usize::from(rows);
    for lent in [octets, octets + 1, 12 + 12 * quarter] {
        assert_eq!(judged(case, lent).0, found, "{lent} octets, {}", said());
    }
    for lent in [octets - 1, octets - 2] {
        assert_eq!(judged(case, lent).0, [10, 0, 0, 0, 0], "{lent} octets, {}", said());
    }
    assert_eq!(judged(case, octets).1, table[..octets], "{}", said());
    assert_eq!(six(case.kind, &copy), [0, 0, 0, 0, 0, rows], "the copy, {}", said());
    code
}

/// Messages that see every figure, and generated ones.
#[test]
fn it_is_what_the_table_needs() {
    let mut codes = BTreeMap::new();
    for case in figures().into_iter().chain(generated(2041, 20_000)) {
        *codes.entry(held(&case)).or_insert(0) += 1;
    }
    for code in (0..=12).chain([OFF_KIND]).filter(|&code| code != 10) {
        assert!(codes.get(&code).is_some_and(|&count| count >= 100), "{codes:?}");
    }
}
