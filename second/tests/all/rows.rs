//! How many rows a message needs: examples worked out by hand, the number against the
//! judge's own table, tables that are never too short, and wrong counters, which the
//! gate's messages show.

use std::collections::BTreeMap;

use crate::support::{judge, mask, message, octets, verdict};
use second::generate::{figures, Case, Generator, ANSWERS, UNLIMITED};
use second::rules::Standing;
use second::walk::Row;
use second::{judge_copy, rows, rows_octets, Count, Verdict, DOCUMENT};

/// The six numbers.
fn six(kind: u32, message: &[u8]) -> [u16; 6] {
    rows(kind, message).numbers()
}

/// The number of a message that nothing refuses.
fn number(kind: u32, message: &[u8]) -> u16 {
    let [five @ .., rows] = six(kind, message);
    assert_eq!(five, [0; 5]);
    rows
}

#[test]
fn the_examples() {
    let d = octets("40 01 00 09 00 00 01 00 03 00 01 00 07");
    let g = octets("48 42 00 11 00 00 00 01 00 00 02 00 5D 00 05 00 49 00 01 00 05");
    // A to D.
    assert_eq!(six(1, &[]), [2, 0, 0, 0, 0, 0]);
    assert_eq!(six(1, &octets("60")), [3, 0, 0, 0, 0, 0]);
    assert_eq!(six(1, &octets("40")), [4, 0, 0, 0, 0, 0]);
    assert_eq!(number(1, &d), 1);
    assert_eq!(six(1, &d[..12]), [6, 67, 0, 0, 0, 0]);
    // E lacks its 3/0, and has no row; F's elements exchanged are 11.
    assert_eq!(number(1, &octets("40 01 00 04 00 00 01 00")), 0);
    assert_eq!(number(1, &message(1, "03 00 01 00 07 03 00 00 00")), 2);
    assert_eq!(number(1, &message(1, "03 00 00 00 03 00 01 00 07")), 2);
    // G; H, whose 96 is not entered; I, whose 93 is empty; J.
    assert_eq!(number(1, &g), 2);
    assert_eq!(number(1, &message(66, "60 00 05 00 49 00 01 00 05")), 1);
    assert_eq!(number(1, &message(66, "5D 00 00 00")), 1);
    let contexts = "5D 00 05 00 49 00 0A 00 05 5D 00 05 00 49 00 01 00 06";
    assert_eq!(six(1, &message(66, contexts)), [9, 67, 16, 0, 0, 0]);
    // K and L; M.
    let k = message(66, "5D 00 05 00 49 00 01 00 05 B4 00 00 01");
    assert_eq!([number(1, &k), number(3, &k)], [3, 3]);
    assert_eq!(
        number(1, &message(1, "03 00 01 00 07 C8 00 02 00 11 22")),
        2
    );
}

#[test]
fn refusals_have_zero_for_the_number() {
    let d = octets("40 01 00 09 00 00 01 00 03 00 01 00 07");
    let with = |at: usize, octet: u8| {
        let mut message = d.clone();
        message[at] = octet;
        message
    };
    for kind in [0, 5, 256, 257, u32::MAX] {
        assert_eq!(six(kind, &d), [1, 0, 0, 0, 0, 0]);
        assert_eq!(six(kind, &[]), [1, 0, 0, 0, 0, 0]);
    }
    let mut long = d.clone();
    long.resize(4097, 0);
    assert_eq!(six(1, &long), [2, 0, 0, 0, 0, 0]);
    assert_eq!(six(1, &with(0, 0x60)), [3, 0, 0, 0, 0, 0]);
    assert_eq!(six(1, &with(0, 0x50)), [5, 0, 0, 0, 0, 0]);
    assert_eq!(six(1, &with(3, 10)), [6, 67, 0, 0, 0, 0]);
    assert_eq!(six(1, &with(1, 3)), [7, 0, 0, 0, 0, 0]);
    assert_eq!(six(1, &with(1, 131)), [21, 0, 0, 0, 0, 0]);
    assert_eq!(six(4, &with(1, 66)), [21, 0, 0, 0, 0, 0]);
    assert_eq!(six(4, &with(1, 131)), [8, 0, 0, 0, 0, 0]);
    assert_eq!(six(1, &with(10, 2)), [9, 67, 8, 0, 0, 0]);
    // Rows before the break are not told.
    let broken = message(1, "03 00 01 00 07 C8 00 00 00 FF");
    assert_eq!(six(2, &broken), [9, 67, 17, 0, 0, 0]);
}

#[test]
fn what_lies_in_a_void_group_is_not_counted() {
    let body = "02 00 02 00 10 00 5D 00 0B 00 49 00 01 00 05 02 00 02 00 10 00";
    let report = |apns: usize, rest: &str| {
        let inside = format!("{}{rest}", "47 00 00 00 ".repeat(apns));
        let length = octets(&inside).len();
        message(67, &format!("{body} B4 00 {length:02X} 00 {inside}"))
    };
    // Four rows, the report, and its APNs while it stands; it lacks what it must have.
    for apns in 0..=10 {
        assert_eq!(usize::from(number(1, &report(apns, ""))), 5 + apns);
    }
    for apns in 11..=20 {
        assert_eq!(number(1, &report(apns, "")), 5);
        assert_eq!(number(3, &report(apns, "5D 00 05 00 49 00 01 00 05")), 5);
    }
    // A break in it is told, at 33 + 4 + 44.
    assert_eq!(six(1, &report(11, "FF")), [9, 67, 81, 0, 0, 0]);
}

#[test]
fn three_levels() {
    // 2/0; 109/0 with 71/0, a 93/0 with 73/0 and 200/0, and 93/1, which is one row;
    // 93/0 in the body.
    let inside = "47 00 00 00 5D 00 09 00 49 00 01 00 05 C8 00 00 00 5D 00 05 01 49 00 01 00 06";
    let whole = format!("02 00 02 00 10 00 6D 00 1A 00 {inside} 5D 00 05 00 49 00 01 00 07");
    let context = message(131, &whole);
    assert_eq!(number(4, &context), 8);
    assert_eq!(six(1, &context), [21, 0, 0, 0, 0, 0]);
    // It would be 11, for the empty 71/0.
    let mut table = [7; 54];
    assert_eq!(judge(4, &context, &mut table).code, 11);
    assert_eq!(judge(4, &context, &mut table[..53]).code, 10);
}

/// A quarter of what follows the shorter header.
fn quarter(length: usize) -> usize {
    match length {
        0..8 => 0,
        _ => (length - 8) / 4,
    }
}

#[test]
fn the_quarter_is_met_and_not_passed() {
    assert_eq!([0, 7, 8, 11, 12, 4096].map(quarter), [0, 0, 0, 0, 1, 1022]);
    for count in [1, 2, 63, 64, 65, 1021, 1022] {
        for typ in ["03", "93", "C8", "FF", "5D", "6D"] {
            let empty = message(2, &format!("{typ} 00 00 00 ").repeat(count));
            assert_eq!(usize::from(number(4, &empty)), count);
            assert_eq!(quarter(empty.len()), count);
        }
    }
}

/// The codes that leave no number.
fn is_refusal(code: u16) -> bool {
    matches!(code, 1..=9 | 21)
}

/// Holds the number of one message to all that is promised; answers the judge's code
/// with room enough.
fn assert_number(case: &Case) -> u16 {
    let Case { kind, message } = case;
    let count = rows(*kind, message);
    let judge_in = |numbers: usize| {
        let (mut table, mut copy) = (vec![0; numbers], vec![0; message.len()]);
        let verdict = judge_copy(*kind, message, &mut table, &mut copy);
        (verdict, table, copy)
    };
    let (found, table, copy) = judge_in(6 + 6 * 1022);
    if is_refusal(found.code) {
        assert_eq!(count, Count::refused(found), "{case:?}");
    } else {
        assert_eq!(count.verdict, Verdict::ACCEPTED, "{case:?}");
    }
    let number = usize::from(count.rows);
    if found.accepted() {
        assert_eq!(count.rows, table[0], "{case:?}");
    }
    assert!(number <= quarter(message.len()), "{case:?}");
    // So many numbers are enough, also where 11 or 12 is given, and one less is not.
    for rows in [number, quarter(message.len())] {
        assert_eq!(judge_in(6 + 6 * rows).0, found, "{case:?}");
    }
    let one_less = judge_in(5 + 6 * number).0;
    match is_refusal(found.code) {
        true => assert_eq!(one_less, found),
        false => assert_eq!(one_less, verdict([10, 0, 0, 0, 0]), "{case:?}"),
    }
    // The copy has as many.
    if !is_refusal(found.code) {
        assert_eq!(rows(*kind, &copy), count, "{case:?}");
    }
    found.code
}

#[test]
fn the_number_is_that_of_the_table() {
    let mut codes = BTreeMap::new();
    let mut generator = Generator::new(97);
    let overloads = (0..6_000).map(|_| generator.overload());
    let mut at_limits = Generator::new(98);
    let limits = (0..300).map(|_| at_limits.at_limit());
    let mix = Generator::new(96).take(20_000);
    let cases = figures().into_iter().chain(overloads);
    for case in cases.chain(limits).chain(mix) {
        *codes.entry(assert_number(&case)).or_insert(0) += 1;
    }
    println!("{codes:?}");
    let met = (0..=12).chain([21]).filter(|&code| code != 10);
    assert_eq!(
        codes.keys().copied().collect::<Vec<_>>(),
        met.collect::<Vec<_>>()
    );
    assert!(codes.values().all(|&count| count >= 100), "{codes:?}");
}

#[test]
fn a_copy_has_the_number_of_its_message() {
    for case in Generator::new(99).take(10_000) {
        let mut copy = vec![0; case.message.len()];
        if matches!(mask(case.kind, &case.message, &mut copy).code, 0 | 11 | 12) {
            assert_eq!(rows(case.kind, &copy), rows(case.kind, &case.message));
        }
    }
}

#[test]
fn twelve_octets() {
    let m = octets("40 01 00 0F 00 00 01 00 03 00 01 00 07 C8 00 02 00 11 22");
    let mut answer = [0xEE; 15];
    assert_eq!(rows_octets(1, &m, &mut answer), 0);
    assert_eq!(
        answer[..],
        octets("00 00 00 00 00 00 00 00 00 00 00 02 EE EE EE")
    );
    let mut answer = [0xEE; 12];
    assert_eq!(rows_octets(1, &m[..18], &mut answer), 6);
    assert_eq!(answer[..], octets("00 06 00 43 00 00 00 00 00 00 00 00"));
    let mut answer = [0xEE; 11];
    assert_eq!(rows_octets(1, &m, &mut answer), 0);
    assert_eq!(rows_octets(257, &m, &mut answer), 1);
    assert_eq!(answer, [0xEE; 11]);
    assert_eq!(rows_octets(1, &m, &mut []), 0);
    // 1,022 rows: both octets of the number.
    let most = message(1, &"C8 00 00 00 ".repeat(1022));
    let mut answer = [0xEE; 12];
    assert_eq!(rows_octets(1, &most, &mut answer), 0);
    assert_eq!(answer[10..], [0x03, 0xFE]);
}

#[test]
fn rows_octets_agrees_with_rows() {
    for case in Generator::new(100).take(10_000) {
        let count = rows(case.kind, &case.message);
        for length in ANSWERS {
            let mut answer = vec![0xEE; length];
            let code = rows_octets(case.kind, &case.message, &mut answer);
            assert_eq!(code, count.verdict.code);
            let mut expected = vec![0xEE; length];
            if length >= 12 {
                let numbers = count.numbers().map(u16::to_be_bytes);
                expected[..12].copy_from_slice(numbers.as_flattened());
            }
            assert_eq!(answer, expected);
        }
    }
}

/// What a counter may have wrong.
#[derive(Debug, Clone, Copy, PartialEq, Eq)]
enum Wrong {
    Nothing,
    KeptAlone,
    UnexpectedNotCounted,
    RepeatedNotCounted,
    ShortNotCounted,
    VoidNotCounted,
    InsideOfVoid,
    /// Only the body's elements; only those of two levels.
    BodyAlone,
    TwoLevels,
    /// Groups that are not kept are entered too, by their types.
    EveryGroupEntered,
    GroupsNotCounted,
    /// 11 and 12 are told; told with the number.
    ShortTold,
    MissingTold,
    ToldWithNumber,
    /// The rows before a break are told.
    BeforeTheBreak,
    /// The quarter in place of the number.
    Quarter,
    /// The number cut to an octet.
    Cut,
    /// The numbers of a table in place of the rows.
    Numbers,
}

use Wrong::*;

const ALL: [Wrong; 17] = [
    KeptAlone,
    UnexpectedNotCounted,
    RepeatedNotCounted,
    ShortNotCounted,
    VoidNotCounted,
    InsideOfVoid,
    BodyAlone,
    TwoLevels,
    EveryGroupEntered,
    GroupsNotCounted,
    ShortTold,
    MissingTold,
    ToldWithNumber,
    BeforeTheBreak,
    Quarter,
    Cut,
    Numbers,
];

/// How deep a row lies; 0 in the body.
fn depth(rows: &[Row], row: &Row) -> usize {
    match usize::from(row.parent).checked_sub(1) {
        None => 0,
        Some(parent) => 1 + depth(rows, &rows[parent]),
    }
}

/// Elements that lie in this one if it is a group, whatever its standing.
fn inside(message: &[u8], row: &Row) -> usize {
    let (mut at, end) = (usize::from(row.place), usize::from(row.place + row.length));
    let mut count = 0;
    while at + 4 <= end {
        count += 1;
        at += 4 + usize::from(u16::from_be_bytes([message[at + 1], message[at + 2]]));
    }
    count
}

/// The count from the rows of the judge's walk, with something wrong.
fn by_rows(case: &Case, wrong: Wrong) -> Count {
    let Case { kind, message } = case;
    let mut table = vec![0; 6 + 6 * 1022];
    let judged = judge(*kind, message, &mut table);
    let found = match wrong {
        InsideOfVoid => UNLIMITED.rows(*kind, message),
        _ => DOCUMENT.rows(*kind, message),
    };
    let found = match found {
        Ok(found) => found,
        Err(refusal) => {
            let before = (refusal.place / 8) * u16::from(wrong == BeforeTheBreak);
            return Count {
                verdict: refusal,
                rows: before,
            };
        }
    };
    let is_group = |row: &Row| matches!(row.typ, 93 | 109 | 180);
    let counts = |row: &&Row| match wrong {
        KeptAlone => row.standing == Standing::Kept,
        UnexpectedNotCounted => row.standing != Standing::Unexpected,
        RepeatedNotCounted => row.standing != Standing::Repeated,
        ShortNotCounted => row.standing != Standing::Short,
        VoidNotCounted => row.standing != Standing::Void,
        BodyAlone => row.parent == 0,
        TwoLevels => depth(&found, row) < 2,
        GroupsNotCounted => !is_group(row),
        _ => true,
    };
    let mut number = found.iter().filter(counts).count();
    match wrong {
        EveryGroupEntered => {
            let others = found.iter().filter(|row| row.standing != Standing::Kept);
            let others = others.filter(|row| is_group(row));
            number += others.map(|row| inside(message, row)).sum::<usize>();
        }
        Quarter => number = quarter(message.len()),
        Cut => number &= 0xFF,
        Numbers => number = 6 + 6 * number,
        _ => {}
    }
    match (wrong, judged.code) {
        (ShortTold, 11) | (MissingTold, 12) => Count::refused(judged),
        (ToldWithNumber, 11 | 12) => Count {
            verdict: judged,
            rows: number as u16,
        },
        _ => Count {
            verdict: Verdict::ACCEPTED,
            rows: number as u16,
        },
    }
}

#[test]
fn wrong_counters_are_seen() {
    let mut seen = [0; ALL.len()];
    for case in figures() {
        let right = rows(case.kind, &case.message);
        assert_eq!(by_rows(&case, Nothing), right, "{case:?}");
        for (seen, wrong) in seen.iter_mut().zip(ALL) {
            if *seen < 1_000 {
                *seen += usize::from(by_rows(&case, wrong) != right);
            }
        }
    }
    let named = ALL.iter().zip(seen).collect::<Vec<_>>();
    println!("{named:?}");
    assert!(seen.iter().all(|&seen| seen >= 10), "{named:?}");
}
