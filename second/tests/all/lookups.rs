//! The desk's lookup and the plain lookup: examples worked out by hand, the rule
//! once more number by number, and wrong lookups, which the gate's lookups show.

use std::collections::BTreeMap;

use crate::support::{mask, message, octets, table};
use second::generate::{hostile_tables, Ask, Generator, Lookup};
use second::{desk, desk_found, plain, plain_found, DOCUMENT};

const G: &str = "48 42 00 11 00 00 00 01 00 00 02 00 5D 00 05 00 49 00 01 00 05";

#[test]
fn desk_reads_g() {
    let message = octets(G);
    let table = table(1, &message);
    let copy = vec![0xEE; message.len()];
    assert_eq!(desk(1, 0, true, &message, &copy, &table), &message[16..21]);
    assert_eq!(desk(1, 1, true, &message, &copy, &table), [5]);
    assert_eq!(desk(1, 1, false, &message, &copy, &table), [0xEE]);
    assert!(desk_found(1, 1, false, &message, &copy, &table));
    for row in [2, 3, 65_535, usize::MAX] {
        assert_eq!(desk(1, row, true, &message, &copy, &table), []);
        assert!(!desk_found(1, row, true, &message, &copy, &table));
    }
}

#[test]
fn desk_wants_equal_lengths_for_both_rights() {
    let message = octets(G);
    let table = table(1, &message);
    for copy in [vec![0; message.len() - 1], vec![0; message.len() + 1]] {
        assert!(!desk_found(1, 1, true, &message, &copy, &table));
        assert!(!desk_found(1, 1, false, &message, &copy, &table));
    }
}

#[test]
fn desk_shows_every_standing() {
    let message = message(
        1,
        "03 00 01 00 07 03 00 01 00 08 C8 00 01 00 09 FF 00 01 00 0A",
    );
    let table = table(1, &message);
    let mut copy = vec![0; message.len()];
    mask(1, &message, &mut copy);
    for (row, value) in [7, 8, 9, 10].into_iter().enumerate() {
        assert_eq!(desk(1, row, true, &message, &copy, &table), [value]);
        let shown = if value == 7 { 7 } else { 0 };
        assert_eq!(desk(1, row, false, &message, &copy, &table), [shown]);
    }
}

#[test]
fn plain_reads_kept_rows_of_the_message_alone() {
    let message = octets(G);
    let table = table(1, &message);
    assert_eq!(plain(1, 93, 0, &message, &table), &message[16..21]);
    // 73/0 has parent 1, 93/1 is not there.
    for (typ, inst) in [(73, 0), (93, 1), (349, 0), (93, 256)] {
        assert_eq!(plain(1, typ, inst, &message, &table), []);
        assert!(!plain_found(1, typ, inst, &message, &table));
    }
}

#[test]
fn plain_takes_the_first_kept_row() {
    let message = message(
        2,
        "03 00 01 00 07 FF 00 01 00 01 FF 00 02 00 02 03 FF 00 02 00 04 05",
    );
    let table = table(1, &message);
    assert_eq!(plain(1, 255, 0, &message, &table), [2, 3]);
    // The rows of standing 1 to 4 are not looked up.
    for standing in 1..=4 {
        let table = [1, 0, 6, 12, 2, 1, 0, 3, 0, 12, 1, standing];
        assert!(!plain_found(1, 3, 0, &message, &table));
        assert!(desk_found(1, 0, true, &message, &message, &table));
    }
}

/// Do both lookups answer the first row of a table, which is 73/0, with a part?
fn found(kind: u32, message: &[u8], table: &[u16]) -> bool {
    let by_plain = plain_found(kind, 73, 0, message, table);
    for right in [false, true] {
        let by_desk = desk_found(kind, 0, right, message, message, table);
        assert_eq!(by_desk, by_plain, "{table:?}");
    }
    by_plain
}

/// A table of one row, of G's type on kind 1.
fn one(place: u16, length: u16) -> [u16; 12] {
    [1, 1, 6, 12, 66, 1, 0, 73, 0, place, length, 0]
}

fn with(mut table: [u16; 12], at: usize, number: u16) -> [u16; 12] {
    table[at] = number;
    table
}

#[test]
fn hostile_tables_answer_by_the_rule_alone() {
    let message = octets(G);
    let end = message.len() as u16;
    let found = |table: &[u16]| found(1, &message, table);
    for table in [
        &[][..],
        &[0],
        &[1, 1, 6],
        &[0, 0, 6, 6, 66],
        &[0, 0, 6, 6, 66, 1],
    ] {
        assert!(!found(table));
    }
    assert!(found(&one(0, end)));
    assert!(found(&one(end, 0)));
    assert!(!found(&one(end + 1, 0)));
    assert!(!found(&one(0, end + 1)));
    assert!(!found(&one(end, 1)));
    assert!(!found(&one(u16::MAX, u16::MAX)));
    assert!(!found(&one(0, 1)[..11]));
    assert!(found(&[&one(0, 1)[..], &[9, 9, 9]].concat()));
    assert!(!found(&with(one(0, 1), 0, u16::MAX)));
}

#[test]
fn a_header_must_agree_with_itself() {
    let message = octets(G);
    let table = one(20, 1);
    assert!(found(1, &message, &table));
    // Rows, kept rows, place of the first and numbers used, by one, by six and by
    // an octet; also with numbers enough for another row.
    for at in 0..4 {
        for by in [1, 2, 6, 256, u16::MAX, u16::MAX - 1] {
            let other = with(table, at, table[at].wrapping_add(by));
            assert!(!found(1, &message, &other), "{at} by {by}");
            let longer = [&other[..], &[0, 73, 0, 20, 1, 0]].concat();
            assert!(!found(1, &message, &longer), "{at} by {by}");
        }
    }
    // Rows and numbers used agree, and the second row is kept or is not.
    let two = |kept, standing| {
        let header = [2, kept, 6, 18, 66, 1];
        [header, [0, 73, 0, 20, 1, 0], [0, 73, 0, 20, 1, standing]].concat()
    };
    assert!(found(1, &message, &two(2, 0)));
    assert!(!found(1, &message, &two(1, 0)));
    for standing in [1, 2, 3, 4, 256, u16::MAX] {
        assert!(found(1, &message, &two(1, standing)));
        assert!(!found(1, &message, &two(2, standing)));
    }
}

#[test]
fn the_kind_is_only_compared() {
    let message = octets(G);
    for kind in [0, 1, 2, 3, 4, 5, 257, u16::MAX] {
        let table = with(one(20, 1), 5, kind);
        assert!(found(kind.into(), &message, &table));
        let own = u32::from(kind);
        for other in [own + 1, own ^ 2, own + 256, own + 65_536, own | 1 << 31] {
            assert!(!found(other, &message, &table), "{other} for {kind}");
        }
    }
    // An S4 table laid over an S11 message.
    let of_s4 = table(2, &message);
    assert!(!plain_found(1, 93, 0, &message, &of_s4));
    assert!(plain_found(2, 93, 0, &message, &of_s4));
}

#[test]
fn the_type_is_octet_1_of_the_message() {
    let message = octets(G);
    for typ in [1, 67, 65, 0, 256 + 66, u16::MAX] {
        assert!(!found(1, &message, &with(one(20, 1), 4, typ)), "{typ}");
    }
    // It is only compared, listed or not, and octets 0 and 2 are others.
    for typ in 0..=255 {
        let mut message = message.clone();
        message[1] = typ;
        assert!(found(1, &message, &with(one(20, 1), 4, typ.into())));
        assert_eq!(found(1, &message, &one(20, 1)), typ == 66);
    }
    // No octet 1, though the part would lie there, and whatever type is told.
    for message in [&[][..], &[66]] {
        for typ in [0, 66] {
            let table = with(one(0, message.len() as u16), 4, typ);
            assert!(!found(1, message, &table));
        }
    }
    // With two octets there is one.
    assert!(found(1, &[0, 66], &one(0, 2)));
}

#[test]
fn the_type_of_the_copy_does_not_matter() {
    let message = octets(G);
    let mut other = message.clone();
    other[1] = 1;
    let table = table(1, &message);
    for right in [false, true] {
        assert!(desk_found(1, 1, right, &message, &other, &table));
        assert!(!desk_found(1, 1, right, &other, &message, &table));
    }
}

#[test]
fn a_table_with_a_header_of_four_answers_nothing() {
    let message = octets(G);
    let old = [
        2, 2, 4, 16, 0, 93, 0, 16, 5, 0, 1, 73, 0, 20, 1, 0, 0, 0, 0, 0,
    ];
    for length in 16..=20 {
        // Its first row would tell type 0 and kind 93.
        for (kind, octet) in [(1, 66), (1, 0), (93, 0)] {
            let mut message = message.clone();
            message[1] = octet;
            for row in 0..3 {
                assert!(!desk_found(
                    kind,
                    row,
                    true,
                    &message,
                    &message,
                    &old[..length]
                ));
            }
            assert!(!plain_found(kind, 93, 0, &message, &old[..length]));
        }
    }
}

#[test]
fn the_largest_table_has_10921_rows() {
    // 6 + 6 * 10,921 is 65,532; one row more is 65,538, which 16 bits cannot say.
    let message = octets(G);
    let of = |rows: u16, used: u16| {
        let mut table = vec![0; 6 + 6 * usize::from(rows)];
        table[..6].copy_from_slice(&[rows, rows, 6, used, 66, 1]);
        let last = table.len() - 6;
        table[last..].copy_from_slice(&[0, 73, 0, 20, 1, 0]);
        table
    };
    let mut table = of(10_921, 65_532);
    assert_eq!(desk(1, 10_920, true, &message, &message, &table), [5]);
    assert!(!desk_found(1, 10_921, true, &message, &message, &table));
    assert_eq!(plain(1, 73, 0, &message, &table), [5]);
    table.pop();
    assert!(!desk_found(1, 0, true, &message, &message, &table));
    assert!(!plain_found(1, 73, 0, &message, &table));
    for (rows, used) in [
        (10_922, 2),
        (10_922, 65_535),
        (65_535, 0),
        (65_535, u16::MAX),
    ] {
        let table = of(rows, used);
        assert!(!desk_found(1, 0, true, &message, &message, &table));
        assert!(!plain_found(1, 73, 0, &message, &table));
    }
}

#[test]
fn the_first_row_of_the_pair_decides() {
    let message = octets(G);
    let table = [2, 2, 6, 18, 66, 1, 0, 73, 0, 21, 1, 0, 0, 73, 0, 20, 1, 0];
    assert!(!plain_found(1, 73, 0, &message, &table));
    assert!(desk_found(1, 1, true, &message, &message, &table));
}

/// What a lookup may get wrong that is no figure of the rules.
#[derive(Debug, Clone, Copy, PartialEq, Eq)]
enum Wrong {
    Nothing,
    KindNotCompared,
    /// The told kind cut to 16 bits, and the table's to an octet.
    ToldKindCut,
    KindCut,
    /// A kind that there is not is answered with nothing.
    KindTested,
    TypeNotCompared,
    TypeFromTheCopy,
    TypeCut,
    /// A type that is not listed is answered with nothing.
    TypeTested,
    /// Where there is no octet 1, the type is not compared.
    NoOctetIsAny,
    NoOctetIsZero,
    KeptNotTested,
    KeptAtMostTheRows,
    FirstNotTested,
    UsedNotTested,
    UsedAtMostTheTable,
    /// A table of four numbers is long enough for its header.
    LengthOfOld,
}

const WRONG: [Wrong; 16] = [
    Wrong::KindNotCompared,
    Wrong::ToldKindCut,
    Wrong::KindCut,
    Wrong::KindTested,
    Wrong::TypeNotCompared,
    Wrong::TypeFromTheCopy,
    Wrong::TypeCut,
    Wrong::TypeTested,
    Wrong::NoOctetIsAny,
    Wrong::NoOctetIsZero,
    Wrong::KeptNotTested,
    Wrong::KeptAtMostTheRows,
    Wrong::FirstNotTested,
    Wrong::UsedNotTested,
    Wrong::UsedAtMostTheTable,
    Wrong::LengthOfOld,
];

/// The number at that place, 0 past the end.
fn number(lookup: &Lookup, at: u64) -> u64 {
    let number = lookup.table.get(at as usize);
    number.map_or(0, |&number| number.into())
}

/// Does the header agree with itself?
fn agrees(lookup: &Lookup, wrong: Wrong) -> bool {
    let number = |at: u64| number(lookup, at);
    let [rows, kept, first, used] = [0, 1, 2, 3].map(number);
    let counted = (0..rows).filter(|row| number(6 + 6 * row + 5) == 0).count() as u64;
    let kept_agree = match wrong {
        Wrong::KeptNotTested => true,
        Wrong::KeptAtMostTheRows => kept <= rows,
        _ => kept == counted,
    };
    let used_agree = match wrong {
        Wrong::UsedNotTested => true,
        Wrong::UsedAtMostTheTable => used <= lookup.table.len() as u64,
        _ => used == 6 + 6 * rows,
    };
    kept_agree && used_agree && (first == 6 || wrong == Wrong::FirstNotTested)
}

/// Is the table one of the kind told?
fn is_of_kind(lookup: &Lookup, wrong: Wrong) -> bool {
    let (told, own) = (u64::from(lookup.kind), number(lookup, 5));
    match wrong {
        Wrong::KindNotCompared => true,
        Wrong::ToldKindCut => told & 0xFFFF == own,
        Wrong::KindCut => told == own & 0xFF,
        Wrong::KindTested => told == own && (1..=4).contains(&told),
        _ => told == own,
    }
}

/// Is it one of the message's type?
fn is_of_type(lookup: &Lookup, wrong: Wrong) -> bool {
    let buffer = match (wrong, lookup.ask) {
        (Wrong::TypeFromTheCopy, Ask::Desk { .. }) => &lookup.copy,
        _ => &lookup.message,
    };
    let own = number(lookup, 4);
    match (wrong, buffer.get(1)) {
        (Wrong::TypeNotCompared, Some(_)) | (Wrong::NoOctetIsAny, None) => true,
        (Wrong::NoOctetIsZero, None) => own == 0,
        (_, None) => false,
        (Wrong::TypeCut, Some(&typ)) => own & 0xFF == u64::from(typ),
        (Wrong::TypeTested, Some(&typ)) => {
            own == u64::from(typ) && DOCUMENT.message_of(typ).is_some()
        }
        (_, Some(&typ)) => own == u64::from(typ),
    }
}

/// Every reason for the empty part that comes before any row is looked for.
fn reasons(lookup: &Lookup, wrong: Wrong) -> Vec<&'static str> {
    let header = if wrong == Wrong::LengthOfOld { 4 } else { 6 };
    let length = lookup.table.len() as u64;
    if length < header || length < header + 6 * number(lookup, 0) {
        return vec!["table"];
    }
    let mut reasons = Vec::new();
    if !agrees(lookup, wrong) {
        reasons.push("header");
    }
    if !is_of_kind(lookup, wrong) {
        reasons.push("kind");
    }
    if !is_of_type(lookup, wrong) {
        reasons.push("type");
    }
    reasons
}

/// The row that is asked for, if it is there, and the buffer that it is read in.
fn asked(lookup: &Lookup) -> Option<(u64, &[u8])> {
    let number = |at: u64| number(lookup, at);
    match lookup.ask {
        Ask::Plain { typ, inst } => {
            let wanted = [(0, 0), (1, typ), (2, inst), (5, 0)];
            let is_wanted = |row: &u64| {
                let mut wanted = wanted.iter();
                wanted.all(|&(at, value)| number(6 + 6 * row + at) == u64::from(value))
            };
            Some(((0..number(0)).find(is_wanted)?, &lookup.message))
        }
        Ask::Desk { row, right } => {
            let equal = lookup.message.len() == lookup.copy.len();
            let buffer = if right { &lookup.message } else { &lookup.copy };
            (equal && (row as u64) < number(0)).then_some((row as u64, buffer))
        }
    }
}

/// The part of the row that is asked for, whatever the header says.
fn part(lookup: &Lookup) -> Option<&[u8]> {
    let (row, buffer) = asked(lookup)?;
    let place = number(lookup, 6 + 6 * row + 3);
    let end = place + number(lookup, 6 + 6 * row + 4);
    (end <= buffer.len() as u64).then(|| &buffer[place as usize..end as usize])
}

/// The rule once more, number by number.
fn by_the_rule(lookup: &Lookup, wrong: Wrong) -> Option<&[u8]> {
    match reasons(lookup, wrong)[..] {
        [] => part(lookup),
        _ => None,
    }
}

#[test]
fn random_lookups_follow_the_rule() {
    let mut generator = Generator::new(21);
    let mut found = 0;
    for _ in 0..20_000 {
        let lookup = generator.lookup();
        let expected = by_the_rule(&lookup, Wrong::Nothing);
        assert_eq!(lookup.answer(&DOCUMENT), expected, "{lookup:?}");
        found += usize::from(expected.is_some());
        let Lookup {
            kind,
            message,
            copy,
            table,
            ..
        } = &lookup;
        let (part, yes) = match lookup.ask {
            Ask::Plain { typ, inst } => (
                plain(*kind, typ, inst, message, table),
                plain_found(*kind, typ, inst, message, table),
            ),
            Ask::Desk { row, right } => (
                desk(*kind, row, right, message, copy, table),
                desk_found(*kind, row, right, message, copy, table),
            ),
        };
        assert_eq!(
            (part, yes),
            (expected.unwrap_or_default(), expected.is_some())
        );
    }
    assert!((4_000..16_000).contains(&found), "{found}");
}

/// The gate's lookups, with the seed and the count of .ci/lookups.
fn of_the_gate() -> impl Iterator<Item = Lookup> {
    let mut generator = Generator::new(1);
    (0..20_000).map(move |_| generator.lookup())
}

#[test]
fn wrong_lookups_are_seen() {
    let mut seen = [0; WRONG.len()];
    for lookup in of_the_gate() {
        let right = by_the_rule(&lookup, Wrong::Nothing);
        for (seen, wrong) in seen.iter_mut().zip(WRONG) {
            *seen += usize::from(by_the_rule(&lookup, wrong) != right);
        }
    }
    let seen = WRONG.iter().zip(seen).collect::<Vec<_>>();
    println!("{seen:?}");
    assert!(seen.iter().all(|&(_, seen)| seen >= 50), "{seen:?}");
}

#[test]
fn hostile_tables_are_met_with_every_ask() {
    let message = octets(G);
    for table in hostile_tables(1, &message) {
        let asks = [0, 1, 65_534, 65_535, usize::MAX].map(|row| Ask::Desk { row, right: true });
        let plain = Ask::Plain { typ: 73, inst: 0 };
        for ask in asks.into_iter().chain([plain]) {
            let lookup = Lookup {
                kind: 1,
                ask,
                message: message.clone(),
                copy: message.clone(),
                table: table.clone(),
            };
            let expected = by_the_rule(&lookup, Wrong::Nothing);
            assert_eq!(lookup.answer(&DOCUMENT), expected, "{lookup:?}");
        }
    }
}

/// How a header that does not agree with itself differs from one that does.
fn disagreement(lookup: &Lookup) -> Vec<&'static str> {
    let [rows, _, first, used] = [0, 1, 2, 3].map(|at| number(lookup, at));
    let mut ways = Vec::new();
    if agrees(lookup, Wrong::KeptNotTested) {
        ways.push("kept rows");
    }
    if agrees(lookup, Wrong::FirstNotTested) {
        ways.push(if first == 4 {
            "first place 4"
        } else {
            "first place"
        });
    }
    if agrees(lookup, Wrong::UsedNotTested) {
        ways.push(match used as i64 - 6 * rows as i64 {
            0 => "one row more than the numbers used",
            12 => "one row less than the numbers used",
            4 => "numbers used after a header of four",
            _ => "numbers used",
        });
    }
    if first == 4 && used == 4 + 6 * rows {
        ways.push("both numbers of a header of four");
    }
    ways
}

/// How the kind told and the table's own differ.
fn kinds(lookup: &Lookup) -> &'static str {
    let (told, own) = (u64::from(lookup.kind), number(lookup, 5));
    match (told, own) {
        _ if told & 0xFFFF == own => "kind told that is the table's once cut",
        _ if told == own & 0xFF => "kind of the table that is the one told once cut",
        (1..=4, 1..=4) => "table of another kind",
        (1..=4, _) => "table of no kind",
        _ => "no kind told",
    }
}

/// How the message's type and the table's own differ.
fn types(lookup: &Lookup) -> &'static str {
    let own = number(lookup, 4);
    let of_copy = lookup.copy.get(1).map(|&typ| u64::from(typ));
    match lookup.message[..] {
        [] => "no octet at all",
        [_] => "no octet 1",
        [_, typ, ..] if own & 0xFF == u64::from(typ) => "type of the table that is right once cut",
        _ if of_copy == Some(own) && matches!(lookup.ask, Ask::Desk { .. }) => {
            "type of the copy and not of the message"
        }
        _ if DOCUMENT
            .messages
            .iter()
            .any(|message| own == message.typ.into()) =>
        {
            "table of another type"
        }
        _ => "table of no type",
    }
}

/// What is unusual in a lookup that is answered with a part.
fn answered(lookup: &Lookup) -> Vec<&'static str> {
    let mut ways = vec!["part"];
    if !(1..=4).contains(&lookup.kind) {
        ways.push("part on no kind");
    }
    let typ = lookup.message[1];
    if DOCUMENT.message_of(typ).is_none() {
        ways.push("part of a message of no type");
    }
    if let Ask::Desk { right, .. } = lookup.ask {
        let other_copy = lookup.copy[1] != typ;
        ways.extend(
            (other_copy && right).then_some("part of the message, another type in the copy"),
        );
        ways.extend((other_copy && !right).then_some("part of the copy, another type in it"));
    }
    let rows = number(lookup, 0);
    let not_kept = number(lookup, 1) < rows;
    ways.extend(not_kept.then_some("part by a table with rows set aside"));
    ways
}

/// What is met in a lookup: where it has a part but for one reason, that reason.
fn met(lookup: &Lookup) -> Vec<&'static str> {
    let part = part(lookup).is_some();
    match reasons(lookup, Wrong::Nothing)[..] {
        [] if part => answered(lookup),
        ["header"] if part => disagreement(lookup),
        ["kind"] if part => vec![kinds(lookup)],
        ["type"] if part => vec![types(lookup)],
        ["table"] => match number(lookup, 2) == 4 && number(lookup, 3) == 4 + 6 * number(lookup, 0)
        {
            true => vec!["short table with a header of four"],
            false => vec!["short table"],
        },
        [_, _, ..] if number(lookup, 2) == 4 => vec!["table with a header of four"],
        _ => Vec::new(),
    }
}

/// Every way to be a table of something else, alone: but for it there would be a
/// part. And what must not matter.
#[test]
fn every_disagreement_is_met() {
    let wanted = [
        "part",
        "part on no kind",
        "part of a message of no type",
        "part of the message, another type in the copy",
        "part of the copy, another type in it",
        "part by a table with rows set aside",
        "kept rows",
        "first place",
        "first place 4",
        "one row more than the numbers used",
        "one row less than the numbers used",
        "numbers used",
        "numbers used after a header of four",
        "both numbers of a header of four",
        "kind told that is the table's once cut",
        "kind of the table that is the one told once cut",
        "table of another kind",
        "table of no kind",
        "no kind told",
        "no octet at all",
        "no octet 1",
        "type of the table that is right once cut",
        "type of the copy and not of the message",
        "table of another type",
        "table of no type",
        "short table",
        "short table with a header of four",
        "table with a header of four",
    ];
    let mut counts = BTreeMap::from(wanted.map(|name| (name, 0)));
    for lookup in of_the_gate() {
        for name in met(&lookup) {
            *counts.get_mut(name).expect("a name above") += 1;
        }
    }
    println!("{counts:#?}");
    let rare = counts.iter().filter(|(_, &count)| count < 50);
    assert_eq!(rare.count(), 0, "{counts:#?}");
}
