//! The builder: examples worked out by hand, its rule once more word by word,
//! what is promised of it, and wrong builders, which the gate's builds show.

use std::collections::{BTreeMap, BTreeSet};

use crate::support::{judged, message, octets, rows, table, verdict};
use second::generate::{builds, Build, Generator, ANSWERS};
use second::{build, build_octets, Answer, Head, Verdict, DOCUMENT};

const UNTOUCHED: u8 = 0xEE;
const D: &str = "40 01 00 09 00 00 01 00 03 00 01 00 07";
const G: &str = "48 42 00 11 00 00 00 01 00 00 02 00 5D 00 05 00 49 00 01 00 05";
const G_TABLE: [u16; 18] = [2, 2, 6, 18, 66, 1, 0, 93, 0, 16, 5, 0, 1, 73, 0, 20, 1, 0];
const OF_G: Head = Head {
    teid: 1,
    sequence: 2,
};

/// The answer, and the room after it.
fn built_in(what: &Build, length: usize) -> (Answer, Vec<u8>) {
    let mut room = vec![UNTOUCHED; length];
    let answer = build(what.head, &what.table, &what.values, &mut room);
    (answer, room)
}

/// The message that is built in a room with three octets to spare.
fn built(head: Head, table: &[u16], values: &[u8]) -> Vec<u8> {
    let mut room = vec![UNTOUCHED; 4_099];
    let answer = build(head, table, values, &mut room);
    assert_eq!(answer.verdict, Verdict::ACCEPTED);
    let past = room.split_off(usize::from(answer.length));
    assert!(past.iter().all(|&octet| octet == UNTOUCHED));
    room
}

/// The code of what is built of these rows in a large room.
fn code(head: Head, table: &[u16], values: &[u8]) -> u16 {
    let mut room = vec![UNTOUCHED; 5_000];
    let answer = build(head, table, values, &mut room);
    let code = answer.verdict.code;
    if code != 0 {
        assert_eq!(answer, Answer::refused(verdict([code, 0, 0, 0, 0])));
        assert!(room.iter().all(|&octet| octet == UNTOUCHED));
    }
    code
}

/// A table of these rows with its header.
fn table_of(typ: u16, kind: u16, rows: &[[u16; 6]]) -> Vec<u16> {
    let count = rows.len() as u16;
    let kept = rows.iter().filter(|row| row[5] == 0).count() as u16;
    let header = [count, kept, 6, 6 + 6 * count, typ, kind];
    [&header[..], rows.as_flattened()].concat()
}

#[test]
fn d_and_g_come_back() {
    // Types 1 and 2 carry no TEID, whatever is given.
    let of_d = Head {
        teid: u32::MAX,
        sequence: 1,
    };
    let d = octets(D);
    let of_type = |typ| [1, 1, 6, 12, typ, 1, 0, 3, 0, 12, 1, 0];
    assert_eq!(built(of_d, &of_type(1), &d), d);
    let mut two = d.clone();
    two[1] = 2;
    assert_eq!(built(of_d, &of_type(2), &d), two);
    let g = octets(G);
    assert_eq!(built(OF_G, &G_TABLE, &g), g);
}

#[test]
fn a_group_has_the_length_of_its_rows() {
    // Place and length of 93/0 mean nothing; 73/0 is the first octet of one.
    let group = [0, 93, 0, 9_999, 9_999, 0];
    let table = table_of(66, 1, &[group, [1, 73, 0, 0, 1, 0]]);
    assert_eq!(built(OF_G, &table, &[5]), octets(G));
}

#[test]
fn a_message_of_two_levels_by_hand() {
    // 67: 2/0 (4 + 2), 93/0 (4) with 73/0 (4 + 1) and 2/0 (4 + 2), 3/0 (4 + 1),
    // 255/9 (4 + 3). 12 + 6 + 4 + 5 + 6 + 5 + 7 = 45 octets, 41 (29 in hex) of them
    // after the length field; 93/0 has 11 (0B). Both 2/0 share their value.
    let values = [0x11, 0x22, 0x33, 0x44];
    let rows = [
        [0, 2, 0, 1, 2, 0],
        [0, 93, 0, 0, 0, 0],
        [2, 73, 0, 0, 1, 0],
        [2, 2, 0, 1, 2, 0],
        [0, 3, 0, 3, 1, 0],
        [0, 255, 9, 1, 3, 0],
    ];
    let table = table_of(67, 2, &rows);
    let head = Head {
        teid: 0x0102_0304,
        sequence: 0x00A0_B0C0,
    };
    let expected = "48 43 00 29 01 02 03 04 A0 B0 C0 00 02 00 02 00 22 33 \
                    5D 00 0B 00 49 00 01 00 11 02 00 02 00 22 33 \
                    03 00 01 00 44 FF 00 03 09 22 33 44";
    assert_eq!(built(head, &table, &values), octets(expected));
}

#[test]
fn kind_and_type_are_those_of_the_header() {
    let g = octets(G);
    for kind in [1, 2, 3] {
        let table = g_with(5, kind);
        assert_eq!(built(OF_G, &table, &g), g);
    }
    // 172/0 in 93/0 is listed on kinds 1 and 3, and in 97 on none.
    let rows = [
        [0, 93, 0, 0, 0, 0],
        [1, 73, 0, 20, 1, 0],
        [1, 172, 0, 20, 1, 0],
    ];
    let of = |typ, kind| code(OF_G, &table_of(typ, kind, &rows), &g);
    assert_eq!([of(66, 1), of(66, 2), of(66, 3), of(97, 1)], [0, 16, 0, 16]);
}

#[test]
fn a_short_header_comes_before_kind_before_type() {
    let g = octets(G);
    let unlisted = [0, 3, 65, 70, 98, 255, 256, 256 + 66, 0x8000 | 66, u16::MAX];
    for kind in [0, 5, 257, 0x8001, u16::MAX] {
        let mut table = g_with(5, kind);
        assert_eq!(code(OF_G, &table, &g), 1);
        // 1 before 7, and before the other reasons of 14.
        table[4] = 3;
        assert_eq!(code(OF_G, &table, &g), 1);
        assert_eq!(code(OF_G, &table[..17], &g), 1);
        assert_eq!(code(OF_G, &table[..6], &g), 1);
        for length in 0..6 {
            assert_eq!(code(OF_G, &table[..length], &g), 14);
        }
    }
    for typ in unlisted {
        let table = g_with(4, typ);
        assert_eq!(code(OF_G, &table, &g), 7);
        assert_eq!(code(OF_G, &table[..17], &g), 7);
        assert_eq!(code(OF_G, &table[..6], &[]), 7);
        // The type is there, and the kind is not.
        assert_eq!(code(OF_G, &table[..5], &g), 14);
    }
}

#[test]
fn a_table_with_a_header_of_four_is_no_table() {
    // Its parent stands for the type, its element type for the kind: type 0 is not
    // listed, and 93 is no kind.
    let g = octets(G);
    let old = [2, 2, 4, 16, 0, 93, 0, 16, 5, 0, 1, 73, 0, 20, 1, 0];
    assert_eq!(code(OF_G, &old, &g), 1);
    let d = octets(D);
    let old = [1, 1, 4, 10, 0, 3, 0, 12, 1, 0, 0, 0];
    assert_eq!(code(OF_G, &old, &d), 7);
    // The numbers of a header of four in one of six.
    assert_eq!(code(OF_G, &g_with(2, 4), &g), 14);
    assert_eq!(code(OF_G, &g_with(3, 16), &g), 14);
}

/// G's table with one number changed.
fn g_with(at: usize, number: u16) -> Vec<u16> {
    let mut table = G_TABLE.to_vec();
    table[at] = number;
    table
}

#[test]
fn a_table_must_be_long_enough_and_agree() {
    let g = octets(G);
    for length in 0..G_TABLE.len() {
        assert_eq!(code(OF_G, &G_TABLE[..length], &g), 14, "{length}");
    }
    let longer = [&G_TABLE[..], &[9, 9, 9]].concat();
    assert_eq!(code(OF_G, &longer, &g), 0);
    // Rows, kept rows, place of the first, numbers used; by one either way.
    for (at, own) in [2, 2, 6, 18].into_iter().enumerate() {
        assert_eq!(code(OF_G, &g_with(at, own - 1), &g), 14, "{at}");
        let more = [&g_with(at, own + 1)[..], &[0; 12]].concat();
        assert_eq!(code(OF_G, &more, &g), 14, "{at}");
    }
    // No row at all is a table of six numbers, and then 93/0 is missing.
    assert_eq!(code(OF_G, &[0, 0, 6, 6, 66, 1], &g), 16);
}

#[test]
fn what_a_row_may_say() {
    let g = octets(G);
    for standing in [1, 2, 3, 4, 256] {
        assert_eq!(code(OF_G, &g_with(17, standing), &g), 14);
        // Also where the header counts it as not kept.
        let mut counted = g_with(17, standing);
        counted[1] = 1;
        assert_eq!(code(OF_G, &counted, &g), 14);
    }
    assert_eq!(code(OF_G, &g_with(13, 256 + 73), &g), 14);
    assert_eq!(code(OF_G, &g_with(13, 256), &g), 14);
    assert_eq!(code(OF_G, &g_with(13, 255), &g), 16);
    assert_eq!(code(OF_G, &g_with(14, 16), &g), 14);
    assert_eq!(code(OF_G, &g_with(14, 15), &g), 16);
    // A group of another instance is a group all the same.
    assert_eq!(code(OF_G, &g_with(8, 5), &g), 16);
}

#[test]
fn values_lie_in_the_buffer() {
    let g = octets(G);
    assert_eq!(code(OF_G, &g_with(15, 21), &g), 14);
    assert_eq!(code(OF_G, &g_with(16, 2), &g), 14);
    assert_eq!(code(OF_G, &g_with(15, u16::MAX), &g), 14);
    // An empty one at the very end lies in it, and is short; one octet further
    // it does not.
    let empty_at = |place| {
        let mut table = g_with(15, place);
        table[16] = 0;
        code(OF_G, &table, &g)
    };
    assert_eq!(empty_at(21), 16);
    assert_eq!(empty_at(22), 14);
    // Place and length are added without being cut.
    let far = vec![5; 65_536];
    assert_eq!(code(OF_G, &g_with(15, u16::MAX), &far), 0);
    let mut two = g_with(15, u16::MAX);
    two[16] = 2;
    assert_eq!(code(OF_G, &two, &far), 14);
}

#[test]
fn parents_are_groups_in_depth_first_order() {
    let parents = |parents: &[u16], types: &[u16]| {
        let rows = parents.iter().zip(types);
        let rows = rows.map(|(&parent, &typ)| [parent, typ, 0, 0, 1, 0]);
        code(OF_G, &table_of(66, 1, &rows.collect::<Vec<_>>()), &[5])
    };
    assert_eq!(parents(&[0, 1, 0, 3], &[93, 73, 93, 73]), 0);
    // The first row's parent, the row itself, and a row to come.
    assert_eq!(parents(&[1], &[93]), 14);
    assert_eq!(parents(&[0, 2], &[93, 73]), 14);
    assert_eq!(parents(&[0, 3, 0], &[93, 73, 93]), 14);
    // A row that is no group's.
    assert_eq!(parents(&[0, 1, 2], &[93, 73, 97]), 14);
    // Back to the first context after the second began.
    assert_eq!(parents(&[0, 1, 0, 1], &[93, 73, 93, 73]), 14);
    // 93 in 93 is sound, and unexpected; so is a row after it in the outer one.
    assert_eq!(parents(&[0, 1, 2, 1], &[93, 93, 73, 73]), 16);
    assert_eq!(parents(&[0, 1, 2, 0], &[93, 93, 73, 93]), 16);
    // Once the outer one is left, neither is open.
    assert_eq!(parents(&[0, 1, 0, 2], &[93, 93, 93, 73]), 14);
}

#[test]
fn the_sequence_number_has_three_octets() {
    let g = octets(G);
    let with = |sequence| Head { sequence, ..OF_G };
    let largest = built(with(0x00FF_FFFF), &G_TABLE, &g);
    assert_eq!(largest[8..12], [0xFF, 0xFF, 0xFF, 0]);
    assert_eq!(code(with(0x0100_0000), &G_TABLE, &g), 14);
    assert_eq!(code(with(u32::MAX), &G_TABLE, &g), 14);
    // The TEID is not tested.
    let teid = Head {
        teid: u32::MAX,
        ..OF_G
    };
    assert_eq!(built(teid, &G_TABLE, &g)[4..8], [0xFF; 4]);
}

#[test]
fn fourteen_before_fifteen_before_sixteen() {
    let with_room = |table: &[u16], length: usize| {
        let mut room = vec![UNTOUCHED; length];
        build(OF_G, table, &octets(G), &mut room).verdict.code
    };
    assert_eq!(with_room(&G_TABLE, 21), 0);
    assert_eq!(with_room(&G_TABLE, 20), 15);
    assert_eq!(with_room(&g_with(17, 1), 20), 14);
    assert_eq!(with_room(&g_with(14, 1), 20), 15);
    assert_eq!(with_room(&g_with(14, 1), 21), 16);
}

#[test]
fn no_message_passes_4096_octets() {
    // 21 octets of G, and 255/0 with the rest after four of its own.
    let mut values = vec![0x55; 4_072];
    values[0] = 5;
    let with = |length| {
        let context = [[0, 93, 0, 0, 0, 0], [1, 73, 0, 0, 1, 0]];
        let private = [0, 255, 0, 0, length, 0];
        table_of(66, 1, &[context[0], context[1], private])
    };
    let longest = built(OF_G, &with(4_071), &values);
    assert_eq!((longest.len(), &longest[2..4]), (4_096, &[0x0F, 0xFC][..]));
    assert_eq!(code(OF_G, &with(4_072), &values), 15);
}

#[test]
fn rows_that_no_header_counts() {
    // 6 + 6 * 10,922 is 65,538, which 16 bits cannot say.
    let of = |rows: usize, used: u16| {
        let row = [0, 255, 0, 0, 0, 0];
        let count = rows as u16;
        let header = [count, count, 6, used, 66, 1];
        [&header[..], vec![row; rows].as_flattened()].concat()
    };
    assert_eq!(code(OF_G, &of(10_921, 65_532), &[]), 15);
    assert_eq!(code(OF_G, &of(10_922, 2), &[]), 14);
}

#[test]
fn sixteen_where_some_row_would_not_be_kept() {
    let g = octets(G);
    let with = |row: [u16; 6]| {
        let context = [[0, 93, 0, 0, 0, 0], [1, 73, 0, 20, 1, 0]];
        code(OF_G, &table_of(66, 1, &[context[0], context[1], row]), &g)
    };
    assert_eq!(with([0, 170, 0, 0, 4, 0]), 0);
    // Short, repeated, unexpected; 180/1 on kind 1.
    assert_eq!(with([0, 170, 0, 0, 3, 0]), 16);
    assert_eq!(with([1, 73, 0, 0, 1, 0]), 16);
    assert_eq!(with([0, 200, 0, 0, 1, 0]), 16);
    assert_eq!(with([0, 180, 1, 0, 0, 0]), 16);
    // 180/0 is listed, and lacks all that it must have.
    assert_eq!(with([0, 180, 0, 0, 0, 0]), 16);
    // A mandatory row that is short, or not there.
    assert_eq!(code(OF_G, &g_with(16, 0), &g), 16);
    let empty = table_of(66, 1, &[[0, 93, 0, 0, 0, 0]]);
    assert_eq!(code(OF_G, &empty, &g), 16);
}

/// The message with all bits zero that nothing reads.
fn without_ignored_bits(message: &[u8], rows: &[[u16; 6]]) -> Vec<u8> {
    let mut octets = message.to_vec();
    let header = if octets[0] & 8 == 0 { 8 } else { 12 };
    octets[0] &= 0xF8;
    octets[header - 1] = 0;
    for row in rows {
        octets[usize::from(row[3]) - 1] &= 0x0F;
    }
    octets
}

/// TEID and sequence number of a message.
fn head_of(message: &[u8]) -> Head {
    let number = |octets: &[u8]| {
        octets
            .iter()
            .fold(0, |all, &octet| all << 8 | u32::from(octet))
    };
    let t = message[0] & 8 != 0;
    Head {
        teid: if t { number(&message[4..8]) } else { 77 },
        sequence: number(if t { &message[8..11] } else { &message[4..7] }),
    }
}

#[test]
fn an_accepted_message_comes_back() {
    let mut generator = Generator::new(81);
    let mut rebuilt = 0;
    for _ in 0..20_000 {
        let case = generator.good();
        let table = table(case.kind, &case.message);
        let head = head_of(&case.message);
        if table[0] == table[1] {
            let expected = without_ignored_bits(&case.message, rows(&table));
            assert_eq!(built(head, &table, &case.message), expected);
            rebuilt += 1;
        } else {
            assert_eq!(code(head, &table, &case.message), 14);
        }
    }
    assert!(rebuilt > 5_000, "{rebuilt}");
}

/// Every reason for 14 that applies, by the words of the rule.
fn reasons(what: &Build) -> BTreeSet<&'static str> {
    let Build { table, values, .. } = what;
    let mut reasons = BTreeSet::new();
    if what.head.sequence > 16_777_215 {
        reasons.insert("sequence");
    }
    if table.len() < 6 {
        reasons.insert("shorter than a header");
        return reasons;
    }
    let [count, kept, first, used] = [0, 1, 2, 3].map(|at| u64::from(table[at]));
    if first != 6 {
        reasons.insert("first row's place");
    }
    if used != 6 + 6 * count {
        reasons.insert("numbers used");
    }
    if (table.len() as u64) < 6 + 6 * count {
        reasons.insert("shorter than the numbers used");
        return reasons;
    }
    let rows = table[6..].chunks_exact(6).take(count as usize);
    let rows = rows.collect::<Vec<_>>();
    if kept != rows.iter().filter(|row| row[5] == 0).count() as u64 {
        reasons.insert("kept rows");
    }
    let is_group = |row: &[u16]| matches!(row[1], 93 | 109 | 180);
    for (at, row) in rows.iter().enumerate() {
        let mut allowed = vec![0];
        // The row just before, and its ancestors.
        let mut next = at;
        while next > 0 && next <= rows.len() && !allowed.contains(&next) {
            allowed.push(next);
            next = usize::from(rows[next - 1][0]);
        }
        let parent = usize::from(row[0]);
        if !allowed.contains(&parent) {
            reasons.insert("not depth first");
        } else if parent > 0 && !is_group(rows[parent - 1]) {
            reasons.insert("parent is no group");
        }
        let end = u64::from(row[3]) + u64::from(row[4]);
        for (reason, applies) in [
            ("standing", row[5] != 0),
            ("type", row[1] > 255),
            ("instance", row[2] > 15),
            ("value", !is_group(row) && end > values.len() as u64),
        ] {
            if applies {
                reasons.insert(reason);
            }
        }
    }
    reasons
}

/// The octets of a message of these rows, group by group from the inside out.
fn elements(rows: &[[u16; 6]], parent: u16, values: &[u8], wrong: Wrong) -> Vec<u8> {
    let mut octets = Vec::new();
    for (at, row) in rows.iter().enumerate().filter(|(_, row)| row[0] == parent) {
        let [_, typ, inst, place, length, _] = *row;
        let group = matches!(typ, 93 | 109 | 180);
        let value = match group {
            true => elements(rows, at as u16 + 1, values, wrong),
            false => values[usize::from(place)..][..usize::from(length)].to_vec(),
        };
        let says = match wrong {
            Wrong::GroupLengthTaken if group => length,
            Wrong::HeadersNotCounted if group => value_octets(rows, at as u16 + 1),
            _ => value.len() as u16,
        };
        octets.extend([typ as u8, (says >> 8) as u8, says as u8, inst as u8]);
        octets.extend(value);
    }
    octets
}

/// The values alone of the rows of a group.
fn value_octets(rows: &[[u16; 6]], parent: u16) -> u16 {
    let rows = rows.iter().filter(|row| row[0] == parent);
    rows.map(|row| row[4]).sum()
}

/// What a builder may get wrong that is no figure of the rules.
#[derive(Debug, Clone, Copy, PartialEq, Eq)]
enum Wrong {
    Nothing,
    GroupLengthTaken,
    HeadersNotCounted,
    TeidInEcho,
    TeidLeftOut,
    SequenceBehind,
    HeaderLength,
    LengthAnswered,
    /// Kind and type of the header without their high octets.
    KindCut,
    TypeCut,
    /// Kind and type as they are, also where the table is short of its header.
    HeaderNotFirst,
    /// All reasons of 14 before the kind.
    TableFirst,
    /// The kind that is asked for is another than the one in the header.
    KindTurned,
    /// A type that is not on the kind is left to the judge.
    OffKindNotTested,
    /// It is told after 14.
    OffKindLast,
}

/// The message by the words of the rule.
fn by_the_words(what: &Build, wrong: Wrong) -> Vec<u8> {
    let Head { teid, sequence } = what.head;
    let typ = what.table[4];
    let (_, numbers) = what.table.split_at(6);
    let rows = &numbers.as_chunks().0[..usize::from(what.table[0])];
    let mut octets = vec![0x40, typ as u8, 0, 0];
    if typ > 2 || wrong == Wrong::TeidInEcho {
        octets[0] |= 8;
        let teid = if wrong == Wrong::TeidLeftOut { 0 } else { teid };
        octets.extend(teid.to_be_bytes());
    }
    let [none, high, middle, low] = sequence.to_be_bytes();
    octets.extend(match wrong {
        Wrong::SequenceBehind => [none, high, middle, low],
        _ => [high, middle, low, none],
    });
    octets.extend(elements(rows, 0, &what.values, wrong));
    let more = if wrong == Wrong::HeaderLength { 4 } else { 0 };
    let length = (octets.len() - 4 + more) as u16;
    octets[2..4].copy_from_slice(&length.to_be_bytes());
    octets
}

/// Is the message accepted with every row kept?
fn all_kept(kind: u32, message: &[u8]) -> bool {
    let (verdict, table) = judged(kind, message);
    verdict.accepted() && table[0] == table[1]
}

/// The code that the rule gives, by its words, and the message where it is 0.
fn expected(what: &Build, room: usize) -> Result<Vec<u8>, u16> {
    expected_of(what, room, Wrong::Nothing)
}

/// The same by a builder that has this wrong.
fn expected_of(what: &Build, room: usize, wrong: Wrong) -> Result<Vec<u8>, u16> {
    let header = what.table.get(..6);
    let short_first = wrong != Wrong::HeaderNotFirst;
    if header.is_none() && short_first || wrong == Wrong::TableFirst && !reasons(what).is_empty() {
        return Err(14);
    }
    // What is not there would be no kind and no type.
    let number = |at: usize| what.table.get(at).copied().unwrap_or(0);
    let kind = match wrong {
        Wrong::KindCut => number(5) & 0xFF,
        Wrong::KindTurned if (1..=4).contains(&number(5)) => number(5) % 4 + 1,
        _ => number(5),
    };
    let typ = match wrong {
        Wrong::TypeCut => number(4) & 0xFF,
        _ => number(4),
    };
    if !(1..=4).contains(&kind) {
        return Err(1);
    }
    if !LISTED.contains(&typ) {
        return Err(7);
    }
    let is_off_kind = is_off_kind(typ, kind);
    match wrong {
        Wrong::OffKindNotTested => {}
        Wrong::OffKindLast if !reasons(what).is_empty() => {}
        _ if is_off_kind => return Err(21),
        _ => {}
    }
    if !reasons(what).is_empty() {
        return Err(14);
    }
    let rows = what.table[6..].chunks_exact(6);
    let rows = rows.take(usize::from(what.table[0]));
    let octets = rows.map(|row| match row[1] {
        93 | 109 | 180 => 4,
        _ => 4 + u64::from(row[4]),
    });
    let header = if typ > 2 { 12 } else { 8 };
    let need = header + octets.sum::<u64>();
    if need > 4_096 || need > room as u64 {
        return Err(15);
    }
    let message = by_the_words(what, wrong);
    match all_kept(kind.into(), &message) {
        true => Ok(message),
        false => Err(16),
    }
}

/// Parents, pairs and values of the rows that a message was built of, as the
/// judge finds them again.
fn assert_rows_are_the_same(what: &Build, message: &[u8]) {
    let table = table(what.table[5].into(), message);
    assert_eq!(table[4..6], what.table[4..6]);
    let wanted = what.table[6..].as_chunks().0;
    for (row, wanted) in rows(&table).iter().zip(wanted) {
        assert_eq!(row[..3], wanted[..3]);
        assert_eq!(row[5], 0);
        if !matches!(row[1], 93 | 109 | 180) {
            let [found, wanted] = [(row, message), (wanted, &what.values[..])].map(|(row, of)| {
                let place = usize::from(row[3]);
                &of[place..place + usize::from(row[4])]
            });
            assert_eq!(found, wanted);
        }
    }
    assert_eq!(table[0], what.table[0]);
}

/// Holds one build to the rule's words; answers its code.
fn assert_built(what: &Build, room: usize) -> u16 {
    let (answer, room) = built_in(what, room);
    match expected(what, room.len()) {
        Ok(message) => {
            assert_eq!(answer.verdict, Verdict::ACCEPTED, "{what:?}");
            let (octets, past) = room.split_at(usize::from(answer.length));
            assert_eq!(octets, message, "{what:?}");
            assert!(past.iter().all(|&octet| octet == UNTOUCHED));
            assert_rows_are_the_same(what, octets);
        }
        Err(code) => {
            let refused = Answer::refused(verdict([code, 0, 0, 0, 0]));
            assert_eq!(answer, refused, "{what:?}");
            assert!(room.iter().all(|&octet| octet == UNTOUCHED));
        }
    }
    answer.verdict.code
}

#[test]
fn the_rule_word_by_word_over_the_builds() {
    for what in builds() {
        for room in what.rooms() {
            assert_built(&what, room);
        }
    }
}

#[test]
fn the_rule_word_by_word_over_the_mix() {
    let mut generator = Generator::new(82);
    let mut codes = BTreeMap::new();
    for turn in 0..20_000 {
        let what = generator.build();
        let rooms = what.rooms();
        let code = assert_built(&what, rooms[turn % rooms.len()]);
        *codes.entry(code).or_insert(0) += 1;
    }
    println!("{codes:?}");
    for code in [0, 1, 7, 14, 15, 16] {
        assert!(codes[&code] >= 100, "{codes:?}");
    }
}

/// Why the rule gives 15, where one of its two reasons is alone.
fn too_large(what: &Build, room: usize) -> &'static str {
    match (what.need() > 4_096, what.need() > room) {
        (true, false) => "4,096 octets alone",
        (false, true) => "the room alone",
        _ => "both",
    }
}

/// Why it gives 16: the refusal of the message, or the only standing of rows
/// that are not kept.
fn not_whole(what: &Build) -> String {
    let message = by_the_words(what, Wrong::Nothing);
    let (verdict, table) = judged(what.table[5].into(), &message);
    if !verdict.accepted() {
        return format!("refusal {}", verdict.code);
    }
    let rows = table[6..].chunks_exact(6).take(usize::from(table[0]));
    let aside: BTreeSet<u16> = rows
        .map(|row| row[5])
        .filter(|&standing| standing != 0)
        .collect();
    match aside.len() {
        1 => format!("standing {}", aside.first().expect("one")),
        _ => "several standings".into(),
    }
}

const LISTED: [u16; 10] = [1, 2, 32, 37, 66, 67, 68, 69, 97, 131];

/// Echoes are on every kind, 131 on kind 4 alone, and the others on the others.
fn is_off_kind(typ: u16, kind: u16) -> bool {
    typ > 2 && (typ == 131) != (kind == 4)
}

/// What is met in the header of a build, with the code that it gives.
fn of_the_header(what: &Build) -> Vec<String> {
    let table = &what.table;
    let code = expected(what, 4_096).err().unwrap_or(0);
    let unlisted = |at: usize| table.get(at).is_some_and(|typ| !LISTED.contains(typ));
    let length = table.len();
    if length < 6 {
        return vec![match (length, unlisted(4)) {
            (5, true) => format!("5 numbers of an unlisted type: {code}"),
            (5, false) => format!("5 numbers of a listed type: {code}"),
            _ => format!("{length} numbers: {code}"),
        }];
    }
    let mut names = Vec::new();
    if length == 6 {
        names.push(format!("6 numbers: {code}"));
    }
    if table[2] == 4 && u64::from(table[3]) == 4 + 6 * u64::from(table[0]) {
        names.push(format!("header of four: {code}"));
    }
    let (kind, bad_kind) = (table[5], !(1..=4).contains(&table[5]));
    let wide = if table[4] > 255 {
        "past an octet"
    } else {
        "an octet"
    };
    let faults = (bad_kind, unlisted(4), !reasons(what).is_empty());
    names.push(match faults {
        (true, false, false) if (257..=260).contains(&kind) => {
            format!("kind its own and 256: {code}")
        }
        (true, false, false) => format!("kind {kind}: {code}"),
        (false, true, false) => format!("type {wide}: {code}"),
        (true, true, _) => format!("kind and type {wide}: {code}"),
        (true, false, true) => format!("kind and table: {code}"),
        (false, true, true) => format!("type and table: {code}"),
        (false, false, table_too) if is_off_kind(table[4], kind) => match table_too {
            true => format!("off its kind and table: {code}"),
            false => format!("{} on kind {kind}: {code}", table[4]),
        },
        (false, false, _) => return names,
    });
    names
}

/// What the gate's builds meet: each code with each room and answer, each
/// reason for 14 and 15 alone, those for 16, and every fault of a header.
#[test]
fn every_reason_is_met() {
    let mut met = BTreeMap::new();
    for (seed, what) in builds().iter().enumerate() {
        let good_head = !matches!(expected(what, 0), Err(1 | 7 | 21));
        for name in of_the_header(what) {
            *met.entry(name).or_insert(0) += 1;
        }
        let mut alone = reasons(what).into_iter();
        if let (true, Some(reason), None) = (good_head, alone.next(), alone.next()) {
            *met.entry(format!("14 for {reason} alone")).or_insert(0) += 1;
        }
        for lent in what.lent(seed as u64) {
            let (answer, _) = built_in(what, lent.room);
            let code = answer.verdict.code;
            *met.entry(format!("code {code}")).or_insert(0) += 1;
            if code == 15 {
                let why = too_large(what, lent.room);
                *met.entry(format!("15 for {why}")).or_insert(0) += 1;
            }
            if code == 16 {
                let why = not_whole(what);
                *met.entry(format!("16 for {why}")).or_insert(0) += 1;
            }
            let answer = format!("answer of {}: code {code}", lent.answer);
            *met.entry(answer).or_insert(0) += 1;
            if lent.room + 1 == what.need() {
                *met.entry(format!("one short: code {code}")).or_insert(0) += 1;
            }
        }
    }
    println!("{met:#?}");
    let mut wanted = Vec::new();
    for reason in [
        "sequence",
        "shorter than a header",
        "first row's place",
        "numbers used",
        "shorter than the numbers used",
        "kept rows",
        "not depth first",
        "parent is no group",
        "standing",
        "type",
        "instance",
        "value",
    ] {
        wanted.push(format!("14 for {reason} alone"));
    }
    for length in 0..5 {
        wanted.push(format!("{length} numbers: 14"));
    }
    wanted.extend([
        "5 numbers of a listed type: 14".into(),
        "5 numbers of an unlisted type: 14".into(),
    ]);
    for code in [1, 7, 14, 16, 21] {
        wanted.push(format!("6 numbers: {code}"));
    }
    for kind in ["0", "5", "its own and 256", "65535"] {
        wanted.push(format!("kind {kind}: 1"));
    }
    for typ in ["an octet", "past an octet"] {
        wanted.push(format!("type {typ}: 7"));
        wanted.push(format!("kind and type {typ}: 1"));
    }
    wanted.extend(["kind and table: 1".into(), "type and table: 7".into()]);
    wanted.extend(["header of four: 1".into(), "header of four: 7".into()]);
    wanted.push("off its kind and table: 21".into());
    for typ in [32, 37, 66, 67, 68, 69, 97] {
        wanted.push(format!("{typ} on kind 4: 21"));
    }
    for kind in 1..=3 {
        wanted.push(format!("131 on kind {kind}: 21"));
    }
    for code in [0, 1, 7, 14, 15, 16, 21] {
        wanted.push(format!("code {code}"));
        for answer in ANSWERS {
            wanted.push(format!("answer of {answer}: code {code}"));
        }
    }
    for code in [1, 7, 14, 15, 21] {
        wanted.push(format!("one short: code {code}"));
    }
    for why in ["4,096 octets alone", "the room alone"] {
        wanted.push(format!("15 for {why}"));
    }
    for why in [
        "refusal 11",
        "refusal 12",
        "standing 1",
        "standing 2",
        "standing 3",
        "standing 4",
    ] {
        wanted.push(format!("16 for {why}"));
    }
    for name in wanted {
        assert!(met.get(&name).is_some_and(|&met| met >= 10), "{name}");
    }
}

#[test]
fn wrong_builders_are_seen() {
    let all = [
        Wrong::GroupLengthTaken,
        Wrong::HeadersNotCounted,
        Wrong::TeidInEcho,
        Wrong::TeidLeftOut,
        Wrong::SequenceBehind,
        Wrong::HeaderLength,
        Wrong::LengthAnswered,
        Wrong::KindCut,
        Wrong::TypeCut,
        Wrong::HeaderNotFirst,
        Wrong::TableFirst,
        Wrong::KindTurned,
        Wrong::OffKindNotTested,
        Wrong::OffKindLast,
    ];
    let mut seen = [0; 14];
    for (seed, what) in builds().iter().enumerate() {
        let [enough, _] = what.lent(seed as u64);
        let right = expected(what, enough.room);
        for (seen, wrong) in seen.iter_mut().zip(all) {
            let differs = match (wrong, &right) {
                (Wrong::LengthAnswered, Ok(message)) => message.len() != what.values.len(),
                _ => expected_of(what, enough.room, wrong) != right,
            };
            *seen += usize::from(differs);
        }
    }
    println!("{seen:?}");
    assert!(seen.iter().all(|&seen| seen >= 50), "{seen:?}");
}

#[test]
fn build_octets_agrees_with_build() {
    let mut generator = Generator::new(83);
    for turn in 0..10_000 {
        let what = generator.build();
        let Build { head, values, .. } = &what;
        let rooms = what.rooms();
        let (answered, room) = built_in(&what, rooms[turn % rooms.len()]);
        for (odd, length) in [0, 1].into_iter().zip(ANSWERS.into_iter().skip(turn % 3)) {
            let table = what.table_octets(2 * what.table.len() + odd);
            let mut lent = vec![UNTOUCHED; room.len()];
            let mut answer = vec![UNTOUCHED; length];
            let code = build_octets(*head, &table, values, &mut lent, &mut answer);
            assert_eq!((code, &lent), (answered.verdict.code, &room));
            let mut expected = vec![UNTOUCHED; length];
            if length >= 12 {
                let six = answered.numbers().map(u16::to_be_bytes);
                expected[..12].copy_from_slice(six.as_flattened());
            }
            assert_eq!(answer, expected);
        }
    }
}

#[test]
fn g_in_octets() {
    let g = octets(G);
    let table = G_TABLE.map(u16::to_be_bytes);
    let mut table = table.as_flattened().to_vec();
    let (mut room, mut answer) = ([UNTOUCHED; 23], [UNTOUCHED; 15]);
    // An odd last octet is not read.
    table.push(9);
    assert_eq!(build_octets(OF_G, &table, &g, &mut room, &mut answer), 0);
    assert_eq!(room[..], octets(&[G, "EE EE"].concat()));
    let six = octets("00 00 00 00 00 00 00 00 00 00 00 15 EE EE EE");
    assert_eq!(answer[..], six);
    // One octet less is 17 numbers and a half.
    table.truncate(35);
    let mut answer = [UNTOUCHED; 12];
    assert_eq!(build_octets(OF_G, &table, &g, &mut room, &mut answer), 14);
    assert_eq!(answer[..], octets("00 0E 00 00 00 00 00 00 00 00 00 00"));
    let mut answer = [UNTOUCHED; 11];
    assert_eq!(build_octets(OF_G, &table, &g, &mut room, &mut answer), 14);
    assert_eq!(answer, [UNTOUCHED; 11]);
    // Eleven octets are five numbers and half of the kind.
    table.truncate(11);
    assert_eq!(build_octets(OF_G, &table, &g, &mut room, &mut []), 14);
}

/// A cleaned copy without ignored bits is what the builder makes of its rows.
#[test]
fn a_cleaned_copy_comes_back() {
    let cleaned = message(66, "5D 00 05 00 49 00 01 00 05 C8 00 00 00");
    let mut copy = vec![0; cleaned.len()];
    let answer = second::clean(1, &cleaned, &mut copy);
    copy.truncate(usize::from(answer.length));
    let table = table(1, &copy);
    assert_eq!(built(head_of(&copy), &table, &copy), copy);
    assert_eq!(DOCUMENT.build_need(&table), copy.len());
}
