//! Context Responses on S10 through the library: messages of three levels, a PDN connection (109/0) in the body and its bearers (93/0) in that. Every
//! verdict, table and copy here is worked out by hand from the rules.

use second::Head;
use trials::{build, clean, end, judge_copy, part, rows, start, state_octets};

const S10: u32 = 4;
/// More than any table here needs.
const TABLE: usize = 2 * 120;

/// An element with its value.
fn element(typ: u8, instance: u8, value: &[u8]) -> Vec<u8> {
    let [high, low] = (value.len() as u16).to_be_bytes();
    [&[typ, high, low, instance], value].concat()
}

fn group(typ: u8, inside: &[Vec<u8>]) -> Vec<u8> {
    element(typ, 0, &inside.concat())
}

/// A message of a type that bears a TEID; its first element stands at 12.
fn message(typ: u8, elements: &[Vec<u8>]) -> Vec<u8> {
    let body = elements.concat();
    let [high, low] = (8 + body.len() as u16).to_be_bytes();
    [&[0x48, typ, high, low, 0, 0, 0, 1, 0, 0, 2, 0], &body[..]].concat()
}

/// A Context Response with its 2/0, and these from 18 on.
fn context(rest: &[Vec<u8>]) -> Vec<u8> {
    message(131, &[&[cause()], rest].concat())
}

// What is mandatory, in the body, in 109/0 and in its 93/0: 6; 5, 5, 9 and 12; 5 and 26 octets.
fn cause() -> Vec<u8> {
    element(2, 0, &[16, 0])
}

fn apn() -> Vec<u8> {
    element(71, 0, &[0])
}

fn ebi() -> Vec<u8> {
    element(73, 0, &[5])
}

fn fteid() -> Vec<u8> {
    element(87, 0, &[7, 0, 0, 0, 1])
}

fn ambr() -> Vec<u8> {
    element(72, 0, &[0, 0, 0, 1, 0, 0, 0, 2])
}

fn qos() -> Vec<u8> {
    element(80, 0, &[9; 22])
}

/// A connection with these bearers, the first of them 23 octets behind its start, and then its 72/0.
fn connection(bearers: &[Vec<u8>]) -> Vec<u8> {
    group(109, &[&[apn(), ebi(), fteid()], bearers, &[ambr()]].concat())
}

fn bearer() -> Vec<u8> {
    group(93, &[ebi(), qos()])
}

/// Keys and a connection with an address and two bearers, the second with its elements in the other order.
fn whole() -> Vec<u8> {
    let second = group(93, &[qos(), element(73, 0, &[6])]);
    let named = element(71, 0, b"\x03ims");
    let inside = [named, element(74, 0, &[10, 45, 0, 7]), ebi(), fteid(), bearer(), second, ambr()];
    context(&[element(107, 0, &[0xA1, 0xA2, 0xA3]), group(109, &inside), element(77, 0, &[0, 0])])
}

/// Parent, type, instance, place, length, standing.
const ROWS: [[u16; 6]; 15] = [
    [0, 2, 0, 16, 2, 0],
    [0, 107, 0, 22, 3, 0],
    [0, 109, 0, 29, 112, 0],
    [3, 71, 0, 33, 4, 0],
    [3, 74, 0, 41, 4, 0],
    [3, 73, 0, 49, 1, 0],
    [3, 87, 0, 54, 5, 0],
    [3, 93, 0, 63, 31, 0],
    [8, 73, 0, 67, 1, 0],
    [8, 80, 0, 72, 22, 0],
    [3, 93, 0, 98, 31, 0],
    [11, 80, 0, 102, 22, 0],
    [11, 73, 0, 128, 1, 0],
    [3, 72, 0, 133, 8, 0],
    [0, 77, 0, 145, 2, 0],
];

fn octets(numbers: impl IntoIterator<Item = u16>) -> Vec<u8> {
    numbers.into_iter().flat_map(u16::to_be_bytes).collect()
}

/// The table of `whole`.
fn whole_table() -> Vec<u8> {
    octets([15, 15, 6, 96, 131, S10 as u16].into_iter().chain(ROWS.concat()))
}

/// Table and copy after a call with room for all, which were zero, and the five numbers.
fn judged(kind: u32, message: &[u8]) -> ([u16; 5], Vec<u8>, Vec<u8>) {
    let (mut table, mut copy, mut five) = (vec![0; TABLE], vec![0; message.len()], [0xEE; 10]);
    let code = judge_copy(kind, message, &mut table, &mut copy, &mut five);
    let five = std::array::from_fn(|i| u16::from_be_bytes([five[2 * i], five[2 * i + 1]]));
    assert_eq!(code, five[0]);
    (five, table, copy)
}

#[test]
fn a_whole_one() {
    let message = whole();
    assert_eq!(message.len(), 147);
    let mut expected = whole_table();
    let used = expected.len();
    expected.resize(TABLE, 0);
    let mut masked = message.clone();
    masked[22..25].fill(0);
    masked[41..45].fill(0);
    assert_eq!(judged(S10, &message), ([0; 5], expected, masked));
    // nothing is set aside
    let (mut room, mut answer) = ([0xEE; 150], [0; 12]);
    assert_eq!(clean(S10, &message, &mut room, &mut answer), 0);
    assert_eq!((&room[..147], &answer[10..]), (&message[..], &[0, 147][..]));
    let mut room = [0xEE; 147];
    assert_eq!(build(Head { teid: 1, sequence: 2 }, &whole_table()[..used], &message, &mut room, &mut answer), 0);
    assert_eq!(room[..], message);
}

/// What is missing, and what is said: an outer group before one inside it, though that ends first; an inner one before the next outer one; the body
/// before all.
fn lacking() -> Vec<(Vec<u8>, [u16; 5])> {
    let no_qos = group(93, &[ebi()]);
    let both = group(109, &[apn(), ebi(), fteid(), no_qos.clone()]);
    let inner = connection(&[no_qos]);
    let empty = group(109, &[]);
    vec![
        (context(&[both.clone()]), [12, 70, 18, 72, 0]),
        (message(131, &[both.clone()]), [12, 70, 0, 2, 0]),
        (message(131, &[both, cause()]), [12, 70, 12, 72, 0]),
        (context(&[inner.clone()]), [12, 70, 41, 80, 0]),
        (context(&[connection(&[bearer(), group(93, &[qos()])])]), [12, 70, 76, 73, 0]),
        (context(&[inner.clone(), empty.clone()]), [12, 70, 41, 80, 0]),
        (context(&[empty, inner]), [12, 70, 18, 71, 0]),
        (context(&[connection(&[])]), [12, 70, 18, 93, 0]),
        // a bearer in the body is none of the connection's
        (context(&[bearer(), connection(&[])]), [12, 70, 53, 93, 0]),
    ]
}

/// A claim that its own level cannot hold and the levels around it could, one to three octets left of a level, and claims of the groups themselves.
fn broken() -> Vec<(Vec<u8>, [u16; 5])> {
    let mut claims = qos();
    claims[2] += 1;
    let innermost = connection(&[group(93, &[ebi(), claims.clone()]), bearer()]);
    let mut all = vec![
        (context(&[innermost]), [9, 67, 50, 0, 0]),
        // before 12 in the connection and in the body
        (message(131, &[group(109, &[group(93, &[ebi(), claims])]), connection(&[bearer()])]), [9, 67, 25, 0, 0]),
    ];
    for left in 1..=3 {
        let rest = vec![73; left];
        all.push((context(&[connection(&[group(93, &[ebi(), qos(), rest.clone()])])]), [9, 67, 76, 0, 0]));
        all.push((context(&[group(109, &[apn(), bearer(), rest.clone()])]), [9, 67, 62, 0, 0]));
        all.push((context(&[connection(&[bearer()]), rest]), [9, 67, 88, 0, 0]));
    }
    let mut too_long = bearer();
    too_long[2] += 1;
    all.push((context(&[group(109, &[apn(), ebi(), fteid(), ambr(), too_long]), cause()]), [9, 67, 53, 0, 0]));
    let mut too_long = connection(&[bearer()]);
    too_long[2] += 1;
    all.push((context(&[too_long]), [9, 67, 18, 0, 0]));
    all
}

#[test]
fn an_outer_group_that_lacks_something_before_an_inner_one() {
    for (message, five) in lacking() {
        let (found, table, copy) = judged(S10, &message);
        assert_eq!((found, table), (five, vec![0; TABLE]), "{message:02x?}");
        // nothing but the bearer that is not listed is covered
        let is_listed = message[18] != 93;
        assert_eq!(copy == message, is_listed, "{message:02x?}");
        assert_eq!(clean(S10, &message, &mut [0; 200], &mut []), 12);
    }
}

/// What is answered of the rows: five numbers, and how many.
fn counted(kind: u32, message: &[u8]) -> Vec<u8> {
    let mut answer = vec![0xEE; 12];
    rows(kind, message, &mut answer);
    answer
}

/// Counted along the lists above: 12 is not told, and 9 has none.
#[test]
fn rows_of_three_levels() {
    assert_eq!(counted(S10, &whole()), octets([0, 0, 0, 0, 0, ROWS.len() as u16]));
    let numbers = [7, 6, 7, 8, 11, 9, 9, 6, 7];
    assert_eq!(lacking().len(), numbers.len());
    for ((message, _), number) in lacking().into_iter().zip(numbers) {
        assert_eq!(counted(S10, &message), octets([0, 0, 0, 0, 0, number]), "{message:02x?}");
    }
    for (message, five) in broken() {
        assert_eq!(counted(S10, &message), octets(five.into_iter().chain([0])), "{message:02x?}");
    }
}

#[test]
fn a_break_in_the_innermost_level() {
    for (message, five) in broken() {
        let nothing = vec![0; message.len()];
        assert_eq!(judged(S10, &message), (five, vec![0; TABLE], nothing), "{message:02x?}");
        assert_eq!(clean(S10, &message, &mut [0; 300], &mut []), 9);
    }
}

/// 21 right after 7 and before 8; a type that is not listed is 7 on each kind.
#[test]
fn messages_on_their_kinds() {
    let echo = [0x40, 1, 0, 9, 0, 0, 2, 0, 3, 0, 1, 0, 7];
    for typ in 0..=255 {
        let (with, without) = (message(typ, &[]), [0x40, typ, 0, 4, 0, 0, 2, 0]);
        for kind in 1..=4 {
            let codes = [judged(kind, &with).0, judged(kind, &without).0];
            let expected = match typ {
                1 | 2 => [8, 12],
                131 if kind == S10 => [12, 8],
                32 | 37 | 66 | 67 | 68 | 69 | 97 if kind != S10 => [12, 8],
                32 | 37 | 66 | 67 | 68 | 69 | 97 | 131 => [21, 21],
                _ => [7, 7],
            };
            assert_eq!(codes.map(|five| five[0]), expected, "{typ} on {kind}");
            // 12 alone has a cause and names something
            assert!(codes.iter().all(|five| five[0] == 12 || five[1..] == [0; 4]), "{codes:?}");
        }
        for kind in [0, 5, 257, 260] {
            assert_eq!(judged(kind, &with).0, [1, 0, 0, 0, 0]);
        }
    }
    assert_eq!(judged(S10, &echo).0, [0; 5]);
    // 5 and 6 come before it, and 9 after
    for (first, last, rest, code) in [(0x58, 8, &[][..], 5), (0x48, 9, &[], 6), (0x48, 9, &[0xFF], 21)] {
        let message = [&[first, 131, 0, last, 0, 0, 0, 1, 0, 0, 2, 0], rest].concat();
        assert_eq!(judged(2, &message).0[0], code);
    }
}

/// The same of the builder, where it comes before every reason of 14 but that of a table without a header.
#[test]
fn builds_on_their_kinds() {
    let (message, table) = (whole(), whole_table());
    for (typ, kind, code) in [(131, 1, 21), (131, 3, 21), (66, 4, 21), (130, 4, 7), (130, 1, 7), (131, 5, 1), (131, 4, 0)] {
        let mut table = table.clone();
        (table[9], table[11]) = (typ, kind);
        let built = |table: &[u8], sequence| build(Head { teid: 1, sequence }, table, &message, &mut [0; 147], &mut []);
        assert_eq!(built(&table, 2), code);
        assert_eq!(built(&table, 1 << 24), if code == 0 { 14 } else { code });
        assert_eq!(built(&table[..12], 2), if code == 0 { 14 } else { code });
        assert_eq!(built(&table[..11], 2), 14);
    }
}

/// A message in these parts: the five numbers at the end, and the table, which held something else.
fn in_parts(kind: u32, parts: &[&[u8]]) -> (Vec<u8>, Vec<u8>) {
    let (mut state, mut table, mut five) = (vec![0xA5; state_octets()], vec![0xA5; TABLE], vec![0xA5; 10]);
    assert_eq!(start(kind, &mut state, &mut table), 0);
    for octets in parts {
        assert_eq!(part(&mut state, octets, &mut table, &mut five), 0);
        assert_eq!(five, [0; 10]);
    }
    end(&mut state, &mut table, &mut five);
    (five, table)
}

/// In three parts with each pair of cuts, some of them empty, and octet by octet.
#[test]
fn pieces_in_every_cut() {
    let mut good = whole_table();
    good.resize(TABLE, 0);
    let refused = lacking().into_iter().chain(broken());
    let all = [(whole(), [0; 5])].into_iter().chain(refused);
    let mut count = 0;
    for (message, five) in all {
        let expected = (octets(five), if five[0] == 0 { good.clone() } else { vec![0; TABLE] });
        for first in 0..=message.len() {
            for second in first..=message.len() {
                let parts = [&message[..first], &message[first..second], &message[second..]];
                assert_eq!(in_parts(S10, &parts), expected, "cut at {first} and {second}: {message:02x?}");
                count += 1;
            }
        }
        let each: Vec<&[u8]> = message.chunks(1).collect();
        assert_eq!(in_parts(S10, &each), expected);
        for kind in 1..=3 {
            assert_eq!(in_parts(kind, &each), (octets([21, 0, 0, 0, 0]), vec![0; TABLE]));
        }
    }
    assert!(count > 80_000, "only {count} cuts were tried");
}
