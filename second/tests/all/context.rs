//! Context Responses between MMEs: kind 4, three levels, and what is said of them
//! worked out by hand; the rule once more over the octets of this message type, and
//! wrong rules, which the gate's messages show.

use std::collections::BTreeMap;

use crate::support::{five, judge, judged, mask, message, octets, rows, table, verdict};
use second::generate::{figures, Case, Generator};
use second::{build, clean, desk, plain, start, Answer, Head, Verdict, DOCUMENT};

const CAUSE: &str = "02 00 02 00 10 00 ";
const EBI: &str = "49 00 01 00 05 ";
const APN: &str = "47 00 01 00 00 ";
const FTEID: &str = "57 00 05 00 07 00 00 00 01 ";
const AMBR: &str = "48 00 08 00 00 00 00 01 00 00 00 02 ";
const QOS: &str = "50 00 16 00 01 02 03 04 05 06 07 08 09 0A 0B 0C 0D 0E 0F 10 11 12 13 14 15 16 ";

fn join(parts: &[&str]) -> String {
    parts.join(" ")
}

/// The hex of an element with that inside.
fn group(typ: u8, inst: u8, inside: &str) -> String {
    let length = octets(inside).len();
    format!(
        "{typ:02X} {:02X} {:02X} {inst:02X} {inside}",
        length / 256,
        length % 256
    )
}

/// 93/0 with what it must have: 4 + 5 + 26 octets.
fn bearer() -> String {
    group(93, 0, &join(&[EBI, QOS]))
}

/// 109/0 with what it must have and these bearers: 4 + 5 + 5 + 9 + 12 octets beside
/// them; the first bearer begins 23 octets after it.
fn connection(bearers: &str) -> String {
    group(109, 0, &join(&[APN, EBI, FTEID, bearers, AMBR]))
}

/// 2/0 at 12, and these from 18 on.
fn context(rest: &[&str]) -> Vec<u8> {
    message(131, &join(&[CAUSE, &join(rest)]))
}

fn standings(message: &[u8]) -> Vec<u16> {
    let table = table(4, message);
    rows(&table).iter().map(|row| row[5]).collect()
}

#[test]
fn kind_4_takes_three_messages() {
    let listed = [1, 2, 32, 37, 66, 67, 68, 69, 97, 131];
    for typ in 0..=255 {
        let empty = message(typ, "");
        for kind in 1..=4 {
            let code = five(kind, &empty)[0];
            let expected = match typ {
                1 | 2 => 12,
                131 if kind == 4 => 12,
                131 => 21,
                // In 66 to 97 too something is mandatory.
                _ if listed.contains(&typ) => match kind {
                    4 => 21,
                    _ => 12,
                },
                _ => 7,
            };
            assert_eq!(code, expected, "{typ} on {kind}");
        }
        assert_eq!(five(5, &empty), [1, 0, 0, 0, 0]);
        assert_eq!(five(0, &empty), [1, 0, 0, 0, 0]);
    }
    // An echo on S10, with the kind in its table.
    let echo = message(1, "03 00 01 00 07");
    assert_eq!(table(4, &echo), [1, 1, 6, 12, 1, 4, 0, 3, 0, 12, 1, 0]);
}

#[test]
fn twenty_one_comes_after_7_and_before_8() {
    // 131 on kind 1: P set, a wrong length, T = 0, and octets left over.
    assert_eq!(
        five(1, &octets("58 83 00 08 00 00 00 01 00 00 02 00"))[0],
        5
    );
    assert_eq!(
        five(1, &octets("48 83 00 09 00 00 00 01 00 00 02 00"))[0],
        6
    );
    assert_eq!(
        five(1, &octets("40 83 00 04 00 00 02 00")),
        [21, 0, 0, 0, 0]
    );
    assert_eq!(five(4, &octets("40 83 00 04 00 00 02 00")), [8, 0, 0, 0, 0]);
    let left_over = octets("48 83 00 09 00 00 00 01 00 00 02 00 FF");
    assert_eq!(five(3, &left_over), [21, 0, 0, 0, 0]);
    assert_eq!(five(4, &left_over), [9, 67, 12, 0, 0]);
    // A session request on kind 4, with either T; an unlisted type is 7 there too.
    assert_eq!(
        five(4, &octets("40 20 00 04 00 00 02 00")),
        [21, 0, 0, 0, 0]
    );
    assert_eq!(five(4, &message(32, "")), [21, 0, 0, 0, 0]);
    assert_eq!(five(4, &message(130, "")), [7, 0, 0, 0, 0]);
    // Nothing is written, whatever is lent.
    let mut copy = [0xEE; 40];
    let context = context(&[]);
    assert_eq!(mask(2, &context, &mut copy), verdict([21, 0, 0, 0, 0]));
    assert_eq!(copy, [0xEE; 40]);
    let mut numbers = [7; 3];
    let found = second::judge_copy(2, &context, &mut numbers, &mut []);
    assert_eq!((found, numbers), (verdict([21, 0, 0, 0, 0]), [7; 3]));
    let answer = clean(2, &context, &mut copy);
    assert_eq!(answer, Answer::refused(verdict([21, 0, 0, 0, 0])));
    assert_eq!(copy, [0xEE; 40]);
    assert!(DOCUMENT
        .covered(2, &context)
        .iter()
        .all(|&covered| !covered));
}

#[test]
fn three_levels_in_a_table() {
    // 109/0 at 18: 71/0, 73/0, 87/0, two bearers at 41 and 76, 72/0 at 111.
    let whole = context(&[&connection(&join(&[&bearer(), &bearer()]))]);
    assert_eq!(whole.len(), 123);
    let expected = [
        [0, 2, 0, 16, 2, 0],
        [0, 109, 0, 22, 101, 0],
        [2, 71, 0, 26, 1, 0],
        [2, 73, 0, 31, 1, 0],
        [2, 87, 0, 36, 5, 0],
        [2, 93, 0, 45, 31, 0],
        [6, 73, 0, 49, 1, 0],
        [6, 80, 0, 54, 22, 0],
        [2, 93, 0, 80, 31, 0],
        [9, 73, 0, 84, 1, 0],
        [9, 80, 0, 89, 22, 0],
        [2, 72, 0, 115, 8, 0],
    ];
    let table = table(4, &whole);
    assert_eq!(table[..6], [12, 12, 6, 78, 131, 4]);
    assert_eq!(rows(&table), expected);
    // The plain lookup looks at the body alone, the desk's at each row.
    assert_eq!(plain(4, 2, 0, &whole, &table), [0x10, 0]);
    assert_eq!(plain(4, 109, 0, &whole, &table), &whole[22..]);
    assert!(plain(4, 93, 0, &whole, &table).is_empty());
    assert!(plain(1, 2, 0, &whole, &table).is_empty());
    assert_eq!(desk(4, 7, true, &whole, &whole, &table), &whole[54..76]);
}

#[test]
fn a_connection_may_be_absent_and_may_repeat() {
    assert_eq!(standings(&context(&[])), [0]);
    let one = connection(&bearer());
    assert_eq!(standings(&context(&[&one, &one, &one])), [0; 25]);
    assert_eq!(five(4, &message(131, &one)), [12, 70, 0, 2, 0]);
    // 109/1 is not listed, nor is 109 in a 109, nor 180.
    let inside = connection(&join(&[&bearer(), &one]));
    let expected = [0, 0, 0, 0, 0, 0, 0, 0, 1, 0];
    assert_eq!(standings(&context(&[&inside])), expected);
    assert_eq!(standings(&context(&["6D 00 03 01 00 00 00"])), [0, 1]);
    assert_eq!(standings(&context(&["B4 00 01 00 00"])), [0, 1]);
}

#[test]
fn a_bearer_in_the_body_is_unexpected() {
    assert_eq!(standings(&context(&[&bearer()])), [0, 1]);
    // It is not entered, and its elements are no rows and no faults.
    assert_eq!(standings(&context(&["5D 00 02 00 FF FF"])), [0, 1]);
    assert_eq!(five(4, &context(&["5D 00 03 00 FF FF"])), [9, 67, 18, 0, 0]);
    // It does not make good for one that its connection lacks.
    let lacks = context(&[&bearer(), &connection("")]);
    assert_eq!(five(4, &lacks), [12, 70, 53, 93, 0]);
    // 255 is allowed in the body, and at no level below.
    let private = "FF 00 02 07 11 22";
    assert_eq!(standings(&context(&[private, private])), [0, 0, 0]);
    let in_groups = connection(&join(&[
        private,
        &group(93, 0, &join(&[EBI, QOS, private])),
    ]));
    let expected = [0, 0, 0, 0, 0, 1, 0, 0, 0, 1, 0];
    assert_eq!(standings(&context(&[&in_groups])), expected);
}

#[test]
fn twelve_by_level_and_then_by_the_listing() {
    let whole = [APN, EBI, FTEID, &bearer(), AMBR];
    let pairs = [71, 73, 87, 93, 72];
    for (left_out, typ) in pairs.into_iter().enumerate() {
        let mut parts = whole.to_vec();
        parts.remove(left_out);
        let lacking = group(109, 0, &join(&parts));
        assert_eq!(five(4, &context(&[&lacking])), [12, 70, 18, typ, 0]);
        // With all after it left out too it is the first in the listing: 72 is last.
        let lacking = group(109, 0, &join(&whole[..left_out]));
        assert_eq!(five(4, &context(&[&lacking])), [12, 70, 18, typ, 0]);
        // Behind a whole one, which has 70 octets.
        let behind = context(&[&connection(&bearer()), &lacking]);
        assert_eq!(five(4, &behind), [12, 70, 88, typ, 0]);
    }
    // In the bearer, which begins at 18 + 23.
    for (inside, typ) in [(QOS, 73), (EBI, 80), ("", 73)] {
        let lacking = connection(&group(93, 0, inside));
        assert_eq!(five(4, &context(&[&lacking])), [12, 70, 41, typ, 0]);
        // In a second one, 35 octets behind.
        let second = connection(&join(&[&bearer(), &group(93, 0, inside)]));
        assert_eq!(five(4, &context(&[&second])), [12, 70, 76, typ, 0]);
    }
    // The bearer and the connection around it lack something: the connection began first,
    // whatever comes first in the octets; the body before both.
    let both = group(109, 0, &join(&[APN, EBI, FTEID, &group(93, 0, EBI)]));
    assert_eq!(five(4, &context(&[&both])), [12, 70, 18, 72, 0]);
    assert_eq!(five(4, &message(131, &both)), [12, 70, 0, 2, 0]);
    // A bearer of the first connection comes before the second connection.
    let first = connection(&group(93, 0, EBI));
    assert_eq!(
        five(4, &context(&[&first, "6D 00 00 00"])),
        [12, 70, 41, 80, 0]
    );
    assert_eq!(
        five(4, &context(&["6D 00 00 00", &first])),
        [12, 70, 18, 71, 0]
    );
}

#[test]
fn eleven_at_each_level() {
    assert_eq!(five(4, &message(131, "02 00 01 00 10")), [11, 67, 12, 2, 0]);
    // A short 71/0 comes after the short 73/0 of a bearer that stands before it.
    let short = group(93, 0, &join(&["49 00 00 00", QOS]));
    let inside = join(&[EBI, &short, "47 00 00 00", FTEID, AMBR]);
    assert_eq!(
        five(4, &context(&[&group(109, 0, &inside)])),
        [11, 67, 31, 73, 0]
    );
    let inside = join(&[EBI, "47 00 00 00", &short, FTEID, AMBR]);
    assert_eq!(
        five(4, &context(&[&group(109, 0, &inside)])),
        [11, 67, 27, 71, 0]
    );
    // 80 of 21 octets in the bearer; the body lacks its 2/0, which comes after.
    let cut = QOS.replace("00 16 00", "00 15 00").replace(" 16 ", " ");
    let short = connection(&group(93, 0, &join(&[EBI, &cut])));
    assert_eq!(five(4, &message(131, &short)), [11, 67, 44, 80, 0]);
    // 72 of seven octets; 87 of four, where five are needed.
    let inside = join(&[
        APN,
        EBI,
        FTEID,
        &bearer(),
        "48 00 07 00 00 00 00 01 00 00 00",
    ]);
    assert_eq!(
        five(4, &context(&[&group(109, 0, &inside)])),
        [11, 67, 76, 72, 0]
    );
    let inside = join(&[APN, EBI, "57 00 04 00 07 00 00 00", &bearer(), AMBR]);
    assert_eq!(
        five(4, &context(&[&group(109, 0, &inside)])),
        [11, 67, 32, 87, 0]
    );
}

#[test]
fn nine_at_each_level() {
    for left in 1..=3 {
        let rest = "FF ".repeat(left);
        let inmost = connection(&group(93, 0, &join(&[EBI, QOS, &rest])));
        assert_eq!(five(4, &context(&[&inmost])), [9, 67, 76, 0, 0]);
        let inner = group(109, 0, &join(&[APN, EBI, FTEID, &bearer(), AMBR, &rest]));
        assert_eq!(five(4, &context(&[&inner])), [9, 67, 88, 0, 0]);
        let outer = context(&[&connection(&bearer()), &rest]);
        assert_eq!(five(4, &outer), [9, 67, 88, 0, 0]);
    }
    // An element of the bearer that claims one octet more than its level has: the
    // connection would have it.
    let longer = QOS.replace("00 16 00", "00 17 00");
    let claims = connection(&group(93, 0, &join(&[EBI, &longer])));
    assert_eq!(five(4, &context(&[&claims])), [9, 67, 50, 0, 0]);
    // A bearer that claims more than its connection has left, and a connection.
    let inside = join(&[APN, EBI, FTEID, AMBR, "5D 00 20 00", EBI, QOS]);
    assert_eq!(
        five(4, &context(&[&group(109, 0, &inside)])),
        [9, 67, 53, 0, 0]
    );
    assert_eq!(five(4, &context(&["6D 00 06 00", APN])), [9, 67, 18, 0, 0]);
    // The inmost fault comes first in octet order, and before 11 and 12.
    let both = connection(&join(&[&group(93, 0, "49 00 00 00 FF"), "FF FF"]));
    assert_eq!(five(4, &message(131, &both)), [9, 67, 43, 0, 0]);
}

fn covered_places(message: &[u8]) -> Vec<usize> {
    let covered = DOCUMENT.covered(4, message);
    let places = covered.iter().enumerate();
    places.filter(|(_, &yes)| yes).map(|(at, _)| at).collect()
}

#[test]
fn addresses_and_keys_are_covered_in_every_standing() {
    for typ in 103..=108 {
        // Kept (22 and 23), repeated (28), of another instance (33).
        let hex = |inst: u8, value: &str| group(typ, inst, value);
        let parts = [hex(0, "11 12"), hex(0, "13"), hex(1, "14")];
        let parts = parts.iter().map(String::as_str).collect::<Vec<_>>();
        let whole = context(&parts);
        assert_eq!(standings(&whole), [0, 0, 2, 1]);
        assert_eq!(covered_places(&whole), [22, 23, 28, 33]);
        // Short without an octet.
        assert_eq!(standings(&context(&[&hex(0, "")])), [0, 3]);
    }
    // 74/0 of four octets, 74/1 of three, which are short; a second 74/0; 74/2; and 74/0
    // in the bearer and in the body. The connection's value begins at 22.
    let inside = join(&[
        "4A 00 04 00 0A 2D 00 07 4A 00 03 01 0A 2D 00",
        "4A 00 05 00 01 02 03 04 05 4A 00 01 02 06",
        APN,
        EBI,
        FTEID,
        &group(93, 0, &join(&["4A 00 04 00 0A 2D 00 08", EBI, QOS])),
        AMBR,
    ]);
    let whole = context(&[&group(109, 0, &inside), "4A 00 01 00 21"]);
    let expected = [0, 0, 0, 3, 2, 1, 0, 0, 0, 0, 1, 0, 0, 0, 1];
    assert_eq!(standings(&whole), expected);
    let mut places = Vec::new();
    // 26 to 29; 34 to 36; 41 to 45; 50; then 19 octets, 93/0 at 70, in it 78 to 81;
    // 31 octets and 72/0, then 74/0 at 125.
    for part in [26..30, 34..37, 41..46, 50..51, 78..82, 129..130] {
        places.extend(part);
    }
    assert_eq!(covered_places(&whole), places);
    // Elsewhere both are unexpected, and covered as such.
    let echo = message(1, "03 00 01 00 07 4A 00 01 00 11 67 00 01 00 12");
    assert_eq!(
        rows(&table(4, &echo))[1..],
        [[0, 74, 0, 17, 1, 1], [0, 103, 0, 22, 1, 1]]
    );
}

#[test]
fn a_cleaned_copy_at_three_levels() {
    let unknown = "C8 00 02 00 11 22";
    let inmost = group(93, 0, &join(&[EBI, unknown, QOS]));
    let inside = join(&[APN, EBI, unknown, FTEID, &inmost, AMBR]);
    let whole = context(&[unknown, &group(109, 0, &inside), unknown]);
    let expected = context(&[&connection(&bearer())]);
    let mut copy = vec![0xEE; expected.len() + 1];
    let answer = clean(4, &whole, &mut copy);
    assert_eq!(answer.verdict, Verdict::ACCEPTED);
    assert_eq!(usize::from(answer.length), expected.len());
    assert_eq!(copy[..expected.len()], expected);
    assert_eq!(copy.pop(), Some(0xEE));
    copy.pop();
    assert_eq!(clean(4, &whole, &mut copy).verdict.code, 13);
}

#[test]
fn a_builder_at_three_levels() {
    let whole = context(&[&connection(&join(&[&bearer(), &bearer()]))]);
    let mut numbers = table(4, &whole);
    let head = Head {
        teid: 1,
        sequence: 2,
    };
    let built = |numbers: &[u16]| {
        let mut room = vec![0xEE; 200];
        let answer = build(head, numbers, &whole, &mut room);
        room.truncate(answer.length.into());
        (answer.verdict.code, room)
    };
    let (code, room) = built(&numbers);
    assert_eq!((code, room), (0, whole.clone()));
    // Lengths of the groups, which are rows 2, 6 and 9, are worked out.
    for row in [1, 5, 8] {
        numbers[6 + 6 * row + 3] = 60_000;
        numbers[6 + 6 * row + 4] = 60_000;
    }
    assert_eq!(built(&numbers).1, whole);
    // 72/0 in the last bearer, where it is not listed; in the first, which is closed.
    let last = 6 + 6 * 11;
    for (parent, code) in [(9, 16), (6, 14), (2, 0), (0, 16), (12, 14)] {
        numbers[last] = parent;
        assert_eq!(built(&numbers).0, code, "{parent}");
    }
    numbers[last] = 2;
    // On another kind 21, before 14 and after 1 and 7.
    for (kind, typ, code) in [
        (1, 131, 21),
        (3, 131, 21),
        (4, 66, 21),
        (4, 130, 7),
        (5, 131, 1),
    ] {
        (numbers[4], numbers[5]) = (typ, kind);
        assert_eq!(built(&numbers).0, code);
        assert_eq!(built(&numbers[..20]).0, code);
        assert_eq!(built(&numbers[..5]).0, 14);
    }
}

#[test]
fn in_parts_at_three_levels() {
    let good = context(&[&connection(&join(&[&bearer(), &bearer()]))]);
    let lacks = context(&[&group(109, 0, &join(&[APN, &group(93, 0, EBI), &bearer()]))]);
    let broken = context(&[&connection(&group(93, 0, &join(&[EBI, "50 00 02 00 01"])))]);
    for message in [&good, &lacks, &broken] {
        for kind in 1..=5 {
            for numbers in [0, 77, 78, 90] {
                let mut expected = vec![0; numbers];
                let found = judge(kind, message, &mut expected);
                for size in [1, 2, 3, 5, 7, 40, 200] {
                    let mut lent = vec![0xAAAA; numbers];
                    let mut pieces = start(kind, &mut lent);
                    for part in message.chunks(size) {
                        assert_eq!(pieces.part(part, &mut lent), Verdict::ACCEPTED);
                    }
                    assert_eq!((pieces.end(&mut lent), &lent), (found, &expected));
                }
            }
        }
    }
}

/// What a rule of Context Responses may have wrong.
#[derive(Debug, Clone, Copy, PartialEq, Eq)]
enum Wrong {
    Nothing,
    /// The bearer's elements are measured against the connection's end, and the
    /// connection's against the message's.
    InnerEnd,
    OuterEnd,
    /// Groups inside a group are not entered.
    TwoLevels,
    /// A 109 is one element.
    OneLevel,
    /// A 93 in the body is listed, and entered.
    BearerInBody,
    /// 255 is listed at each level.
    PrivateInside,
    /// Pairs that came in one bearer came in the next, too.
    OneBearer,
    /// The same of connections.
    OneConnection,
    /// What a bearer has counts for its connection.
    KeptOutside,
    /// 12 by where levels end.
    MissingByEnd,
    /// 12 for all connections before that of any bearer.
    MissingByDepth,
    /// What a bearer must have is not asked for; the same of a connection.
    BearerNotAsked,
    ConnectionNotAsked,
    /// What is short inside is told after what is short in the body.
    ShortByDepth,
    /// The parent of what a bearer has is the connection.
    ParentOutside,
    /// Cover of 74 and of 103 to 108 for kept rows alone, or for none.
    KeptCovered,
    AddressesOpen,
    KeysOpen,
    /// All but the first octet of 74 is covered.
    FirstOctetOpen,
    /// A 109 is covered whole.
    ConnectionCovered,
    /// 74 is long enough with one octet.
    AddressOfOne,
}

use Wrong::*;

const ALL: [Wrong; 21] = [
    InnerEnd,
    OuterEnd,
    TwoLevels,
    OneLevel,
    BearerInBody,
    PrivateInside,
    OneBearer,
    OneConnection,
    KeptOutside,
    MissingByEnd,
    MissingByDepth,
    BearerNotAsked,
    ConnectionNotAsked,
    ShortByDepth,
    ParentOutside,
    KeptCovered,
    AddressesOpen,
    KeysOpen,
    FirstOctetOpen,
    ConnectionCovered,
    AddressOfOne,
];

/// All that is said of a message.
#[derive(Debug, PartialEq, Eq)]
struct Seen {
    five: [u16; 5],
    rows: Vec<[u16; 6]>,
    covered: Vec<bool>,
}

/// Pairs with mandatory and may repeat; 255 is listed apart.
type Lines = &'static [(u8, u8, bool, bool)];

const BODY: Lines = &[
    (2, 0, true, false),
    (1, 0, false, false),
    (103, 0, false, false),
    (104, 0, false, false),
    (105, 0, false, false),
    (106, 0, false, false),
    (107, 0, false, false),
    (108, 0, false, false),
    (109, 0, false, true),
    (87, 0, false, false),
    (87, 1, false, false),
    (136, 0, false, false),
    (77, 0, false, false),
];
const CONNECTION: Lines = &[
    (71, 0, true, false),
    (127, 0, false, false),
    (128, 0, false, false),
    (74, 0, false, false),
    (74, 1, false, false),
    (73, 0, true, false),
    (87, 0, true, false),
    (136, 0, false, false),
    (93, 0, true, true),
    (72, 0, true, false),
];
const BEARER: Lines = &[
    (73, 0, true, false),
    (84, 0, false, false),
    (87, 0, false, false),
    (87, 1, false, false),
    (80, 0, true, false),
];

/// Reads a Context Response from its octets, with one thing wrong.
struct Reader<'m> {
    message: &'m [u8],
    wrong: Wrong,
    rows: Vec<[u16; 6]>,
    covered: Vec<bool>,
    /// Short ones with their depth, as they come.
    short: Vec<(usize, [u16; 5])>,
    /// What levels lack, with their depth and where they begin and end.
    missing: Vec<(usize, usize, usize, [u16; 5])>,
    /// Pairs that came in earlier bearers and connections.
    earlier: [Vec<(u8, u8)>; 3],
}

impl Reader<'_> {
    fn is(&self, wrong: Wrong) -> bool {
        self.wrong == wrong
    }

    fn line(&self, lines: Lines, depth: usize, typ: u8, inst: u8) -> Option<(bool, bool)> {
        if typ == 255 && (depth == 0 || self.is(PrivateInside)) {
            return Some((false, true));
        }
        if (typ, inst, depth) == (93, 0, 0) && self.is(BearerInBody) {
            return Some((false, true));
        }
        let mut lines = lines.iter();
        let line = lines.find(|line| (line.0, line.1) == (typ, inst))?;
        Some((line.2, line.3))
    }

    fn least(&self, typ: u8, value: &[u8]) -> usize {
        let first = value.first().copied().unwrap_or(0);
        match typ {
            93 | 109 | 180 => 0,
            2 | 255 => 2,
            74 if !self.is(AddressOfOne) => 4,
            72 => 8,
            80 => 22,
            87 => 5 + 4 * usize::from(first >> 7) + 16 * usize::from(first >> 6 & 1),
            _ => 1,
        }
    }

    /// Reads a level that ends there; answers where it is broken, and what is kept.
    fn level(
        &mut self,
        lines: Lines,
        depth: usize,
        parent: usize,
        from: usize,
        end: usize,
    ) -> Result<Vec<(u8, u8)>, usize> {
        let mut came = match (depth, self.wrong) {
            (1, OneConnection) | (2, OneBearer) => self.earlier[depth].clone(),
            _ => Vec::new(),
        };
        let mut kept = Vec::new();
        // The end against which elements here are measured.
        let limit = match (depth, self.wrong) {
            (2, InnerEnd) => self
                .rows
                .iter()
                .rev()
                .find(|row| row[1] == 109)
                .map_or(end, |row| usize::from(row[3] + row[4])),
            (1, OuterEnd) => self.message.len(),
            _ => end,
        };
        let mut at = from;
        while at < end {
            if limit - at < 4 {
                return Err(at);
            }
            let typ = self.message[at];
            let inst = self.message[at + 3] & 0x0F;
            let length = usize::from(u16::from_be_bytes([
                self.message[at + 1],
                self.message[at + 2],
            ]));
            let place = at + 4;
            let after = place + length;
            if after > limit {
                return Err(at);
            }
            let value = &self.message[place..after];
            let line = self.line(lines, depth, typ, inst);
            let standing = match line {
                None => 1,
                Some((_, false)) if came.contains(&(typ, inst)) => 2,
                Some(_) if length < self.least(typ, value) => 3,
                Some(_) => 0,
            };
            came.push((typ, inst));
            if standing == 3 && line.is_some_and(|line| line.0) {
                let five = [11, 67, at as u16, typ.into(), inst.into()];
                self.short.push((depth, five));
            }
            if standing == 0 {
                kept.push((typ, inst));
            }
            let parent = match (depth, self.wrong) {
                (2, ParentOutside) => usize::from(self.rows[parent - 1][0]),
                _ => parent,
            };
            let row = [parent, typ.into(), inst.into(), place, length, standing];
            self.rows.push(row.map(|number| number as u16));
            self.cover(typ, standing, place, after);
            let number = self.rows.len();
            let inside = match (typ, depth, standing) {
                (109, 0, 0) if !self.is(OneLevel) => Some((CONNECTION, 1)),
                (93, 0, 0) => Some((BEARER, 2)),
                (93, 1, 0) if !self.is(TwoLevels) => Some((BEARER, 2)),
                _ => None,
            };
            if let Some((lines, depth)) = inside {
                let inner = self.level(lines, depth, number, place, after)?;
                if self.is(KeptOutside) {
                    kept.extend(inner);
                }
            }
            at = after;
        }
        if depth > 0 {
            self.earlier[depth].extend(came);
        }
        let is_asked = !matches!(
            (depth, self.wrong),
            (1, ConnectionNotAsked) | (2, BearerNotAsked)
        );
        let mut wanted = lines.iter().filter(|line| line.2 && is_asked);
        if let Some(line) = wanted.find(|line| !kept.contains(&(line.0, line.1))) {
            let place = if depth == 0 { 0 } else { from - 4 };
            let five = [12, 70, place as u16, line.0.into(), line.1.into()];
            self.missing.push((depth, place, end, five));
        }
        Ok(kept)
    }

    fn cover(&mut self, typ: u8, standing: usize, place: usize, after: usize) {
        let is_secret = match typ {
            74 => !self.is(AddressesOpen),
            103..=108 => !self.is(KeysOpen),
            _ => false,
        };
        let whole = match (standing, typ) {
            (1 | 2, _) => !(is_secret && self.is(KeptCovered)),
            (_, 1 | 75 | 76 | 78 | 255) => true,
            (_, 109) => self.is(ConnectionCovered),
            (3, _) => is_secret && !self.is(KeptCovered),
            _ => is_secret,
        };
        let from = match (typ, standing) {
            (74, 0 | 3) if self.is(FirstOctetOpen) => after.min(place + 1),
            _ => place,
        };
        if whole {
            self.covered[from..after].fill(true);
        }
    }
}

/// What a rule with this wrong makes of a Context Response whose header is right.
fn by_octets(message: &[u8], wrong: Wrong) -> Seen {
    let mut reader = Reader {
        message,
        wrong,
        rows: Vec::new(),
        covered: vec![false; message.len()],
        short: Vec::new(),
        missing: Vec::new(),
        earlier: [const { Vec::new() }; 3],
    };
    if let Err(place) = reader.level(BODY, 0, 0, 12, message.len()) {
        return Seen {
            five: [9, 67, place as u16, 0, 0],
            rows: Vec::new(),
            covered: vec![false; message.len()],
        };
    }
    if wrong == ShortByDepth {
        reader.short.sort_by_key(|&(depth, _)| depth);
    }
    reader
        .missing
        .sort_by_key(|&(depth, place, end, _)| match wrong {
            MissingByEnd => (end, usize::MAX - place),
            MissingByDepth => (depth, place),
            _ => (place, 0),
        });
    let short = reader.short.first().map(|&(_, five)| five);
    let missing = reader.missing.first().map(|&(.., five)| five);
    Seen {
        five: short.or(missing).unwrap_or_default(),
        rows: reader.rows,
        covered: reader.covered,
    }
}

/// The same by the program.
fn by_the_program(case: &Case) -> Seen {
    let Case { kind, message } = case;
    let found = DOCUMENT.rows(*kind, message).unwrap_or_default();
    let mut table = vec![0; DOCUMENT.used(found.len())];
    DOCUMENT.write_table(*kind, message, &found, &mut table);
    Seen {
        five: judged(*kind, message).0.numbers(),
        rows: rows(&table).to_vec(),
        covered: DOCUMENT.covered(*kind, message),
    }
}

/// Is it a Context Response that 1 to 8 let pass?
fn is_context(case: &Case) -> bool {
    let passes = !matches!(judged(case.kind, &case.message).0.code, 1..=8 | 21);
    passes && case.message[1] == 131
}

#[test]
fn the_rule_over_the_octets() {
    let mix = Generator::new(95).take(40_000);
    let (mut read, mut deep, mut codes) = (0, 0, BTreeMap::new());
    for case in figures().into_iter().chain(mix).filter(is_context) {
        let seen = by_the_program(&case);
        assert_eq!(seen, by_octets(&case.message, Nothing), "{case:?}");
        read += 1;
        let is_inner = |row: &&[u16; 6]| row[0] > 0 && seen.rows[usize::from(row[0]) - 1][0] > 0;
        deep += usize::from(seen.rows.iter().any(|row| is_inner(&row)));
        *codes.entry(seen.five[0]).or_insert(0) += 1;
    }
    println!("{read} messages, {deep} of three levels, {codes:?}");
    assert!(read > 6_000 && deep > 4_000, "{read} {deep}");
    assert!(
        [0, 9, 11, 12].iter().all(|code| codes[code] > 300),
        "{codes:?}"
    );
}

#[test]
fn wrong_rules_are_seen() {
    let mut seen = [0; ALL.len()];
    for case in figures().into_iter().filter(is_context) {
        let right = by_the_program(&case);
        for (seen, wrong) in seen.iter_mut().zip(ALL) {
            *seen += usize::from(by_octets(&case.message, wrong) != right);
        }
    }
    let named = ALL.iter().zip(seen).collect::<Vec<_>>();
    println!("{named:?}");
    assert!(seen.iter().all(|&seen| seen >= 20), "{named:?}");
}
