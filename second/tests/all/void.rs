//! Void groups: what is said of them worked out by hand, the rule once more over
//! the octets of one message type, and wrong rules, which the gate's messages show.

use std::collections::BTreeMap;

use crate::support::{five, judge, judge_by, judged, mask, message, octets, rows, table, verdict};
use second::generate::{figures, Case, Generator, UNLIMITED};
use second::{build, clean, desk, plain, plain_found, start, Answer, Head, Verdict, DOCUMENT};

/// 2/0 at 12, and 93/0 at 18 with its 73/0 and 2/0; what follows begins at 33.
const FAILED: &str = "02 00 02 00 40 00 5D 00 0B 00 49 00 01 00 05 02 00 02 00 40 00";
/// 183/0, 182/0 and 156/0, 18 octets.
const OVERLOAD: &str = "B7 00 04 00 00 00 00 2A B6 00 01 00 1E 9C 00 01 00 4A";
const APN: &str = "47 00 01 00 61 ";
const EMPTY_APN: &str = "47 00 00 00 ";

fn join(parts: &[&str]) -> String {
    parts.join(" ")
}

/// The hex of an element with that inside.
fn group(typ: u8, inst: u8, inside: &str) -> String {
    let length = octets(inside).len();
    format!(
        "{typ:02X} {:02X} {:02X} {inst:02X} {inside}",
        length / 256,
        length % 256
    )
}

/// A report with what it must have and so many APNs.
fn report(apns: usize) -> String {
    group(180, 0, &join(&[OVERLOAD, &APN.repeat(apns)]))
}

/// A Delete Bearer Failure Indication with these after what it must have.
fn failure(rest: &[&str]) -> Vec<u8> {
    message(67, &join(&[FAILED, &join(rest)]))
}

fn standings(kind: u32, message: &[u8]) -> Vec<u16> {
    let table = table(kind, message);
    rows(&table).iter().map(|row| row[5]).collect()
}

const BASE: [[u16; 6]; 4] = [
    [0, 2, 0, 16, 2, 0],
    [0, 93, 0, 22, 11, 0],
    [2, 73, 0, 26, 1, 0],
    [2, 2, 0, 31, 2, 0],
];

#[test]
fn ten_stand_and_eleven_void() {
    for kind in 1..=3 {
        let ten = table(kind, &failure(&[&report(10)]));
        assert_eq!(ten[..6], [18, 18, 6, 114, 67, kind as u16]);
        assert_eq!(rows(&ten)[4], [0, 180, 0, 37, 68, 0]);
        assert_eq!(rows(&ten)[17], [5, 71, 0, 104, 1, 0]);
        let eleven = table(kind, &failure(&[&report(11)]));
        assert_eq!(eleven[..6], [5, 4, 6, 36, 67, kind as u16]);
        let expected = [&BASE[..], &[[0, 180, 0, 37, 73, 4]]].concat();
        assert_eq!(rows(&eleven), expected);
    }
}

#[test]
fn as_the_judge_program_prints_it() {
    let input = [&[1], &failure(&[&report(11)])[..]].concat();
    let printed = "accept 5 4\n0 2 0 16 2 0\n0 93 0 22 11 0\n2 73 0 26 1 0\n2 2 0 31 2 0\n\
                   0 180 0 37 73 4\n";
    assert_eq!(DOCUMENT.program(&input), printed);
}

#[test]
fn short_ones_are_counted() {
    let with = |good: usize, empty: usize| {
        let apns = [EMPTY_APN.repeat(empty), APN.repeat(good)].concat();
        failure(&[&group(180, 0, &join(&[&apns, OVERLOAD]))])
    };
    let expected = [&[0; 5][..], &[3], &[0; 12]].concat();
    assert_eq!(standings(1, &with(9, 1)), expected);
    for empty in 1..=11 {
        assert_eq!(standings(1, &with(11 - empty, empty)), [0, 0, 0, 0, 4]);
    }
}

#[test]
fn other_instances_and_deeper_ones_are_not() {
    // 71/1 three times, and 93/0 and 180/0 with three 71/0 each: not listed there.
    let others = "47 00 01 01 61 ".repeat(3);
    let deeper = [93, 180].map(|typ| group(typ, 0, &APN.repeat(3)));
    for beside in [&others, &deeper[0], &deeper[1]] {
        let with = |apns: usize| {
            let inside = join(&[OVERLOAD, &APN.repeat(apns), beside]);
            failure(&[&group(180, 0, &inside)])
        };
        let ten = standings(2, &with(10));
        assert_eq!(ten[..18], [0; 18]);
        assert!(ten.len() > 18 && ten[18..].iter().all(|&standing| standing == 1));
        assert_eq!(standings(2, &with(11)), [0, 0, 0, 0, 4]);
    }
}

#[test]
fn each_group_for_itself() {
    let [six, ten, eleven] = [6, 10, 11].map(report);
    let of = |reports: &[&str]| standings(1, &failure(reports));
    // Twelve in all, and none of the two is void.
    assert_eq!(of(&[&six, &six]), [0; 24]);
    assert_eq!(of(&[&ten, &ten]), [0; 32]);
    // A void one makes no repeat of the next, whatever that is.
    assert_eq!(of(&[&eleven, &eleven]), [0, 0, 0, 0, 4, 4]);
    let good = [0; 10];
    let after = [&[0, 0, 0, 0, 4][..], &good].concat();
    assert_eq!(of(&[&eleven, &six]), after);
    let before = [&[0; 4][..], &good, &[4]].concat();
    assert_eq!(of(&[&six, &eleven]), before);
    // The rows after it are numbered on.
    let table = table(1, &failure(&[&eleven, &six]));
    assert_eq!(rows(&table)[5], [0, 180, 0, 114, 48, 0]);
    assert!(rows(&table)[6..].iter().all(|row| row[0] == 6));
}

#[test]
fn no_other_group_is_void() {
    let inside = join(&[OVERLOAD, &APN.repeat(11)]);
    // 180/1 is kept on kinds 1 and 2, and does not list 71/0; 180/2 is not listed.
    let one = failure(&[&group(180, 1, &inside)]);
    let entered = [&[0; 8][..], &[1; 11]].concat();
    assert_eq!(standings(1, &one), entered);
    assert_eq!(standings(2, &one), entered);
    assert_eq!(standings(3, &one), [0, 0, 0, 0, 1]);
    let two = failure(&[&group(180, 2, &inside)]);
    assert_eq!(standings(1, &two), [0, 0, 0, 0, 1]);
    // 66 lists no 71/0 in a 180/0.
    let context = "5D 00 05 00 49 00 01 00 05";
    let command = message(66, &join(&[context, &group(180, 0, &inside)]));
    assert_eq!(standings(1, &command), [&[0; 6][..], &[1; 11]].concat());
    // A 93/0 of eleven 71/0.
    let context = group(93, 0, &join(&["49 00 01 00 05", &APN.repeat(11)]));
    assert_eq!(
        standings(1, &message(66, &context)),
        [&[0; 2][..], &[1; 11]].concat()
    );
}

#[test]
fn what_is_mandatory_inside_is_not_asked_for() {
    let short = "B7 00 03 00 00 00 00";
    let inside = |first: &str, apns: usize| group(180, 0, &join(&[first, &APN.repeat(apns)]));
    for first in ["", short, "9C 00 00 00", "B6 00 01 00 1E B6 00 00 00"] {
        let void = failure(&[&inside(first, 11)]);
        assert_eq!(standings(3, &void), [0, 0, 0, 0, 4], "{first}");
    }
    assert_eq!(five(3, &failure(&[&inside("", 10)])), [12, 70, 33, 183, 0]);
    assert_eq!(
        five(3, &failure(&[&inside(short, 10)])),
        [11, 67, 37, 183, 0]
    );
}

#[test]
fn what_is_mandatory_elsewhere_is() {
    let void = group(180, 0, &APN.repeat(11));
    // 12 + 4 + 55 = 71 is where a second report begins.
    let after = |rest: &str| message(67, &join(&[&void, rest, FAILED]));
    let cut_short = group(180, 0, "B7 00 04 00 00 00 00 2A B6 00 01 00 1E");
    assert_eq!(five(1, &after(&cut_short)), [12, 70, 71, 156, 0]);
    let short = group(180, 0, "B7 00 03 00 00 00 00");
    assert_eq!(five(1, &after(&short)), [11, 67, 75, 183, 0]);
    // The body has no 2/0, or a short one, before the group or behind it.
    let context = &FAILED[18..];
    let lacks = message(67, &join(&[&void, context]));
    assert_eq!(five(1, &lacks), [12, 70, 0, 2, 0]);
    let short = message(67, &join(&[&void, "02 00 01 00 40", context]));
    assert_eq!(five(1, &short), [11, 67, 71, 2, 0]);
    let short = message(67, &join(&["02 00 01 00 40", &void, context]));
    assert_eq!(five(1, &short), [11, 67, 12, 2, 0]);
}

#[test]
fn a_break_inside_is_told() {
    let all = join(&[OVERLOAD, &APN.repeat(11)]);
    for (rest, at) in [
        ("00", 110),
        ("47 00", 110),
        ("47 00 00", 110),
        ("47 00 01 00", 110),
    ] {
        let cut = failure(&[&group(180, 0, &join(&[&all, rest]))]);
        assert_eq!(five(1, &cut), [9, 67, at, 0, 0], "{rest}");
    }
    // The last APN, and the first of what is mandatory, with an octet too many.
    let mut last = failure(&[&group(180, 0, &all)]);
    last[107] = 2;
    assert_eq!(five(1, &last), [9, 67, 105, 0, 0]);
    let mut first = failure(&[&group(180, 0, &all)]);
    first[39] = 0xFF;
    assert_eq!(five(1, &first), [9, 67, 37, 0, 0]);
    // Nothing is covered then, and nothing cleaned.
    for cut in [last, first] {
        assert_eq!(covered_places(1, &cut), []);
        let refused = verdict(five(1, &cut));
        assert_eq!(clean(1, &cut, &mut [0; 200]), Answer::refused(refused));
        assert_eq!(mask(1, &cut, &mut [0; 200]), refused);
    }
    // What a group inside holds is not framed.
    let rubbish = group(93, 0, "49 00");
    let void = failure(&[&group(180, 0, &join(&[&all, &rubbish]))]);
    assert_eq!(standings(1, &void), [0, 0, 0, 0, 4]);
}

/// The places of the covered octets.
fn covered_places(kind: u32, message: &[u8]) -> Vec<usize> {
    let covered = DOCUMENT.covered(kind, message);
    let places = covered.iter().enumerate();
    places.filter(|(_, &yes)| yes).map(|(at, _)| at).collect()
}

#[test]
fn values_inside_are_covered_and_headers_are_not() {
    // From 37 on: ten APNs, values at 41, 46 and so on up to 86; then an empty one
    // (87), 183/0 (91, its value from 95 to 98), 86/0 (99, 103 to 105), 79/0 (106,
    // 110 and 111), 93/0 with 73/0 (112, 116 to 120), 255/0 (121, 125 and 126).
    let rest = "B7 00 04 00 00 00 00 2A 56 00 03 00 18 AA BB 4F 00 02 00 01 0A \
                5D 00 05 00 49 00 01 00 06 FF 00 02 00 28 AF";
    let inside = join(&[&APN.repeat(10), EMPTY_APN, rest]);
    let void = failure(&[&group(180, 0, &inside)]);
    assert_eq!(standings(1, &void), [0, 0, 0, 0, 4]);
    let mut expected = (41..=86).step_by(5).collect::<Vec<_>>();
    for values in [95..=98, 103..=105, 110..=111, 116..=120, 125..=126] {
        expected.extend(values);
    }
    for kind in 1..=3 {
        assert_eq!(covered_places(kind, &void), expected);
    }
    let mut copy = vec![0xEE; void.len() + 1];
    assert_eq!(mask(1, &void, &mut copy), Verdict::ACCEPTED);
    for (at, &own) in void.iter().enumerate() {
        let zero = expected.contains(&at);
        assert_eq!(copy[at], if zero { 0 } else { own }, "{at}");
    }
    assert_eq!(copy.pop(), Some(0xEE));
    assert_eq!(table(1, &copy), table(1, &void));
    // In a report that stands the APNs and 183/0 are as they came.
    let inside = join(&[OVERLOAD, &APN.repeat(10), "56 00 02 00 18 AA"]);
    let stands = failure(&[&group(180, 0, &inside)]);
    assert_eq!(covered_places(1, &stands), [109, 110]);
}

#[test]
fn a_cleaned_copy_has_none() {
    let cleaned = |message: &[u8]| {
        let mut copy = vec![0; message.len()];
        let answer = clean(1, message, &mut copy);
        assert_eq!(answer.verdict, Verdict::ACCEPTED);
        copy.truncate(answer.length.into());
        copy
    };
    let good = report(3);
    assert_eq!(cleaned(&failure(&[&report(11)])), failure(&[]));
    let both = failure(&[&report(11), &good, &report(12)]);
    assert_eq!(cleaned(&both), failure(&[&good]));
    let ten = failure(&[&report(10)]);
    assert_eq!(cleaned(&ten), ten);
    // Ten APNs are left where an eleventh was short: the report goes all the same.
    let inside = join(&[OVERLOAD, &APN.repeat(10), EMPTY_APN]);
    assert_eq!(cleaned(&failure(&[&group(180, 0, &inside)])), failure(&[]));
    // 13 is measured against the copy without it: 33 octets.
    let void = failure(&[&report(11)]);
    let refused = Answer::refused(verdict([13, 0, 0, 0, 0]));
    assert_eq!(clean(1, &void, &mut [0; 32]), refused);
    assert_eq!(clean(1, &void, &mut [0; 33]).length, 33);
}

#[test]
fn the_builder_takes_none_and_makes_none() {
    let head = Head {
        teid: 1,
        sequence: 2,
    };
    let built = |table: &[u16], values: &[u8]| {
        let mut room = vec![0xEE; 200];
        let answer = build(head, table, values, &mut room);
        (answer.verdict.code, answer.length, room)
    };
    // The table of a message with a void report: its standing is not 0.
    let void = failure(&[&report(11)]);
    let (code, length, room) = built(&table(1, &void), &void);
    assert_eq!((code, length, room), (14, 0, vec![0xEE; 200]));
    // The same with that standing made 0: a report without what it must have.
    let mut kept = table(1, &void);
    (kept[1], kept[35]) = (5, 0);
    assert_eq!(built(&kept, &void).0, 16);
    // Ten APNs come back; with an eleventh row the report would be void.
    let ten = failure(&[&report(10)]);
    let mut rows_of_ten = table(1, &ten);
    let (code, length, room) = built(&rows_of_ten, &ten);
    assert_eq!((code, usize::from(length)), (0, ten.len()));
    assert_eq!(room[..ten.len()], ten);
    rows_of_ten.extend([5, 71, 0, 104, 1, 0]);
    rows_of_ten[..4].copy_from_slice(&[19, 19, 6, 120]);
    assert_eq!(built(&rows_of_ten, &ten), (16, 0, vec![0xEE; 200]));
    // An eleventh of another instance is not listed, which is 16 too; on its own
    // in a second report it is fine.
    rows_of_ten[116] = 1;
    assert_eq!(built(&rows_of_ten, &ten).0, 16);
}

#[test]
fn lookups_find_its_row() {
    let two = failure(&[&report(11), &report(1)]);
    let table = table(1, &two);
    let mut copy = vec![0; two.len()];
    mask(1, &two, &mut copy);
    assert_eq!(desk(1, 4, true, &two, &copy, &table), &two[37..110]);
    assert_eq!(desk(1, 4, false, &two, &copy, &table), &copy[37..110]);
    // The first that is kept is the second.
    assert_eq!(plain(1, 180, 0, &two, &table), &two[114..137]);
    let one = failure(&[&report(11)]);
    assert!(!plain_found(
        1,
        180,
        0,
        &one,
        &crate::support::table(1, &one)
    ));
}

/// The verdict at the end of one octet a part, and the table then.
fn fed(kind: u32, message: &[u8], numbers: usize) -> (Verdict, Vec<u16>) {
    let mut table = vec![0xAAAA; numbers];
    let mut pieces = start(kind, &mut table);
    for octet in message.chunks(1) {
        assert_eq!(pieces.part(octet, &mut table), Verdict::ACCEPTED);
    }
    (pieces.end(&mut table), table)
}

#[test]
fn in_parts_it_is_known_at_its_end() {
    let void = failure(&[&report(11)]);
    // Five rows need 36 numbers; with the inside they would be 120.
    let whole = table(1, &void);
    for numbers in [36, 37, 60, 119, 120, 200] {
        let expected = [&whole[..], &vec![0; numbers - 36]].concat();
        assert_eq!(fed(1, &void, numbers), (Verdict::ACCEPTED, expected));
    }
    let refused = verdict([10, 0, 0, 0, 0]);
    assert_eq!(fed(1, &void, 35), (refused, vec![0; 35]));
    // A good one after it: ten rows more, 96 numbers.
    let both = failure(&[&report(11), &report(6)]);
    let whole = table(1, &both);
    assert_eq!(whole.len(), 96);
    assert_eq!(fed(1, &both, 96), (Verdict::ACCEPTED, whole));
    assert_eq!(fed(1, &both, 95).0, refused);
    // Short and missing ones inside are no longer told, those outside are.
    let short = group(180, 0, &join(&["B7 00 00 00", &APN.repeat(11)]));
    assert_eq!(fed(1, &failure(&[&short]), 36).0, Verdict::ACCEPTED);
    let lacking = group(180, 0, "B7 00 04 00 00 00 00 2A");
    let found = fed(1, &failure(&[&short, &lacking]), 60).0;
    assert_eq!(found.numbers(), [12, 70, 96, 182, 0]);
    let found = fed(1, &failure(&[&lacking, &short]), 60).0;
    assert_eq!(found.numbers(), [12, 70, 33, 182, 0]);
    let found = fed(1, &message(67, &join(&[&short, "02 00 00 00"])), 60).0;
    assert_eq!(found.numbers(), [11, 67, 75, 2, 0]);
    // A break inside: 9, also where no table is lent.
    let cut = group(180, 0, &join(&[&APN.repeat(12), "47"]));
    for numbers in [0, 36, 200] {
        let found = fed(1, &failure(&[&cut]), numbers);
        let expected = verdict([9, 67, 97, 0, 0]);
        assert_eq!(found, (expected, vec![0; numbers]));
    }
}

#[test]
fn ten_comes_before_eleven_and_counts_the_final_rows() {
    let void = failure(&[&report(11)]);
    let judged_in = |message: &[u8], numbers: usize| {
        let mut table = vec![7; numbers];
        let verdict = judge(1, message, &mut table);
        assert!(verdict.accepted() || table.iter().all(|&number| number == 7));
        verdict.code
    };
    assert_eq!([35, 36].map(|numbers| judged_in(&void, numbers)), [10, 0]);
    // Without its 2/0 the body has four rows: 30 numbers.
    let lacks = message(67, &join(&[&FAILED[18..], &report(11)]));
    assert_eq!([29, 30].map(|numbers| judged_in(&lacks, numbers)), [10, 12]);
}

/// What a rule may say otherwise.
#[derive(Debug, Clone, Copy, PartialEq, Eq)]
enum Wrong {
    Nothing,
    ShortNotCounted,
    EveryInstance,
    DeeperCounted,
    /// All reports of a message together.
    Together,
    /// Only the first report of a message can be void.
    FirstAlone,
    /// A void one makes the next a repeat.
    MakesRepeat,
    /// 180/1 too.
    OfInstanceOne,
    /// Also where the group is not listed.
    Unlisted,
    RowsListed,
    RowNotListed,
    CountedAsKept,
    MissingTold,
    ShortTold,
    /// The first eleven decide, and a break after them is not looked for.
    BreakNotTold,
    HeadersCovered,
    NothingCovered,
    /// Inside as in a report that stands.
    CoveredAsKept,
    /// The first octet of a 79 or an 86 is not.
    FirstOctetOpen,
    /// A group inside has its headers uncovered.
    InnerHeadersOpen,
}

use Wrong::*;

const ALL: [Wrong; 19] = [
    ShortNotCounted,
    EveryInstance,
    DeeperCounted,
    Together,
    FirstAlone,
    MakesRepeat,
    OfInstanceOne,
    Unlisted,
    RowsListed,
    RowNotListed,
    CountedAsKept,
    MissingTold,
    ShortTold,
    BreakNotTold,
    HeadersCovered,
    NothingCovered,
    CoveredAsKept,
    FirstOctetOpen,
    InnerHeadersOpen,
];

/// Verdict with a large table, kept rows, rows, covered octets; nothing of the
/// last three where 9 is given.
#[derive(Debug, Clone, PartialEq, Eq)]
struct Seen {
    five: [u16; 5],
    kept: usize,
    rows: Vec<[u16; 6]>,
    covered: Vec<bool>,
}

/// Type, instance, where the value begins and ends.
type Element = (u8, u8, usize, usize);

/// The element at a place of a level that ends there.
fn element(message: &[u8], at: usize, end: usize) -> Result<Element, usize> {
    if end - at < 4 {
        return Err(at);
    }
    let length = usize::from(message[at + 1]) * 256 + usize::from(message[at + 2]);
    let value = at + 4;
    if value + length > end {
        return Err(at);
    }
    Ok((message[at], message[at + 3] & 15, value, value + length))
}

/// The elements up to the end, or up to where it is broken.
fn elements(message: &[u8], mut at: usize, end: usize) -> (Vec<Element>, Option<usize>) {
    let mut all = Vec::new();
    while at < end {
        match element(message, at, end) {
            Ok(one) => {
                at = one.3;
                all.push(one);
            }
            Err(place) => return (all, Some(place)),
        }
    }
    (all, None)
}

/// A Delete Bearer Failure Indication read once more, from its octets alone.
struct Reader<'m> {
    kind: u32,
    message: &'m [u8],
    wrong: Wrong,
    rows: Vec<[u16; 6]>,
    covered: Vec<bool>,
    short: Option<[u16; 5]>,
    missing: Vec<[u16; 5]>,
    /// APNs of all reports, and how many reports were void.
    together: usize,
    voids: usize,
}

type Lines = &'static [(u8, u8, bool, bool)];

/// Pairs with mandatory and may repeat; 255 is listed apart.
const BODY: Lines = &[
    (2, 0, true, false),
    (93, 0, true, true),
    (3, 0, false, false),
    (77, 0, false, false),
    (180, 0, false, true),
    (180, 1, false, false),
];
const CONTEXT: Lines = &[(73, 0, true, false), (2, 0, true, false)];
const REPORT: Lines = &[
    (183, 0, true, false),
    (182, 0, true, false),
    (156, 0, true, false),
    (71, 0, false, true),
];

impl Reader<'_> {
    fn is(&self, wrong: Wrong) -> bool {
        self.wrong == wrong
    }

    /// Reads a level; answers where it is broken.
    fn level(
        &mut self,
        lines: Lines,
        place: usize,
        parent: usize,
        at: usize,
        end: usize,
    ) -> Option<usize> {
        let mut came = Vec::new();
        let mut kept = Vec::new();
        let lacks = self.missing.len();
        self.missing.push([0; 5]);
        let mut next = at;
        while next < end {
            let one = match element(self.message, next, end) {
                Ok(one) => one,
                Err(place) => return Some(place),
            };
            let (typ, inst, value, after) = one;
            next = after;
            let is_off = (typ, inst) == (180, 1) && self.kind == 3;
            let mut line = lines.iter().find(|line| (line.0, line.1) == (typ, inst));
            line = line.filter(|_| !is_off);
            let private = (255, inst, false, true);
            if typ == 255 && parent == 0 {
                line = Some(&private);
            }
            let is_body_group = parent == 0 && typ == 180;
            let is_report = line.is_some() && is_body_group
                || self.is(Unlisted) && is_body_group && line.is_none();
            let mut standing = match line {
                None => 1,
                Some(line) if !line.3 && came.contains(&(typ, inst)) => 2,
                Some(_) if after - value < least(typ) => 3,
                Some(_) => 0,
            };
            if standing == 0 && is_report && inst == 0 && self.is(MakesRepeat) && self.voids > 0 {
                standing = 2;
            }
            came.push((typ, inst));
            let of_report = inst == 0 || self.is(OfInstanceOne) || line.is_none();
            let is_void = (standing == 0 || line.is_none())
                && is_report
                && of_report
                && self.is_void(value, after);
            if is_void {
                self.voids += 1;
                standing = 4;
            }
            if standing == 3 && line.is_some_and(|line| line.2) {
                self.short
                    .get_or_insert([11, 67, value as u16 - 4, typ.into(), inst.into()]);
            }
            if standing == 0 {
                kept.push((typ, inst));
            }
            let row = [
                parent as u16,
                typ.into(),
                inst.into(),
                value as u16,
                (after - value) as u16,
                standing,
            ];
            self.rows.push(row);
            let number = self.rows.len();
            match (standing, typ) {
                (0, 93) => {
                    if let Some(place) = self.level(CONTEXT, value - 4, number, value, after) {
                        return Some(place);
                    }
                }
                (0, 180) => {
                    let lines = if inst == 0 { REPORT } else { &REPORT[..3] };
                    if let Some(place) = self.level(lines, value - 4, number, value, after) {
                        return Some(place);
                    }
                }
                (4, _) => self.void(number, value, after),
                _ => self.cover(typ, standing, value, after),
            }
        }
        let mut wanted = lines.iter().filter(|line| line.2);
        if let Some(line) = wanted.find(|line| !kept.contains(&(line.0, line.1))) {
            let group = if parent == 0 { 0 } else { place as u16 };
            self.missing[lacks] = [12, 70, group, line.0.into(), line.1.into()];
        }
        None
    }

    fn cover(&mut self, typ: u8, standing: u16, value: usize, after: usize) {
        match (standing, typ) {
            (1 | 2, _) | (_, 1 | 74 | 75 | 76 | 78 | 103..=108 | 255) => {
                self.covered[value..after].fill(true)
            }
            (_, 79 | 86) if after > value => self.covered[value + 1..after].fill(true),
            _ => {}
        }
    }

    fn is_void(&mut self, value: usize, after: usize) -> bool {
        let (inside, broken) = elements(self.message, value, after);
        let mut count = 0;
        for &(typ, inst, from, to) in &inside {
            let counts = match self.wrong {
                EveryInstance => typ == 71,
                ShortNotCounted => (typ, inst) == (71, 0) && to > from,
                _ => (typ, inst) == (71, 0),
            };
            count += usize::from(counts);
            if self.is(DeeperCounted) && matches!(typ, 93 | 109 | 180) {
                let (deeper, _) = elements(self.message, from, to);
                count += deeper
                    .iter()
                    .filter(|one| (one.0, one.1) == (71, 0))
                    .count();
            }
        }
        self.together += count;
        match self.wrong {
            _ if broken.is_some() && !self.is(BreakNotTold) => false,
            Together => self.together > 10,
            FirstAlone => count > 10 && self.voids == 0 && self.together == count,
            _ => count > 10,
        }
    }

    /// A void group, whose row is the last.
    fn void(&mut self, number: usize, value: usize, after: usize) {
        let (inside, _) = elements(self.message, value, after);
        let (rows, missing) = (self.rows.len(), self.missing.len());
        let (short, covered) = (self.short, self.covered.clone());
        self.level(REPORT, value - 4, number, value, after);
        let (short, missing_there) = (
            if self.is(ShortTold) {
                self.short
            } else {
                short
            },
            self.missing.split_off(missing),
        );
        self.short = short;
        if self.is(MissingTold) {
            self.missing.extend(missing_there);
        }
        if !self.is(RowsListed) {
            self.rows.truncate(rows);
        }
        if self.is(RowNotListed) {
            self.rows.pop();
        }
        if self.is(CoveredAsKept) {
            return;
        }
        self.covered = covered;
        match self.wrong {
            NothingCovered => {}
            HeadersCovered => self.covered[value..after].fill(true),
            _ => {
                for (typ, _, from, to) in inside {
                    self.cover_inside(typ, from, to);
                }
            }
        }
    }

    fn cover_inside(&mut self, typ: u8, from: usize, to: usize) {
        match typ {
            79 | 86 if self.is(FirstOctetOpen) => self.covered[to.min(from + 1)..to].fill(true),
            93 | 109 | 180 if self.is(InnerHeadersOpen) => {
                for (_, _, from, to) in elements(self.message, from, to).0 {
                    self.covered[from..to].fill(true);
                }
            }
            _ => self.covered[from..to].fill(true),
        }
    }
}

fn least(typ: u8) -> usize {
    match typ {
        93 | 109 | 180 => 0,
        2 | 255 => 2,
        183 => 4,
        _ => 1,
    }
}

/// What a rule with this wrong makes of a message of type 67 whose header is
/// right.
fn by_octets(case: &Case, wrong: Wrong) -> Seen {
    let message = &case.message[..];
    let mut reader = Reader {
        kind: case.kind,
        message,
        wrong,
        rows: Vec::new(),
        covered: vec![false; message.len()],
        short: None,
        missing: Vec::new(),
        together: 0,
        voids: 0,
    };
    if let Some(place) = reader.level(BODY, 0, 0, 12, message.len()) {
        return Seen {
            five: [9, 67, place as u16, 0, 0],
            kept: 0,
            rows: Vec::new(),
            covered: vec![false; message.len()],
        };
    }
    let missing = reader.missing.iter().find(|five| five[0] > 0);
    let counts = |row: &&[u16; 6]| row[5] == 0 || wrong == CountedAsKept && row[5] == 4;
    Seen {
        five: reader.short.or(missing.copied()).unwrap_or_default(),
        kept: reader.rows.iter().filter(counts).count(),
        rows: reader.rows,
        covered: reader.covered,
    }
}

/// The same by the program.
fn by_the_program(case: &Case) -> Seen {
    let Case { kind, message } = case;
    let rows = DOCUMENT.rows(*kind, message).unwrap_or_default();
    let mut table = vec![0; DOCUMENT.used(rows.len())];
    DOCUMENT.write_table(*kind, message, &rows, &mut table);
    Seen {
        five: judged(*kind, message).0.numbers(),
        kept: table[1].into(),
        rows: crate::support::rows(&table).to_vec(),
        covered: DOCUMENT.covered(*kind, message),
    }
}

/// Is it a Delete Bearer Failure Indication that 1 to 8 let pass?
fn is_failure(case: &Case) -> bool {
    let passes = !matches!(judged(case.kind, &case.message).0.code, 1..=8 | 21);
    passes && case.message[1] == 67
}

#[test]
fn the_rule_over_the_octets() {
    let mut generator = Generator::new(91);
    let overloads = (0..20_000).map(|_| generator.overload());
    let cases = figures().into_iter().chain(overloads);
    let (mut read, mut void) = (0, 0);
    for case in cases.filter(is_failure) {
        let seen = by_the_program(&case);
        assert_eq!(seen, by_octets(&case, Nothing), "{case:?}");
        read += 1;
        void += usize::from(seen.rows.iter().any(|row| row[5] == 4));
    }
    println!("{read} messages, {void} with a void group");
    assert!(read > 20_000 && void > 8_000, "{read} {void}");
}

#[test]
fn wrong_rules_are_seen() {
    let mut seen = [0; ALL.len()];
    for case in figures().into_iter().filter(is_failure) {
        let right = by_the_program(&case);
        for (seen, wrong) in seen.iter_mut().zip(ALL) {
            *seen += usize::from(by_octets(&case, wrong) != right);
        }
    }
    let named = ALL.iter().zip(seen).collect::<Vec<_>>();
    println!("{named:?}");
    assert!(seen.iter().all(|&seen| seen >= 20), "{named:?}");
}

/// Void groups on each kind that would be listed, or give 11 or 12, if there were
/// no limit.
#[test]
fn figures_meet_every_way_to_be_void() {
    let mut met = BTreeMap::new();
    for case in figures() {
        let (found, table) = judged(case.kind, &case.message);
        if found.accepted() && rows(&table).iter().any(|row| row[5] == 4) {
            let mut numbers = vec![0; UNLIMITED.used(1022)];
            let other = judge_by(&UNLIMITED, case.kind, &case.message, &mut numbers);
            *met.entry((case.kind, other.code)).or_insert(0) += 1;
        }
    }
    let all = (1..=3).flat_map(|kind| [0, 11, 12].map(|code| (kind, code)));
    assert_eq!(
        met.keys().copied().collect::<Vec<_>>(),
        all.collect::<Vec<_>>()
    );
    assert!(met.values().all(|&count| count >= 90), "{met:?}");
}
