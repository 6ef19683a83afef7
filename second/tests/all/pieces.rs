//! The pieces form against the judge, which sees the message joined: examples,
//! generated messages cut in every way, and wrong forms, which the feeds show.

use crate::support::{judge, judge_by, octets, table, verdict};
use second::generate::{
    figures, parts, Call, Case, Cut, Feed, Generator, Left, Random, What, CUTS, UNLIMITED,
};
use second::rules::{Check, Least, Standing};
use second::{judge_copy_octets, start, start_octets, State, Verdict, DOCUMENT};

const CASES: usize = 12_000;
const D: &str = "40 01 00 09 00 00 01 00 03 00 01 00 07";
const G: &str = "48 42 00 11 00 00 00 01 00 00 02 00 5D 00 05 00 49 00 01 00 05";
const J: &str =
    "48 42 00 1A 00 00 00 01 00 00 02 00 5D 00 05 00 49 00 0A 00 05 5D 00 05 00 49 00 01 00 06";
const ENDED: [u16; 5] = [17, 0, 0, 0, 0];

/// Octets that a state needs.
fn enough() -> usize {
    DOCUMENT.sizes.state
}

/// The verdict at the end of these parts, and the table then; each part is taken.
fn fed(kind: u32, parts: &[&[u8]], numbers: usize) -> (Verdict, Vec<u16>) {
    let mut table = vec![0xAAAA; numbers];
    let mut pieces = start(kind, &mut table);
    assert_eq!(table, vec![0; numbers]);
    for part in parts {
        assert_eq!(pieces.part(part, &mut table), Verdict::ACCEPTED);
    }
    let verdict = pieces.end(&mut table);
    (verdict, table)
}

/// What the judge says of the joined message, with a table of zeros.
fn joined(kind: u32, parts: &[&[u8]], numbers: usize) -> (Verdict, Vec<u16>) {
    let mut table = vec![0; numbers];
    let verdict = judge(kind, &parts.concat(), &mut table);
    (verdict, table)
}

#[test]
fn d_octet_by_octet() {
    let d = octets(D);
    let each = d.chunks(1).collect::<Vec<_>>();
    let (verdict, numbers) = fed(1, &each, 14);
    assert_eq!(verdict, Verdict::ACCEPTED);
    assert_eq!(numbers[..12], table(1, &d));
    assert_eq!(numbers, [1, 1, 6, 12, 1, 1, 0, 3, 0, 12, 1, 0, 0, 0]);
    // Without its last octet.
    assert_eq!(fed(1, &each[..12], 14), (verdict_of(6, 67), vec![0; 14]));
}

fn verdict_of(code: u16, cause: u16) -> Verdict {
    verdict([code, cause, 0, 0, 0])
}

#[test]
fn nothing_is_answered_before_the_end() {
    // No octet, and a kind that is none; both at once; the version; the header.
    assert_eq!(fed(1, &[], 6).0, verdict_of(2, 0));
    assert_eq!(fed(1, &[&[], &[]], 6).0, verdict_of(2, 0));
    assert_eq!(fed(257, &[], 0).0, verdict_of(1, 0));
    assert_eq!(fed(1, &[&[0x60]], 6).0, verdict_of(3, 0));
    assert_eq!(fed(1, &[&[0x40]], 6).0, verdict_of(4, 0));
    // An inner element that passes its group's end: 9, though no table is lent.
    let j = octets(J);
    for numbers in [0, 5, 6, 40] {
        let (found, table) = fed(1, &j.chunks(1).collect::<Vec<_>>(), numbers);
        assert_eq!(found.numbers(), [9, 67, 16, 0, 0]);
        assert_eq!(table, vec![0; numbers]);
    }
    // The same with an octet more: the length decides.
    let more = [&j[..], &[0]].concat();
    assert_eq!(fed(1, &[&more], 40).0, verdict_of(6, 67));
}

#[test]
fn seventeen_changes_nothing() {
    let g = octets(G);
    let mut lent = [7; 20];
    let mut pieces = start(1, &mut lent);
    let refused = verdict(ENDED);
    let mut other = [5; 19];
    assert_eq!(pieces.part(&g, &mut other), refused);
    assert_eq!(pieces.part(&g[..13], &mut lent), Verdict::ACCEPTED);
    assert_eq!(pieces.end(&mut other), refused);
    assert_eq!(pieces.end(&mut []), refused);
    assert_eq!(pieces.part(&[], &mut [9; 21]), refused);
    assert_eq!(other, [5; 19]);
    assert_eq!(pieces.part(&g[13..], &mut lent), Verdict::ACCEPTED);
    assert_eq!(pieces.end(&mut lent), Verdict::ACCEPTED);
    let whole = [
        2, 2, 6, 18, 66, 1, 0, 93, 0, 16, 5, 0, 1, 73, 0, 20, 1, 0, 0, 0,
    ];
    assert_eq!(lent, whole);
    for part in [&g[..], &[]] {
        assert_eq!(pieces.part(part, &mut lent), refused);
        assert_eq!(pieces.end(&mut lent), refused);
        assert_eq!(pieces.end(&mut other), refused);
    }
    assert_eq!((lent, other), (whole, [5; 19]));
    // Only a start makes it take something again, and nothing is left over.
    pieces = start(1, &mut lent);
    assert_eq!(lent, [0; 20]);
    assert_eq!(pieces.end(&mut lent), verdict_of(2, 0));
}

#[test]
fn a_state_that_is_too_short() {
    let mut state = State::default();
    let mut table = [7; 13];
    assert_eq!(start_octets(1, &mut state, enough() - 1, &mut table), 17);
    assert_eq!(table, [7; 13]);
    let mut five = [7; 11];
    assert_eq!(
        second::part_octets(&mut state, enough() - 1, &[], &mut table, &mut five),
        17
    );
    assert_eq!(five, [0, 17, 0, 0, 0, 0, 0, 0, 0, 0, 7]);
    // The table's odd last octet is none of its numbers.
    assert_eq!(start_octets(1, &mut state, enough(), &mut table), 0);
    assert_eq!(table, [0, 0, 0, 0, 0, 0, 0, 0, 0, 0, 0, 0, 7]);
    assert_eq!(start_octets(2, &mut state, 0, &mut table), 17);
    assert_eq!(
        second::end_octets(&mut state, enough() / 2, &mut table, &mut five),
        17
    );
    assert_eq!(
        second::end_octets(&mut state, enough() + 9, &mut table[..12], &mut [0; 9]),
        2
    );
}

/// Every way to cut one message, with tables around what it needs.
fn assert_as_joined(case: &Case, seed: u64) {
    let mut random = Random::new(seed);
    for cut in CUTS {
        let parts = parts(&case.message, cut, &mut random);
        assert_eq!(parts.concat(), case.message);
        let numbers = *random.pick(&case.table_lengths());
        let expected = joined(case.kind, &parts, numbers);
        assert_eq!(
            fed(case.kind, &parts, numbers),
            expected,
            "{cut:?} {case:?}"
        );
    }
}

#[test]
fn the_mix_in_every_cut() {
    for (seed, case) in Generator::new(81).take(CASES / 4).enumerate() {
        assert_as_joined(&case, seed as u64);
    }
}

#[test]
fn tables_of_all_lengths() {
    for (seed, case) in Generator::new(82).take(CASES / 4).enumerate() {
        let mut random = Random::new(seed as u64);
        let parts = parts(&case.message, Cut::Chance, &mut random);
        for numbers in case.table_lengths() {
            let expected = joined(case.kind, &parts, numbers);
            assert_eq!(fed(case.kind, &parts, numbers), expected, "{case:?}");
        }
    }
}

#[test]
fn two_parts_cut_at_every_place() {
    let mut generator = Generator::new(83);
    let mut cuts = 0;
    for _ in 0..200 {
        for case in [generator.good(), generator.damaged()] {
            let length = case.message.len();
            let numbers = case.table_need();
            for place in 0..=length.min(600) {
                let (first, rest) = case.message.split_at(place);
                let expected = joined(case.kind, &[first, rest], numbers);
                assert_eq!(fed(case.kind, &[first, rest], numbers), expected);
                cuts += 1;
            }
        }
    }
    assert!(cuts > 30_000, "{cuts}");
}

#[test]
fn octets_past_the_longest_are_counted() {
    // A good message, and after it so many octets that a count of 16 or of 32
    // bits would be that of the message again.
    let d = octets(D);
    let many = vec![0; 1 << 16];
    let with_more = |times: usize| {
        let mut parts = vec![&d[..]];
        parts.extend(vec![&many[..]; times]);
        parts
    };
    assert_eq!(fed(1, &with_more(0), 12).0, Verdict::ACCEPTED);
    assert_eq!(fed(1, &with_more(1), 12).0, verdict_of(2, 0));
    let (found, table) = fed(1, &with_more(1 << 16), 12);
    assert_eq!((found, table), (verdict_of(2, 0), vec![0; 12]));
    // And of 4,096 octets, one more, and twice as many.
    let mut largest = octets("40 01 0F FC 00 00 01 00 03 0F F4 00");
    largest.resize(4_096, 7);
    assert_eq!(fed(1, &[&largest], 12).0, Verdict::ACCEPTED);
    assert_eq!(fed(1, &[&largest, &[]], 12).0, Verdict::ACCEPTED);
    assert_eq!(fed(1, &[&largest, &[0]], 12).0, verdict_of(2, 0));
    assert_eq!(
        fed(1, &[&largest[..4_095], &[7, 7]], 12).0,
        verdict_of(2, 0)
    );
    assert_eq!(fed(1, &[&largest, &largest], 12).0, verdict_of(2, 0));
    assert_eq!(fed(5, &[&largest, &largest], 12).0, verdict_of(1, 0));
}

/// What a pieces form may get wrong that is no figure of the rules.
#[derive(Debug, Clone, Copy, PartialEq, Eq)]
enum Wrong {
    Nothing,
    LastOctetOfAPartLost,
    /// A part of one octet is taken for an empty one.
    OneOctetLost,
    EmptyPartEnds,
    EmptyPartRefused,
    /// The first octet of a value, at the start of a part, reads as 0.
    FirstOfValueLost,
    /// An element's header in two parts: what stands in the first reads as 0.
    HeaderLost,
    /// The same of the message's header.
    MessageHeaderLost,
    /// Octets past the longest message are not counted.
    CountStops,
    TableNotZeroAtStart,
    TableLeftOnRefusal,
    /// A table that is too short is told before a break that comes later.
    TableShortFirst,
    OddOctetWritten,
    /// Another length is another number of octets.
    LengthInOctets,
    OtherLengthTaken,
    OtherLengthEnds,
    ShortStateTaken,
    TakenAfterEnd,
    EndTwice,
    NotFresh,
    /// What stood inside a void group is not made zero.
    InsideLeft,
    /// A table that the inside overran is too short.
    InsideOverran,
    /// Rows inside a void group stay counted as kept.
    InsideKept,
    /// What is short or missing inside a void group is told.
    InsideShort,
    InsideMissing,
    /// A void group takes back what was short or missing before it.
    BeforeForgotten,
}

use Wrong::*;

const ALL: [Wrong; 25] = [
    LastOctetOfAPartLost,
    OneOctetLost,
    EmptyPartEnds,
    EmptyPartRefused,
    FirstOfValueLost,
    HeaderLost,
    MessageHeaderLost,
    CountStops,
    TableNotZeroAtStart,
    TableLeftOnRefusal,
    TableShortFirst,
    OddOctetWritten,
    LengthInOctets,
    OtherLengthTaken,
    OtherLengthEnds,
    ShortStateTaken,
    TakenAfterEnd,
    EndTwice,
    NotFresh,
    InsideLeft,
    InsideOverran,
    InsideKept,
    InsideShort,
    InsideMissing,
    BeforeForgotten,
];

/// The form that keeps all octets and has them judged at the end.
struct Stored {
    wrong: Wrong,
    is_open: bool,
    kind: u32,
    /// Octets of the table at the start.
    table: usize,
    octets: Vec<u8>,
    /// Where parts begin.
    begin: Vec<usize>,
}

impl Stored {
    fn new(wrong: Wrong) -> Self {
        Self {
            wrong,
            is_open: false,
            kind: 0,
            table: 0,
            octets: Vec::new(),
            begin: Vec::new(),
        }
    }

    /// The fault of this form, where it is that one.
    fn is(&self, wrong: Wrong) -> bool {
        self.wrong == wrong
    }

    fn call(&mut self, call: &Call, table: &mut [u8], five: &mut [u8]) -> u16 {
        let even = if self.is(OddOctetWritten) {
            table.len()
        } else {
            table.len() / 2 * 2
        };
        let is_short = call.state < enough() && !self.is(ShortStateTaken);
        if let What::Start(kind) = call.what {
            if is_short {
                return 17;
            }
            self.start(kind, &mut table[..even], call.table);
            return 0;
        }
        let refused = is_short || self.is_refused(call);
        let verdict = match call.what {
            _ if refused => verdict(ENDED),
            What::Part(part) => self.part(part),
            _ => self.end(&mut table[..even]),
        };
        if five.len() >= 10 {
            let numbers = verdict.numbers();
            let numbers = numbers.iter().flat_map(|number| number.to_be_bytes());
            five.iter_mut()
                .zip(numbers)
                .for_each(|(place, octet)| *place = octet);
        }
        verdict.code
    }

    fn start(&mut self, kind: u32, table: &mut [u8], length: usize) {
        if !self.is(TableNotZeroAtStart) {
            table.fill(0);
        }
        if !self.is(NotFresh) || self.octets.is_empty() {
            (self.octets, self.begin) = (Vec::new(), Vec::new());
        }
        (self.is_open, self.kind, self.table) = (true, kind, length);
    }

    fn is_refused(&mut self, call: &Call) -> bool {
        let is_other = match self.wrong {
            LengthInOctets => call.table != self.table,
            OtherLengthTaken => false,
            _ => call.table / 2 != self.table / 2,
        };
        let is_over = !self.is_open
            && !match call.what {
                What::Part(_) => self.is(TakenAfterEnd),
                _ => self.is(EndTwice),
            };
        if is_other && self.is(OtherLengthEnds) {
            self.is_open = false;
        }
        is_other || is_over
    }

    fn part(&mut self, part: &[u8]) -> Verdict {
        let taken = match (self.wrong, part.len()) {
            (LastOctetOfAPartLost, 2..) => &part[..part.len() - 1],
            (OneOctetLost, 1) => &[],
            (EmptyPartEnds, 0) => {
                self.is_open = false;
                part
            }
            (EmptyPartRefused, 0) => return verdict(ENDED),
            _ => part,
        };
        self.begin.push(self.octets.len());
        self.octets.extend(taken);
        Verdict::ACCEPTED
    }

    fn end(&mut self, table: &mut [u8]) -> Verdict {
        self.is_open = false;
        let message = self.seen();
        let mut fresh = vec![0; table.len()];
        let mut five = [0; 10];
        let mut copy = vec![0; message.len()];
        judge_copy_octets(self.kind, &message, &mut fresh, &mut copy, &mut five);
        let (numbers, _) = five.as_chunks();
        let mut numbers = numbers.iter().map(|&number| u16::from_be_bytes(number));
        let mut found = verdict([(); 5].map(|()| numbers.next().expect("five numbers")));
        if self.is(TableShortFirst) && found.code == 9 {
            let before = usize::from(found.place) / 20;
            if table.len() / 2 < DOCUMENT.used(before) {
                found = DOCUMENT.refusal(Check::TableRoom);
            }
        }
        self.spoil_void(&message, &mut found, &mut fresh);
        let leaves = self.is(TableLeftOnRefusal) && matches!(found.code, 9..=12);
        if leaves && table.len() >= 14 {
            fresh[13] = 1;
        }
        if self.is(TableNotZeroAtStart) && found.accepted() {
            let used = 2 * usize::from(u16::from_be_bytes([fresh[6], fresh[7]]));
            table[..used].copy_from_slice(&fresh[..used]);
        } else {
            table.copy_from_slice(&fresh);
        }
        found
    }

    /// What a form gets wrong that does not take everything back, or too much.
    fn spoil_void(&self, message: &[u8], found: &mut Verdict, table: &mut [u8]) {
        let room = table.len() / 2;
        let mut listed = vec![0; UNLIMITED.used(1022)];
        let unlimited = judge_by(&UNLIMITED, self.kind, message, &mut listed);
        let rows = DOCUMENT.rows(self.kind, message).unwrap_or_default();
        let all = UNLIMITED.rows(self.kind, message).unwrap_or_default();
        if rows.len() == all.len() {
            return;
        }
        let overran = room < UNLIMITED.used(all.len());
        match self.wrong {
            InsideOverran if overran => *found = DOCUMENT.refusal(Check::TableRoom),
            InsideShort if unlimited.code == 11 && found.code != 10 => *found = unlimited,
            InsideMissing if unlimited.code == 12 && found.accepted() => *found = unlimited,
            InsideLeft if found.accepted() && room > DOCUMENT.used(rows.len()) => {
                let at = 2 * DOCUMENT.used(rows.len()) + 1;
                table[at] = 1;
            }
            InsideKept if found.accepted() => {
                let kept = all.iter().filter(|row| row.standing == Standing::Kept);
                table[2..4].copy_from_slice(&(kept.count() as u16).to_be_bytes());
            }
            BeforeForgotten => {
                let void = rows.iter().rfind(|row| row.standing == Standing::Void);
                let is_before = void.is_some_and(|void| found.place < void.place);
                if matches!(found.code, 11 | 12) && found.place > 0 && is_before {
                    *found = Verdict::ACCEPTED;
                }
            }
            _ => {}
        }
        if !found.accepted() {
            table.fill(0);
        }
    }

    /// The message as this form reads it.
    fn seen(&self) -> Vec<u8> {
        let mut message = self.octets.clone();
        match self.wrong {
            CountStops => message.truncate(4_096),
            FirstOfValueLost => {
                for place in self.elements().map(|place| place + 4) {
                    if place < message.len() && self.begin.contains(&place) {
                        message[place] = 0;
                    }
                }
            }
            HeaderLost => {
                for place in self.elements() {
                    self.lose(&mut message, place, place + 4);
                }
            }
            MessageHeaderLost => self.lose(&mut message, 0, 4),
            _ => {}
        }
        message
    }

    /// Where the elements of the message begin, if it is whole.
    fn elements(&self) -> impl Iterator<Item = usize> {
        let rows = DOCUMENT.rows(self.kind, &self.octets).unwrap_or_default();
        rows.into_iter().map(|row| usize::from(row.first_octet()))
    }

    /// What stands from there up to the last part's beginning before the end.
    fn lose(&self, message: &mut [u8], from: usize, to: usize) {
        let begins = self.begin.iter().filter(|&&at| from < at && at < to);
        if let Some(&at) = begins.max() {
            let at = at.min(message.len());
            message[from.min(at)..at].fill(0);
        }
    }
}

fn left_by_stored(feed: &Feed, wrong: Wrong) -> Vec<Left> {
    let mut stored = Stored::new(wrong);
    feed.run(|call, table, five| stored.call(call, table, five))
}

/// Each call of a feed answers and leaves what the stored form does.
fn assert_fed(case: &Case, seed: u64) {
    let feed = case.feed(seed);
    let (ours, expected) = (feed.left_by(&DOCUMENT), left_by_stored(&feed, Nothing));
    if ours != expected {
        let at = ours
            .iter()
            .zip(&expected)
            .position(|(ours, other)| ours != other);
        let at = at.expect("as many answers as calls");
        panic!(
            "{seed}, call {at} {:?}: {:?} not {:?}\n{case:?}",
            feed.calls[at], ours[at], expected[at]
        );
    }
}

#[test]
fn feeds_of_the_figures() {
    for (seed, case) in figures().iter().enumerate() {
        assert_fed(case, seed as u64);
    }
}

#[test]
fn feeds_of_the_mix() {
    for (seed, case) in Generator::new(84).take(CASES).enumerate() {
        assert_fed(&case, seed as u64);
    }
}

#[test]
fn feeds_at_the_limits() {
    let mut generator = Generator::new(85);
    for seed in 0..300 {
        assert_fed(&generator.at_limit(), seed);
    }
}

#[test]
fn wrong_forms_are_seen() {
    let mut seen = [0; ALL.len()];
    for (seed, case) in figures().iter().enumerate() {
        let feed = case.feed(seed as u64);
        let right = feed.left_by(&DOCUMENT);
        for (seen, wrong) in seen.iter_mut().zip(ALL) {
            if *seen < 1_000 {
                *seen += usize::from(left_by_stored(&feed, wrong) != right);
            }
        }
    }
    let named = ALL.iter().zip(seen).collect::<Vec<_>>();
    println!("{named:?}");
    assert!(seen.iter().all(|&seen| seen >= 20), "{named:?}");
}

/// What the feeds of the gate's messages meet.
#[test]
fn feeds_meet_every_place() {
    const NAMES: [&str; 18] = [
        "a part begins at an element",
        "one octet into a header",
        "two octets into it",
        "three octets into it",
        "between a header and its value",
        "the same of a type whose first octet bears",
        "after that first octet",
        "at the end of a group",
        "after the message's first octet",
        "within its length",
        "an empty part first",
        "an empty part last",
        "two empty parts",
        "no part",
        "a part begins in a void group",
        "between two elements of it",
        "within the header of one of them",
        "at its end",
    ];
    let mut met = [0; NAMES.len()];
    for (seed, case) in figures().iter().enumerate() {
        let cut = CUTS[seed % CUTS.len()];
        let parts = parts(&case.message, cut, &mut Random::new(seed as u64));
        let mut begin = vec![false; case.message.len() + 1];
        let mut at = 0;
        for part in &parts {
            begin[at] |= at > 0;
            at += part.len();
        }
        let mut note = |number: usize, is: bool| met[number] += usize::from(is);
        note(8, begin.get(1) == Some(&true));
        note(9, begin.get(3) == Some(&true));
        note(
            10,
            parts.first().is_some_and(|part| part.is_empty()) && at > 0,
        );
        note(
            11,
            parts.last().is_some_and(|part| part.is_empty()) && at > 0,
        );
        note(12, parts.iter().filter(|part| part.is_empty()).count() > 1);
        note(13, at == 0);
        for row in DOCUMENT.rows(case.kind, &case.message).unwrap_or_default() {
            let place = usize::from(row.place);
            let facts = DOCUMENT.facts(row.typ);
            let bears = matches!(facts.least, Least::ByFirst(_)) && row.length > 0;
            for into in 0..=4 {
                note(into, begin[place - 4 + into]);
            }
            note(5, bears && begin[place]);
            note(6, bears && begin[place + 1]);
            note(7, facts.group && begin[place + usize::from(row.length)]);
        }
        for (place, end) in void_groups(case) {
            note(14, begin[place + 1..end].contains(&true));
            note(17, begin[end]);
            let mut at = place;
            while at < end {
                note(15, at > place && begin[at]);
                note(16, begin[at + 1..at + 4].contains(&true));
                at += 4 + usize::from(u16::from_be_bytes([
                    case.message[at + 1],
                    case.message[at + 2],
                ]));
            }
        }
    }
    let named = NAMES.iter().zip(met).collect::<Vec<_>>();
    assert!(met.iter().all(|&met| met >= 20), "{named:?}");
}

/// Where the values of void groups begin and end.
fn void_groups(case: &Case) -> Vec<(usize, usize)> {
    let rows = DOCUMENT.rows(case.kind, &case.message).unwrap_or_default();
    let void = rows.iter().filter(|row| row.standing == Standing::Void);
    let place = |row: &second::walk::Row| usize::from(row.place);
    void.map(|row| (place(row), place(row) + usize::from(row.length)))
        .collect()
}

/// Tables that are long enough though the inside of a void group overruns them,
/// tables that are not, and such that hold the inside too.
#[test]
fn feeds_lend_tables_around_void_groups() {
    let mut met = [0; 4];
    for (seed, case) in figures().iter().enumerate() {
        if void_groups(case).is_empty() {
            continue;
        }
        let (need, more) = (case.table_need(), case.table_need_with_insides());
        let feed = case.feed(seed as u64);
        let mut kind = None;
        for (call, left) in feed.calls.iter().zip(feed.left_by(&DOCUMENT)) {
            match call.what {
                What::Start(told) if left.code == 0 => kind = Some(told),
                _ => {}
            }
            if call.what != What::End || left.code == 17 || kind != Some(case.kind) {
                continue;
            }
            let numbers = call.table / 2;
            let way = match numbers {
                _ if numbers < need => 0,
                _ if numbers == need => 1,
                _ if numbers < more => 2,
                _ => 3,
            };
            assert_eq!(left.code == 10, way == 0, "{call:?}");
            met[way] += 1;
        }
    }
    assert!(met.iter().all(|&met| met >= 100), "{met:?}");
}

#[test]
fn feeds_of_overloads() {
    let mut generator = Generator::new(86);
    for seed in 0..CASES as u64 {
        assert_fed(&generator.overload(), seed);
    }
}

#[test]
fn overloads_in_every_cut() {
    let mut generator = Generator::new(87);
    for seed in 0..CASES as u64 / 8 {
        assert_as_joined(&generator.overload(), seed);
    }
}

#[test]
fn feeds_meet_every_code() {
    let mut met = [0; 22];
    for (seed, case) in figures().iter().enumerate() {
        let feed = case.feed(seed as u64);
        assert!(feed
            .left_by(&DOCUMENT)
            .iter()
            .all(|left| left.is_as_before == (left.code == 17)));
        for left in feed.left_by(&DOCUMENT) {
            met[usize::from(left.code)] += 1;
        }
    }
    for code in (0..=12).chain([17, 21]) {
        assert!(met[code] >= 50, "{met:?}");
    }
    assert_eq!(met[13..17], [0; 4]);
    assert_eq!(met[18..21], [0; 3]);
}
