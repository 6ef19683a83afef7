//! What the gate's messages and lookups meet, counted: nothing fewer than ten
//! times.

use std::collections::{BTreeMap, BTreeSet};

use crate::support::judged;
use second::generate::{figures, Ask, Buffers, Case, Generator, Lookup, ANSWERS};
use second::listings::Line;
use second::rules::Standing;
use second::walk::Row;
use second::{clean, judge_copy, DOCUMENT};

const AT_LEAST: usize = 10;

/// A count for each name; every name is set up before the run.
#[derive(Default)]
struct Counts(BTreeMap<String, usize>);

impl Counts {
    fn expect(&mut self, name: impl Into<String>) {
        self.0.insert(name.into(), 0);
    }

    /// Names that were not set up are of no interest.
    fn count(&mut self, name: &str) {
        if let Some(count) = self.0.get_mut(name) {
            *count += 1;
        }
    }

    fn assert_enough(&self) {
        let rare = self.0.iter().filter(|(_, &count)| count < AT_LEAST);
        let rare = rare.collect::<Vec<_>>();
        assert!(rare.is_empty(), "met too rarely: {rare:#?}");
    }
}

/// The groups around an element at `place`, by their first octets from the outermost
/// on, and the end of its level, read off the body.
fn around(message: &[u8], place: usize) -> (Vec<usize>, usize) {
    let mut at = if message[0] & 8 == 0 { 8 } else { 12 };
    let (mut groups, mut level_end) = (Vec::new(), message.len());
    while at < place {
        let end = at + 4 + claim(message, at);
        if place < end {
            groups.push(at);
            level_end = end;
            at += 4;
        } else {
            at = end;
        }
    }
    (groups, level_end)
}

/// The level of an element at `place`, and its end.
fn level_of(message: &[u8], place: usize) -> (&'static str, usize) {
    let (groups, end) = around(message, place);
    let types = groups.iter().map(|&group| message[group]);
    (level_name(&types.collect::<Vec<_>>()), end)
}

/// The length that the element there has by its own word.
fn claim(message: &[u8], at: usize) -> usize {
    usize::from(u16::from_be_bytes([message[at + 1], message[at + 2]]))
}

/// The name of a level by the types of the groups around it.
fn level_name(groups: &[u8]) -> &'static str {
    match groups {
        [] => "the message",
        [93] => "a 93",
        [109] => "a 109",
        [180] => "a 180",
        [109, 93] => "a 93 in a 109",
        _ => panic!("no such level: {groups:?}"),
    }
}

const LEVELS: [&str; 5] = ["the message", "a 93", "a 180", "a 109", "a 93 in a 109"];

fn count_verdict(counts: &mut Counts, case: &Case) {
    let (verdict, _) = judged(case.kind, &case.message);
    counts.count(&format!("code {}", verdict.code));
    let place = usize::from(verdict.place);
    match verdict.code {
        9 => {
            let (level, end) = level_of(&case.message, place);
            let left = end - place;
            let over = match left {
                1..=3 => format!("{left} left"),
                _ => format!("{} too long", claim(&case.message, place) + 4 - left),
            };
            counts.count(&format!("code 9 in {level}: {over}"));
        }
        11 => {
            let (level, _) = level_of(&case.message, place);
            counts.count(&format!("code 11 in {level}"));
        }
        12 if place == 0 => counts.count("code 12 in the message"),
        12 => {
            let (mut groups, _) = around(&case.message, place);
            groups.push(place);
            let types = groups.iter().map(|&group| case.message[group]);
            let level = level_name(&types.collect::<Vec<_>>());
            counts.count(&format!("code 12 in {level}"));
        }
        _ => {}
    }
}

#[test]
fn every_code_at_every_level() {
    let mut counts = Counts::default();
    for code in (0..=12).chain([21]).filter(|&code| code != 10) {
        counts.expect(format!("code {code}"));
    }
    for level in LEVELS {
        for shape in ["1 left", "2 left", "3 left", "1 too long", "2 too long"] {
            counts.expect(format!("code 9 in {level}: {shape}"));
        }
        counts.expect(format!("code 11 in {level}"));
        counts.expect(format!("code 12 in {level}"));
    }
    for case in figures() {
        count_verdict(&mut counts, &case);
    }
    counts.assert_enough();
}

/// The ordinary mix need not meet everything so often, but it meets every code.
#[test]
fn every_code_in_the_mix() {
    let mut counts = Counts::default();
    for code in (0..=12).chain([21]).filter(|&code| code != 10) {
        counts.expect(format!("code {code}"));
    }
    for case in Generator::new(61).take(10_000) {
        count_verdict(&mut counts, &case);
    }
    counts.assert_enough();
}

/// Verdict code and length of the lent buffer, one for each way to lend it.
fn count_lent(counts: &mut Counts, what: &str, code: u16, lent: usize, need: usize) {
    let length = match lent {
        _ if lent + 2 == need => "two short",
        _ if lent + 1 == need => "one short",
        _ if lent == need => "exact",
        _ if lent > need => "longer",
        0 => "none",
        _ => return,
    };
    counts.count(&format!("{what} {length}: code {code}"));
}

fn code_with(case: &Case, lent: Buffers) -> u16 {
    let (mut table, mut copy) = (vec![0; lent.table / 2], vec![0; lent.copy]);
    judge_copy(case.kind, &case.message, &mut table, &mut copy).code
}

#[test]
fn tables_and_copies_of_every_length() {
    let mut counts = Counts::default();
    for (what, code) in [("table", 10), ("copy", 13), ("clean", 13)] {
        counts.expect(format!("{what} one short: code {code}"));
        counts.expect(format!("{what} none: code {code}"));
        counts.expect(format!("{what} exact: code 0"));
        counts.expect(format!("{what} longer: code 0"));
    }
    // So long a header of four was.
    counts.expect("table two short: code 10");
    for numbers in 0..6 {
        counts.expect(format!("table of {numbers} numbers: code 10"));
    }
    counts.expect("table of 6 numbers: code 12");
    for code in [11, 12] {
        counts.expect(format!("table exact: code {code}"));
        counts.expect(format!("table longer: code {code}"));
    }
    for what in ["table", "copy", "clean"] {
        counts.expect(format!("{what} one short: code 9"));
    }
    for code in [11, 12] {
        counts.expect(format!("clean one short: code {code}"));
        counts.expect(format!("clean none: code {code}"));
    }
    for answer in ANSWERS {
        for code in [0, 9, 11, 12, 13] {
            counts.expect(format!("answer of {answer} octets: code {code}"));
        }
    }
    for (seed, case) in figures().iter().enumerate() {
        for lent in case.buffers(seed as u64) {
            let code = code_with(case, lent);
            let numbers = lent.table / 2;
            count_lent(&mut counts, "table", code, numbers, case.table_need());
            counts.count(&format!("table of {numbers} numbers: code {code}"));
            count_lent(&mut counts, "copy", code, lent.copy, case.message.len());
            let mut copy = vec![0; lent.clean];
            let code = clean(case.kind, &case.message, &mut copy).verdict.code;
            count_lent(&mut counts, "clean", code, copy.len(), case.clean_need());
            counts.count(&format!("answer of {} octets: code {code}", lent.answer));
        }
    }
    counts.assert_enough();
}

/// How the rows of accepted messages are set aside, at which level: at least so
/// many messages have such a row.
fn assert_set_aside(cases: impl Iterator<Item = Case>, least: usize) {
    let standings = [Standing::Unexpected, Standing::Repeated, Standing::Short];
    let mut met = BTreeMap::new();
    for level in LEVELS {
        for standing in standings {
            met.insert(format!("{standing:?} in {level}"), 0);
        }
    }
    for group in [93, 109, 180] {
        met.insert(format!("Unexpected: a {group} itself"), 0);
    }
    met.insert("Void in the message".into(), 0);
    met.insert("Void: a 180 itself".into(), 0);
    met.insert("at both levels".into(), 0);
    met.insert("at three levels".into(), 0);
    for case in cases {
        if !judged(case.kind, &case.message).0.accepted() {
            continue;
        }
        for name in set_aside(&case) {
            *met.entry(name).or_default() += 1;
        }
    }
    println!("{met:#?}");
    let rare = met.iter().filter(|(_, &count)| count < least);
    assert_eq!(rare.count(), 0, "{met:#?}");
}

/// The ways in which rows of a message are set aside.
fn set_aside(case: &Case) -> BTreeSet<String> {
    let rows = DOCUMENT.rows(case.kind, &case.message);
    let rows = rows.expect("an accepted message");
    let mut ways = BTreeSet::new();
    let mut depths = [false; 3];
    for row in rows.iter().filter(|row| row.standing != Standing::Kept) {
        let (mut groups, mut parent) = (Vec::new(), row.parent);
        while let Some(at) = usize::from(parent).checked_sub(1) {
            groups.insert(0, rows[at].typ);
            parent = rows[at].parent;
        }
        depths[groups.len()] = true;
        ways.insert(format!("{:?} in {}", row.standing, level_name(&groups)));
        if DOCUMENT.facts(row.typ).group {
            ways.insert(format!("{:?}: a {} itself", row.standing, row.typ));
        }
    }
    if depths[0] && depths[1] {
        ways.insert("at both levels".into());
    }
    if depths == [true; 3] {
        ways.insert("at three levels".into());
    }
    ways
}

#[test]
fn rows_set_aside_in_the_figures() {
    assert_set_aside(figures().into_iter(), 100);
}

#[test]
fn rows_set_aside_in_the_mix() {
    assert_set_aside(Generator::new(62).take(10_000), AT_LEAST);
}

/// What is expected of one line of a listing.
fn expect_line(counts: &mut Counts, lines: &[Line], line: &Line) {
    let can_be_short = DOCUMENT.facts(line.listed.typ).least(&[]) > 0;
    for kind in (1..=4).filter(|&kind| level_is_entered(lines, line, kind)) {
        if !line.listed.kinds.has(kind) {
            counts.expect(format!("{line}: not listed on {kind}"));
            continue;
        }
        counts.expect(format!("{line}: kept on {kind}"));
        if line.listed.limits().next().is_some() {
            counts.expect(format!("{line}: void on {kind}"));
        }
        if can_be_short {
            counts.expect(format!("{line}: short on {kind}"));
        }
        if !line.listed.many {
            counts.expect(format!("{line}: repeated after kept on {kind}"));
            if can_be_short {
                counts.expect(format!("{line}: repeated after short on {kind}"));
            }
        }
    }
}

/// Is the line's level the body of a message that is on the kind, or a group that
/// a level lists for the kind that is entered itself?
fn level_is_entered(lines: &[Line], line: &Line, kind: u32) -> bool {
    let Some((typ, inst)) = line.level else {
        let message = DOCUMENT.message_of(line.message);
        return message.is_some_and(|message| message.kinds.has(kind));
    };
    lines.iter().any(|other| {
        let listed = other.listed;
        other.message == line.message
            && (listed.typ, listed.inst) == (typ, inst)
            && listed.kinds.has(kind)
            && level_is_entered(lines, other, kind)
    })
}

fn count_row(counts: &mut Counts, lines: &[Line], case: &Case, rows: &[Row], row: &Row) {
    let group = usize::from(row.parent)
        .checked_sub(1)
        .map(|parent| (rows[parent].typ, rows[parent].inst));
    let line = lines.iter().find(|line| {
        let level = line.level.map(|(typ, inst)| (typ, inst.number()));
        line.message == case.message[1] && level == group && line.listed.is(row.typ, row.inst)
    });
    let Some(line) = line else {
        return;
    };
    let standing = match row.standing {
        Standing::Kept => "kept",
        Standing::Unexpected => "not listed",
        Standing::Short => "short",
        Standing::Void => "void",
        Standing::Repeated => match first_of(rows, row).standing {
            Standing::Kept => "repeated after kept",
            _ => "repeated after short",
        },
    };
    counts.count(&format!("{line}: {standing} on {}", case.kind));
}

/// The first row of the same pair at the same level.
fn first_of<'a>(rows: &'a [Row], row: &Row) -> &'a Row {
    let key = |row: &Row| (row.parent, row.typ, row.inst);
    let mut rows = rows.iter();
    let first = rows.find(|other| key(other) == key(row));
    first.expect("it is one itself")
}

#[test]
fn every_line_of_every_listing() {
    let lines = DOCUMENT.lines();
    let mut counts = Counts::default();
    for line in &lines {
        expect_line(&mut counts, &lines, line);
    }
    for case in figures() {
        if let Ok(rows) = DOCUMENT.rows(case.kind, &case.message) {
            // The crowded messages at the limits add nothing but time.
            for row in rows.iter().take(200) {
                count_row(&mut counts, &lines, &case, &rows, row);
            }
        }
    }
    counts.assert_enough();
}

/// Each mandatory line by leaving it out and by making it short, each place,
/// type and instance by its own.
#[test]
fn every_mandatory_line_is_told() {
    let mut counts = Counts::default();
    let lines = DOCUMENT.lines();
    for line in lines.iter().filter(|line| line.listed.mandatory) {
        let level = line
            .level
            .map_or((0, 0), |(typ, inst)| (typ, inst.number()));
        let pair = (line.listed.typ, line.listed.inst.number());
        counts.expect(format!("12: {} {level:?} {pair:?}", line.message));
        if !DOCUMENT.facts(line.listed.typ).group {
            counts.expect(format!("11: {} {level:?} {pair:?}", line.message));
        }
    }
    for case in figures() {
        let (verdict, _) = judged(case.kind, &case.message);
        let place = usize::from(verdict.place);
        let group = match verdict.code {
            12 => place,
            11 => around(&case.message, place).0.pop().unwrap_or(0),
            _ => continue,
        };
        let level = match group {
            0 => (0, 0),
            _ => (case.message[group], case.message[group + 3] & 0x0F),
        };
        let pair = (verdict.typ, verdict.inst);
        let name = format!("{}: {} {level:?} {pair:?}", verdict.code, case.message[1]);
        counts.count(&name);
    }
    counts.assert_enough();
}

/// Each first octet of a user location with one octet less than it announces,
/// with all and with one more, in both bodies and on each kind.
#[test]
fn every_first_octet_of_a_user_location() {
    let mut met = [[0; 3]; 256];
    let mut empty = 0;
    for case in figures() {
        let rows = DOCUMENT.rows(case.kind, &case.message).unwrap_or_default();
        for row in rows.iter().filter(|row| row.typ == 86) {
            let place = usize::from(row.place);
            let value = &case.message[place..place + usize::from(row.length)];
            let Some(&first) = value.first() else {
                empty += usize::from(row.standing == Standing::Short);
                continue;
            };
            let over = value.len() + 1 - DOCUMENT.facts(86).least(value);
            let standing = [Standing::Short, Standing::Kept, Standing::Kept];
            if standing.get(over) == Some(&row.standing) {
                met[usize::from(first)][over] += 1;
            }
        }
    }
    assert!(empty >= AT_LEAST);
    for (first, met) in met.into_iter().enumerate() {
        // A location that announces nothing is short where it is empty.
        let least = if first & 0x3F == 0 { [0, 6, 6] } else { [6; 3] };
        let enough = met.iter().zip(least).all(|(met, least)| *met >= least);
        assert!(enough, "{first:02X}: {met:?}");
    }
}

/// Rows of a table around the 64 that the small scratch of the library holds,
/// accepted and refused.
#[test]
fn rows_around_the_small_scratch() {
    let mut counts = Counts::default();
    for rows in 63..=66 {
        counts.expect(format!("{rows} rows"));
    }
    for case in figures() {
        if let Ok(rows) = DOCUMENT.rows(case.kind, &case.message) {
            counts.count(&format!("{} rows", rows.len()));
        }
    }
    counts.assert_enough();
}

/// Where a lookup's part, row or buffer stands to its edge.
fn edges(lookup: &Lookup) -> Vec<&'static str> {
    let Lookup { table, message, .. } = lookup;
    let mut edges = Vec::new();
    let rows = table.first().map_or(0, |&rows| usize::from(rows));
    match table.len() {
        0..=5 => edges.push("table without a header"),
        length if length + 2 == 6 + 6 * rows => edges.push("table two short"),
        length if length + 1 == 6 + 6 * rows => edges.push("table one short"),
        length if length == 6 + 6 * rows => edges.push("table exact"),
        _ => {}
    }
    if let Ask::Plain { typ, inst } = lookup.ask {
        let rows = table.get(6..).unwrap_or_default().chunks_exact(6);
        let mut rows = rows.filter(|row| row[..3] == [0, typ, inst]);
        if rows.next().is_some_and(|row| row[5] == 4) {
            edges.push(match lookup.answer(&DOCUMENT) {
                Some(_) => "pair of a void row before the kept one",
                None => "pair of a void row alone",
            });
        }
    }
    if let Ask::Desk { row, .. } = lookup.ask {
        edges.extend((row == rows).then_some("row past the last"));
        edges.extend((row + 1 == rows).then_some("last row"));
        match lookup.copy.len() as isize - message.len() as isize {
            -1 => edges.push("copy one shorter"),
            1 => edges.push("copy one longer"),
            _ => {}
        }
        if let Some(&[.., place, length, _]) = table
            .get(6 + 6 * row.min(rows)..)
            .and_then(<[_]>::first_chunk::<6>)
        {
            let is_void = row < rows && table[6 + 6 * row + 5] == 4;
            edges.extend((is_void && lookup.answer(&DOCUMENT).is_some()).then_some("void row"));
            match (usize::from(place) + usize::from(length)) as isize - message.len() as isize {
                0 if length == 0 => edges.push("empty part at the end"),
                0 => edges.push("part up to the end"),
                1 if length == 0 => edges.push("empty part past the end"),
                1 => edges.push("part one past the end"),
                _ => {}
            }
        }
    }
    edges
}

#[test]
fn lookups_at_every_edge() {
    let mut counts = Counts::default();
    for edge in [
        "table without a header",
        "table two short",
        "table one short",
        "table exact",
        "row past the last",
        "last row",
        "copy one shorter",
        "copy one longer",
        "empty part at the end",
        "part up to the end",
        "empty part past the end",
        "part one past the end",
        "void row",
        "pair of a void row before the kept one",
        "pair of a void row alone",
    ] {
        counts.expect(edge);
    }
    let mut generator = Generator::new(1);
    for _ in 0..20_000 {
        for edge in edges(&generator.lookup()) {
            counts.count(edge);
        }
    }
    counts.assert_enough();
}
