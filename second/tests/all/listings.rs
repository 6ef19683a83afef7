//! The listings and the types against the rules' own words.

use second::rules::{Cover, Least, Listed};
use second::DOCUMENT;

/// Messages, level and the pairs as the rule book writes them.
const SENTENCES: &[(&[u8], &str, &str)] = &[
    (&[1, 2], "body", "3/0 M, 152/0"),
    (
        &[32],
        "body",
        "1/0, 76/0, 75/0, 86/0, 83/0, 82/0 M, 77/0, 87/0 M, 87/1, 71/0 M, 128/0, 99/0, \
         79/0, 127/0, 72/0, 78/0, 93/0 M*, 93/1*, 96/0, 3/0, 132/0, 132/1",
    ),
    (
        &[32],
        "93/0",
        "73/0 M, 84/0, 84/1, 87/0, 87/1, 87/2, 80/0 M, 95/0, 97/0",
    ),
    (&[32], "93/1", "73/0 M, 87/1"),
    (&[37], "body", "2/0 M, 3/0, 78/0"),
    (
        &[66],
        "body",
        "93/0 M*, 86/0, 170/0, 114/0, 180/0, 180/1 (kind 3 only), 87/0 (kind 3 only), \
         201/0* (kinds 1 and 3)",
    ),
    (&[66], "93/0", "73/0 M, 97/0, 172/0* (kinds 1 and 3)"),
    (&[66], "180/0", "183/0 M, 182/0 M, 156/0 M"),
    (&[66], "180/1", "183/0 M, 182/0 M, 156/0 M"),
    (
        &[67],
        "body",
        "2/0 M, 93/0 M*, 3/0, 77/0, 180/0*, 180/1 (kinds 1 and 2 only)",
    ),
    (&[67], "93/0", "73/0 M, 2/0 M"),
    (&[67], "180/0", "183/0 M, 182/0 M, 156/0 M, 71/0* most 10"),
    (&[67], "180/1", "183/0 M, 182/0 M, 156/0 M"),
    (&[68], "body", "73/0, 2/0, 100/0 M, 81/0, 85/0 M"),
    (&[69], "body", "2/0 M, 73/0, 73/1, 100/0 M, 3/0"),
    (
        &[97],
        "body",
        "1/0 M, 93/0 M*, 100/0, 78/0, 72/0 M, 96/0, 132/2, 132/1",
    ),
    (&[97], "93/0", "73/0 M, 84/0, 84/1, 80/0, 95/0, 94/0"),
    (
        &[131],
        "body",
        "2/0 M, 1/0, 103/0, 104/0, 105/0, 106/0, 107/0, 108/0, 109/0*, 87/0, 87/1, 136/0, 77/0",
    ),
    (
        &[131],
        "109/0",
        "71/0 M, 127/0, 128/0, 74/0, 74/1, 73/0 M, 87/0 M, 136/0, 93/0 M*, 72/0 M",
    ),
    (&[131], "93/0", "73/0 M, 84/0, 87/0, 87/1, 80/0 M"),
];

/// The kinds of each message, as the rule book has them: 1 and 2 on all four, 131
/// on 4 alone, the others on 1 to 3.
fn kinds_of(message: u8) -> &'static str {
    match message {
        1 | 2 => "1234",
        131 => "4",
        _ => "123",
    }
}

/// One pair of a sentence in canonical form, without message and level.
fn canonical(message: u8, pair: &str) -> String {
    let (pair, most) = pair.split_at(pair.find(" most ").unwrap_or(pair.len()));
    let (pair, kinds) = pair.split_once(" (").unwrap_or((pair, kinds_of(message)));
    let kinds = kinds.chars().filter(char::is_ascii_digit);
    let mandatory = if pair.contains('M') { 'M' } else { '-' };
    let many = if pair.contains('*') { '*' } else { '-' };
    let pair = pair.trim_end_matches(['M', '*', ' ']);
    let kinds = kinds.collect::<String>();
    format!("{pair} {mandatory} {many} {kinds}{most}")
}

fn sentences_of(message: u8) -> Vec<String> {
    let mut lines = Vec::new();
    for (messages, level, pairs) in SENTENCES {
        if !messages.contains(&message) {
            continue;
        }
        for pair in pairs.split(", ") {
            lines.push(format!("{message} {level} {}", canonical(message, pair)));
        }
        if *level == "body" {
            lines.push(format!("{message} body 255/any - * {}", kinds_of(message)));
        }
    }
    lines
}

#[test]
fn listings_are_those_of_the_document() {
    let messages = [1, 2, 32, 37, 66, 67, 68, 69, 97, 131];
    let expected = messages.map(sentences_of).concat();
    let lines = DOCUMENT.lines().into_iter().map(|line| line.to_string());
    assert_eq!(lines.collect::<Vec<_>>(), expected);
}

#[test]
fn messages_are_on_their_kinds() {
    for message in &DOCUMENT.messages {
        let (typ, kinds) = (message.typ, kinds_of(message.typ));
        assert_eq!(message.kinds.to_string(), kinds, "{typ}");
        let teid = u8::from(typ > 2);
        assert_eq!(message.to_string(), format!("{typ} T {teid} {kinds}"));
    }
    assert_eq!(DOCUMENT.kinds, 1..=4);
}

/// A message, a PDN connection and a bearer; no other message goes so deep.
#[test]
fn message_131_alone_is_three_deep() {
    fn depth(listing: &[Listed]) -> usize {
        let inside = listing.iter().map(|listed| depth(&listed.inside));
        match listing.is_empty() {
            true => 0,
            false => 1 + inside.max().unwrap_or(0),
        }
    }
    for message in &DOCUMENT.messages {
        assert_eq!(depth(&message.body) == 3, message.typ == 131);
    }
}

#[test]
fn messages_1_and_2_alone_have_no_teid() {
    for message in &DOCUMENT.messages {
        assert_eq!(message.teid, message.typ > 2);
    }
}

#[test]
fn only_groups_list_something_inside() {
    for line in DOCUMENT.lines() {
        let group = DOCUMENT.facts(line.listed.typ).group;
        assert_eq!(group, !line.listed.inside.is_empty(), "{line}");
    }
}

/// Ten APNs in a report of 67, and no other limit.
#[test]
fn one_line_has_a_limit() {
    let lines = DOCUMENT.lines().into_iter();
    let limits = lines.filter(|line| line.listed.most.is_some());
    let limits = limits.map(|line| line.to_string()).collect::<Vec<_>>();
    assert_eq!(limits, ["67 180/0 71/0 - * 123 most 10"]);
}

/// A level has one bit for each position of its listing.
#[test]
fn no_listing_has_more_lines_than_a_level_has_bits() {
    fn longest(listing: &[Listed]) -> usize {
        let inside = listing.iter().map(|listed| longest(&listed.inside));
        inside.max().unwrap_or(0).max(listing.len())
    }
    for message in &DOCUMENT.messages {
        assert!(longest(&message.body) <= 32);
    }
}

#[test]
fn no_level_lists_a_pair_twice() {
    let mut pairs = DOCUMENT
        .lines()
        .iter()
        .map(|line| {
            format!(
                "{} {:?} {}/{}",
                line.message, line.level, line.listed.typ, line.listed.inst
            )
        })
        .collect::<Vec<_>>();
    let all = pairs.len();
    pairs.sort();
    pairs.dedup();
    assert_eq!(pairs.len(), all);
}

#[test]
fn types_are_those_of_the_document() {
    let least_lengths: [(usize, &[usize]); 7] = [
        (0, &[93, 109, 180]),
        (2, &[2, 95, 114, 255]),
        (3, &[83]),
        (4, &[74, 94, 170, 183]),
        (8, &[72]),
        (21, &[81]),
        (22, &[80]),
    ];
    for (typ, facts) in DOCUMENT.types.iter().enumerate() {
        let named = least_lengths.iter().find(|(_, types)| types.contains(&typ));
        if ![79, 86, 87].contains(&typ) {
            let least = Least::Fixed(named.map_or(1, |&(least, _)| least));
            assert_eq!(facts.least, least, "{typ}");
        }
        let cover = match typ {
            1 | 75 | 76 | 78 | 255 => Cover::Whole,
            74 | 103 | 104 | 105 | 106 | 107 | 108 => Cover::Whole,
            79 | 86 => Cover::Rest,
            _ => Cover::Nothing,
        };
        assert_eq!(facts.group, [93, 109, 180].contains(&typ), "{typ}");
        let by_standing = [cover, Cover::Whole, Cover::Whole, cover, Cover::Values];
        assert_eq!(facts.cover, by_standing, "{typ}");
    }
}

/// Each location by itself, bit by bit; not by a table of the sums.
fn location_octets(flags: u8) -> usize {
    let mut octets = 1;
    for (bit, more) in [(1, 7), (2, 7), (4, 7), (8, 5), (16, 7), (32, 5)] {
        if flags & bit != 0 {
            octets += more;
        }
    }
    octets
}

#[test]
fn first_octet_sets_the_least_length_of_86() {
    let least = |value: &[u8]| DOCUMENT.facts(86).least(value);
    for first in 0..=255 {
        assert_eq!(least(&[first]), location_octets(first), "{first}");
    }
    assert!(least(&[]) > 0);
    // None, all six, all eight, TAI and ECGI.
    let some = [0x00, 0x3F, 0xFF, 0x18].map(|first| least(&[first]));
    assert_eq!(some, [1, 39, 39, 13]);
}

#[test]
fn first_octet_sets_the_least_length_of_79_and_87() {
    let least = |typ: u8, value: &[u8]| DOCUMENT.facts(typ).least(value);
    for first in 0..=255 {
        let addresses = [5, 21, 9, 25][usize::from(first >> 6)];
        assert_eq!(least(87, &[first]), addresses, "{first}");
        let pdn = [1, 5, 18, 22, 1, 1, 1, 1][usize::from(first & 7)];
        assert_eq!(least(79, &[first]), pdn, "{first}");
    }
    assert!(least(79, &[]) > 0);
    assert!(least(87, &[]) > 0);
}
