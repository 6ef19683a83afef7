//! The samples against their verdicts, tables and copies worked out by hand.

use std::collections::{BTreeMap, BTreeSet};
use std::fs;
use std::path::PathBuf;

use crate::support::{judge, mask, octets, rows, table, verdict};
use second::{clean, Count, Verdict, DOCUMENT};

fn folder() -> PathBuf {
    PathBuf::from(env!("CARGO_MANIFEST_DIR")).join("../samples")
}

fn sample_text(name: &str) -> String {
    let path = folder().join(format!("{name}.hex"));
    fs::read_to_string(&path).unwrap_or_else(|error| panic!("{}: {error}", path.display()))
}

/// The names of the samples in a folder.
fn names_in(folder: PathBuf) -> BTreeSet<String> {
    let mut names = BTreeSet::new();
    for entry in fs::read_dir(folder).expect("the samples") {
        let path = entry.expect("an entry").path();
        if path.extension().is_some_and(|extension| extension == "hex") {
            let stem = path.file_stem().expect("a name");
            names.insert(stem.to_string_lossy().into_owned());
        }
    }
    names
}

fn sample(name: &str) -> Vec<u8> {
    octets(&sample_text(name))
}

/// The fields of every line but comments and empty ones.
fn lines_of(file: &str) -> Vec<Vec<String>> {
    let text = fs::read_to_string(folder().join(file)).expect("a file of the samples");
    text.lines()
        .filter(|line| !line.is_empty() && !line.starts_with('#'))
        .map(|line| line.split(' ').map(String::from).collect())
        .collect()
}

struct Expected {
    name: String,
    kind: u32,
    verdict: Verdict,
}

fn expected() -> Vec<Expected> {
    let lines = lines_of("expected.txt");
    let expected = |line: &Vec<String>| {
        let [name, kind, five @ ..] = &line[..] else {
            panic!("a line without a kind: {line:?}");
        };
        let five = five.iter().map(|field| field.parse().expect("a number"));
        let five = five.collect::<Vec<u16>>().try_into();
        Expected {
            name: name.clone(),
            kind: kind.parse().expect("a kind"),
            verdict: verdict(five.expect("five numbers")),
        }
    };
    lines.iter().map(expected).collect()
}

fn line_of(name: &str) -> Expected {
    let mut lines = expected().into_iter();
    let line = lines.find(|line| line.name == name);
    line.expect("a line for the sample")
}

fn kind_of(name: &str) -> u32 {
    line_of(name).kind
}

#[test]
fn every_sample_has_one_line_and_every_line_a_sample() {
    let mut names = BTreeSet::new();
    for line in expected() {
        assert!(names.insert(line.name.clone()), "twice: {}", line.name);
    }
    assert_eq!(names_in(folder()), names);
}

#[test]
fn samples_are_pairs_of_hex_digits_sixteen_a_line() {
    let copies = ["cleaned", "masked"].into_iter().flat_map(|copies| {
        let names = names_in(folder().join(copies)).into_iter();
        names.map(move |name| format!("{copies}/{name}"))
    });
    for name in names_in(folder()).into_iter().chain(copies) {
        let octets = sample(&name);
        let lines = octets.chunks(16).map(|octets| {
            let pairs = octets.iter().map(|octet| format!("{octet:02X}"));
            pairs.collect::<Vec<_>>().join(" ") + "\n"
        });
        assert_eq!(sample_text(&name), lines.collect::<String>(), "{name}");
    }
}

/// A sample that is accepted and has no cleaned copy beside it is its own.
#[test]
fn cleaned_copies_are_as_expected() {
    let differ = names_in(folder().join("cleaned"));
    let mut met = BTreeSet::new();
    for Expected { name, kind, .. } in expected() {
        let message = sample(&name);
        let mut copy = vec![0; message.len()];
        let answer = clean(kind, &message, &mut copy);
        copy.truncate(usize::from(answer.length));
        if copy != message && answer.verdict.accepted() {
            assert!(differ.contains(&name), "{name} has no cleaned copy");
            assert_eq!(copy, sample(&format!("cleaned/{name}")), "{name}");
            met.insert(name);
        }
    }
    assert_eq!(met, differ);
}

/// Those that stand beside a sample.
#[test]
fn masked_copies_are_as_expected() {
    let names = names_in(folder().join("masked"));
    assert!(!names.is_empty());
    for name in names {
        let message = sample(&name);
        let mut copy = vec![0xEE; message.len()];
        let verdict = mask(kind_of(&name), &message, &mut copy);
        assert_eq!(verdict, line_of(&name).verdict, "{name}");
        assert_eq!(copy, sample(&format!("masked/{name}")), "{name}");
    }
}

/// The judge program's lines that stand beside a sample.
#[test]
fn tables_are_as_expected() {
    let mut count = 0;
    for entry in fs::read_dir(folder().join("tables")).expect("tables") {
        let path = entry.expect("an entry").path();
        let name = path.file_stem().expect("a name").to_string_lossy();
        let input = [&[kind_of(&name) as u8], &sample(&name)[..]].concat();
        let expected = fs::read_to_string(&path).expect("text");
        assert_eq!(DOCUMENT.program(&input), expected, "{name}");
        count += 1;
    }
    assert_eq!(count, 7);
}

#[test]
fn verdicts_are_as_expected() {
    for line in expected() {
        let mut table = [0; 6 + 6 * 1022];
        let verdict = judge(line.kind, &sample(&line.name), &mut table);
        assert_eq!(verdict, line.verdict, "{}", line.name);
    }
}

/// Every sample that the framing lets pass has a number of rows; any other has none.
#[test]
fn rows_are_as_counted() {
    let numbers = lines_of("rows.txt").into_iter().map(|line| {
        let [name, rows] = <[String; 2]>::try_from(line).expect("two fields");
        (name, rows.parse().expect("a number"))
    });
    let mut numbers = numbers.collect::<BTreeMap<_, u16>>();
    for line in expected() {
        let count = match line.verdict.code {
            0 | 11 | 12 => Count {
                verdict: Verdict::ACCEPTED,
                rows: numbers.remove(&line.name).expect("a number of rows"),
            },
            _ => Count::refused(line.verdict),
        };
        let counted = second::rows(line.kind, &sample(&line.name));
        assert_eq!(counted, count, "{}", line.name);
    }
    assert!(numbers.is_empty(), "{numbers:?}");
}

#[test]
fn masked_copies_hold_no_subscriber_value() {
    for line in lines_of("subscriber.txt") {
        let [name, planted] = &line[..] else {
            panic!("a line without two fields: {line:?}");
        };
        let message = sample(name);
        let planted = octets(planted);
        let shows = |octets: &[u8]| octets.windows(planted.len()).any(|part| part == planted);
        assert!(shows(&message), "{name} does not hold what is planted");
        let mut copy = vec![0; message.len()];
        let verdict = mask(kind_of(name), &message, &mut copy);
        assert_eq!(verdict, line_of(name).verdict, "{name}");
        // With these a copy is made.
        assert!(matches!(verdict.code, 0 | 11 | 12), "{name}");
        assert!(!shows(&copy), "{name} shows a subscriber value");
    }
}

const CONTEXT: [u16; 6] = [0, 93, 0, 16, 5, 0];
const EBI: [u16; 6] = [1, 73, 0, 20, 1, 0];

/// Rows worked out by hand for the samples that other decoders get wrong.
const HARD: [(&str, &[[u16; 6]]); 6] = [
    ("spare-bits-set", &[CONTEXT, EBI]),
    (
        "fteid-one-octet-optional",
        &[CONTEXT, EBI, [0, 87, 0, 25, 1, 3], [0, 114, 0, 30, 2, 0]],
    ),
    (
        "uli-one-octet-short",
        &[CONTEXT, EBI, [0, 86, 0, 25, 12, 3], [0, 114, 0, 41, 2, 0]],
    ),
    (
        "ebi-three-octets",
        &[
            [0, 93, 0, 16, 12, 0],
            [1, 73, 0, 20, 3, 0],
            [1, 97, 0, 27, 1, 0],
        ],
    ),
    (
        "groups-nested-deep",
        &[[0, 93, 0, 16, 72, 0], EBI, [1, 93, 0, 25, 63, 1]],
    ),
    (
        "two-bearer-contexts",
        &[
            [0, 2, 0, 16, 2, 0],
            [0, 93, 0, 22, 11, 0],
            [2, 73, 0, 26, 1, 0],
            [2, 2, 0, 31, 2, 0],
            [0, 93, 0, 37, 11, 0],
            [5, 73, 0, 41, 1, 0],
            [5, 2, 0, 46, 2, 0],
        ],
    ),
];

#[test]
fn rows_of_the_hard_samples() {
    for (name, expected) in HARD {
        let table = table(kind_of(name), &sample(name));
        assert_eq!(rows(&table), expected, "{name}");
    }
}

/// Rows and kept rows of the realistic samples, counted by hand.
#[test]
fn counts_of_the_realistic_samples() {
    let cases = [
        ("create-session-request-s11", 19, 19),
        ("create-session-request-s5s8", 25, 24),
        ("delete-session-response", 3, 3),
        ("delete-bearer-command", 17, 17),
        ("delete-bearer-failure-indication", 17, 16),
        ("bearer-resource-command", 5, 4),
        ("bearer-resource-failure-indication", 6, 6),
        ("update-bearer-request", 12, 12),
        ("echo-request", 2, 2),
        ("echo-response", 2, 2),
        ("create-session-request-emergency", 7, 7),
        ("fteid-one-octet-in-context", 11, 10),
        ("set-aside-at-both-levels", 12, 6),
        ("context-response", 17, 17),
        ("context-response-set-aside", 18, 10),
    ];
    for (name, rows, kept) in cases {
        let table = table(kind_of(name), &sample(name));
        assert_eq!(table[..2], [rows, kept], "{name}");
    }
}
