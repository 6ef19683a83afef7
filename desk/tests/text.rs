//! Messages as texts: what edit writes is read again as the same rows and built again as the cleaned copy, a damaged text is read or refused with
//! one of its lines, and what the library is asked about groups, TEIDs and pages is as the rules have it.

use std::path::{Path, PathBuf};
use wok::build::{self, Refused};
use wok::library::{Judged, Library, Row};
use wok::{clean, edit, hex, page, text};

const KINDS: [&str; 5] = ["", "S11", "S4", "S5/S8", "S10"];

fn folder() -> PathBuf {
    Path::new(env!("CARGO_MANIFEST_DIR")).join("../samples")
}

/// Kind, code and octets of each sample.
fn samples() -> Vec<(u32, u16, Vec<u8>)> {
    let expected = std::fs::read_to_string(folder().join("expected.txt")).unwrap();
    let all = expected.lines().filter(|l| !l.is_empty() && !l.starts_with('#')).map(|line| {
        let words: Vec<&str> = line.split(' ').collect();
        let message = hex::read(&std::fs::read_to_string(folder().join(format!("{}.hex", words[0]))).unwrap()).unwrap().remove(0);
        (words[1].parse().unwrap(), words[2].parse().unwrap(), message)
    });
    all.collect()
}

/// Numbers that look like chance, the same at each run.
struct Dice(u64);

impl Dice {
    fn below(&mut self, n: usize) -> usize {
        self.0 ^= self.0 << 13;
        self.0 ^= self.0 >> 7;
        self.0 ^= self.0 << 17;
        (self.0 >> 33) as usize % n
    }
}

/// The samples that checks 1 to 9 pass, and as many of them with other octets as pass too; those that are on S10 alone stay there.
fn messages(each: usize) -> Vec<(u32, Vec<u8>)> {
    const OCTETS: [u8; 19] = [0, 1, 2, 3, 4, 0x10, 0x49, 0x4a, 0x4f, 0x56, 0x57, 0x5d, 0x61, 0x6b, 0x6d, 0x72, 0xb4, 0xc8, 0xff];
    let mut dice = Dice(0x29274);
    let mut all = vec![];
    for (kind, _, message) in samples().into_iter().filter(|s| matches!(s.1, 0 | 11 | 12)) {
        for _ in 0..each {
            let mut other = message.clone();
            for _ in 0..=dice.below(3) {
                let at = dice.below(other.len());
                other[at] = OCTETS[dice.below(OCTETS.len())];
            }
            let any = 1 + dice.below(4) as u32;
            all.push((if kind == 4 { kind } else { any }, other));
        }
        all.push((kind, message));
    }
    all.retain(|(kind, message)| Library::new(*kind).read(message).is_some());
    all
}

/// The rows that a text has: the kept ones, and the mandatory one that is short; each with its parent among them.
fn wanted(judged: &Judged) -> Vec<Row> {
    let (mut numbers, mut rows) = (vec![0u16], vec![]);
    for &[parent, typ, instance, place, length, standing] in &judged.rows {
        let short = judged.five[0] == 11 && judged.five[2] + 4 == place;
        if standing == 0 || short {
            rows.push([numbers[usize::from(parent)], typ, instance, place, length, 0]);
        }
        numbers.push(rows.len() as u16);
    }
    rows
}

/// The bits that nothing reads, made zero.
fn zeroed(kind: u32, mut message: Vec<u8>) -> Vec<u8> {
    let last = if message[0] & 8 != 0 { 11 } else { 7 };
    message[0] &= 0xf8;
    message[last] = 0;
    for row in Library::new(kind).judge(&message).rows {
        message[usize::from(row[3]) - 1] &= 15;
    }
    message
}

fn written(right: bool, kind: u32, message: &[u8]) -> String {
    edit::text(&mut Library::new(kind), right, KINDS[kind as usize], message).unwrap()
}

#[test]
fn what_edit_writes_is_read_as_the_same_rows() {
    let (mut rows, mut refused) = (0, 0);
    for (kind, message) in messages(60) {
        let judged = Library::new(kind).read(&message).unwrap();
        let said = text::read(&written(true, kind, &message)).unwrap();
        let (t, at) = (message[0] & 8 != 0, if message[0] & 8 != 0 { 8 } else { 4 });
        let four = |at: usize| u32::from_be_bytes([message[at], message[at + 1], message[at + 2], message[at + 3]]);
        assert_eq!((said.kind.1, said.typ.1), ((kind, KINDS[kind as usize]), message[1]));
        assert_eq!((said.teid.map(|t| t.1), said.sequence.1), (t.then(|| four(4)), four(at) >> 8));
        let wanted = wanted(&judged);
        assert_eq!(said.elements.len(), wanted.len());
        for (e, &[parent, typ, instance, place, length, _]) in said.elements.iter().zip(&wanted) {
            assert_eq!([e.parent as u16, e.typ.into(), e.instance.into()], [parent, typ, instance]);
            let value = &message[usize::from(place)..usize::from(place + length)];
            assert_eq!(e.value.as_deref(), (![93, 109, 180].contains(&typ)).then_some(value));
            rows += 1;
        }
        refused += usize::from(judged.five[0] > 0);
    }
    assert!(rows > 5000 && refused > 100, "{rows} rows, {refused} refused");
}

#[test]
fn what_is_built_again_is_the_cleaned_copy() {
    let (mut built, mut refused) = (0, 0);
    for (kind, message) in messages(30) {
        let masked = Library::new(kind).mask(&message).unwrap();
        for (right, seen) in [(true, &message), (false, &masked)] {
            match (build::message(&written(right, kind, &message)), clean::cleaned(kind, seen)) {
                (Ok(message), Ok(copy)) => {
                    assert_eq!(message, zeroed(kind, copy));
                    built += 1;
                }
                (Err(Refused::Message(faults)), Err(_)) => {
                    assert!(!faults.is_empty() && faults.iter().all(|f| !f.why.contains("its code is")), "{faults:?}");
                    refused += 1;
                }
                _ => panic!("{message:02x?}"),
            }
        }
    }
    assert!(built > 500 && refused > 100, "{built} built, {refused} refused");
}

/// A text with one character other, too many or too few, or two lines exchanged.
fn damaged(said: &str, each: &mut dyn FnMut(String)) {
    let places: Vec<usize> = said.char_indices().map(|c| c.0).collect();
    for &at in &places {
        let end = at + said[at..].chars().next().unwrap().len_utf8();
        each(format!("{}{}", &said[..at], &said[end..]));
        for c in [' ', '\t', '#', ':', '/', '\n', '\r', '0', '9', 'a', 'x', '\u{feff}', '\u{e9}', '\0'] {
            each(format!("{}{c}{}", &said[..at], &said[at..]));
            each(format!("{}{c}{}", &said[..at], &said[end..]));
        }
    }
    let lines: Vec<&str> = said.lines().collect();
    for i in 0..lines.len() {
        for j in 0..i {
            let mut other = lines.clone();
            other.swap(i, j);
            each(other.join("\n"));
        }
    }
}

/// The texts beside the samples, and one with all of the subscriber's values.
fn texts() -> Vec<String> {
    let files = std::fs::read_dir(folder().join("edits")).unwrap().map(|entry| entry.unwrap().path());
    let mut all: Vec<String> = files.map(|file| std::fs::read_to_string(file).unwrap()).collect();
    let values = std::fs::read_to_string(folder().join("create-session-request-s11.hex")).unwrap();
    all.push(written(true, 1, &hex::read(&values).unwrap()[0]));
    all.sort();
    all
}

#[test]
fn damaged_texts() {
    let (mut taken, mut wrong) = (0, 0);
    for said in texts() {
        damaged(&said, &mut |text| {
            match text::read(&text) {
                Ok(_) => taken += 1,
                Err(f) => {
                    assert!(f.line >= 1 && f.line <= text.split('\n').count() && f.why.len() > 10);
                    // nothing of a value
                    assert!(!f.why.contains("4365") && !f.why.contains("7110"), "{}", f.why);
                    wrong += 1;
                }
            }
            // what is taken is built, or refused with reasons; not each time, since that takes long
            if (taken + wrong) % 200 == 0 {
                if let Err(Refused::Message(faults)) = build::message(&text) {
                    assert!(!faults.is_empty() && faults.iter().all(|f| !f.why.contains("its code is")), "{text}\n{faults:?}");
                }
            }
        });
    }
    assert!(taken > 10_000 && wrong > 10_000, "{taken} taken, {wrong} wrong");
}

#[test]
fn words_by_chance() {
    const WORDS: [&str; 20] = [
        "kind",
        " S11",
        "type",
        " 66",
        "teid",
        " 0x00000001",
        "sequence",
        " 2",
        "\n",
        "\n  ",
        "\n\t",
        "93/0",
        "73/0",
        ":",
        " 05",
        "#",
        "999999999999",
        "/",
        "-",
        "\r\n",
    ];
    let mut dice = Dice(0x66);
    for _ in 0..50_000 {
        let text: String = (0..dice.below(24)).map(|_| WORDS[dice.below(WORDS.len())]).collect();
        let _ = text::read(&text);
    }
}

/// Rule 3.3.
#[test]
fn the_groups() {
    assert_eq!((0..=255).filter(|typ| build::is_group(*typ)).collect::<Vec<u8>>(), [93, 109, 180]);
}

/// Rule 3.2, on each kind.
#[test]
fn who_bears_a_teid() {
    for kind in 1..=4 {
        let mut library = Library::new(kind);
        let mut with = |answer| (0..=255).filter(|typ| library.bears_teid(*typ) == answer).collect::<Vec<u8>>();
        let bear = if kind == 4 { vec![131] } else { vec![32, 37, 66, 67, 68, 69, 97] };
        assert_eq!((with(Some(false)), with(Some(true))), (vec![1, 2], bear));
    }
}

#[test]
fn a_page_has_the_rows_of_the_table() {
    let mut rows = 0;
    for (kind, message) in messages(60) {
        let mut library = Library::new(kind);
        let judged = library.judge(&message);
        let read = page::rows(library.show(false, false, &message)).unwrap();
        if judged.five[0] == 0 {
            assert_eq!(read, judged.rows);
            rows += read.len();
        }
    }
    assert!(rows > 4000, "{rows} rows");
}

/// The most rows, whose numbers and places fill their columns.
#[test]
fn a_page_of_the_most_rows() {
    let mut message = vec![0x40, 1, 0x0f, 0xf9, 0, 0, 1, 0, 3, 0, 1, 0, 7];
    message.extend([200, 0, 0, 15].repeat(1020));
    let mut library = Library::new(1);
    let rows = library.judge(&message).rows;
    assert_eq!((rows.len(), page::rows(library.show(false, false, &message))), (1021, Some(rows)));
}

/// Windows writes a mark, carriage returns and tabs.
#[test]
fn other_line_ends_and_tabs() {
    let said = std::fs::read_to_string(folder().join("edits/set-aside-at-both-levels.txt")).unwrap();
    let elements = text::read(&said).unwrap().elements;
    assert_eq!(elements.len(), 6);
    for other in [
        said.replace('\n', "\r\n"),
        format!("\u{feff}{said}"),
        said.replace("\n  ", "\n\t"),
        said.replace("\n  ", "\n     "),
        said.to_lowercase().replace("kind s11", "kind S11"),
    ] {
        assert_eq!(text::read(&other).unwrap().elements, elements);
    }
}
