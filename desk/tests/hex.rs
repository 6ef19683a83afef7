//! The reader of hex text: every form gives the message, and no damage of one character makes another of it.

mod installed;

use installed::installed;
use std::io::Write;
use std::path::{Path, PathBuf};
use std::process::{Command, Stdio};
use wok::hex;

fn samples() -> Vec<(String, String, Vec<u8>)> {
    let mut all = vec![];
    for entry in std::fs::read_dir(Path::new(env!("CARGO_MANIFEST_DIR")).join("../samples")).unwrap() {
        let path: PathBuf = entry.unwrap().path();
        if path.extension().is_some_and(|e| e == "hex") {
            let text = std::fs::read_to_string(&path).unwrap();
            let octets = digits(&text);
            all.push((path.file_stem().unwrap().to_str().unwrap().to_owned(), text, octets));
        }
    }
    all.sort();
    assert!(all.len() >= 30);
    all
}

/// The hex digits of a plain text, two an octet.
fn digits(text: &str) -> Vec<u8> {
    let digits: Vec<u8> = text.bytes().filter(u8::is_ascii_hexdigit).collect();
    digits.chunks(2).map(|p| u8::from_str_radix(std::str::from_utf8(p).unwrap(), 16).unwrap()).collect()
}

/// What a tool makes of octets, if it is installed.
fn tool(command: &[&str], octets: &[u8]) -> Option<String> {
    if !installed(command[0]) {
        return None;
    }
    let mut child = Command::new(command[0]).args(&command[1..]).stdin(Stdio::piped()).stdout(Stdio::piped()).spawn().unwrap();
    child.stdin.take().unwrap().write_all(octets).unwrap();
    Some(String::from_utf8(child.wait_with_output().unwrap().stdout).unwrap())
}

const TOOLS: [&[&str]; 13] = [
    &["od", "-v", "-tx1"],
    &["od", "-v", "-Ax", "-tx1"],
    &["od", "-v", "-Ad", "-tx1"],
    &["od", "-v", "-An", "-tx1"],
    &["od", "-v", "-Ax", "-tx1z"],
    &["od", "-v", "-Ax", "-tx1", "-w8"],
    &["xxd"],
    &["xxd", "-g1"],
    &["xxd", "-u", "-c8"],
    &["xxd", "-p"],
    &["xxd", "-i", "-n", "g"],
    &["hexdump", "-v", "-C"],
    &["hexdump", "-v", "-e", "1/1 \"%02x \""],
];

fn joined(octets: &[u8], between: &str) -> String {
    octets.iter().map(|o| format!("{o:02x}")).collect::<Vec<_>>().join(between)
}

/// Wireshark's, tshark's and tcpdump's forms, and those of programs.
fn written(octets: &[u8]) -> Vec<String> {
    let text = |line: &[u8]| line.iter().map(|&o| if (32..127).contains(&o) { o as char } else { '.' }).collect::<String>();
    let halves = |line: &[u8]| line.chunks(8).map(|h| joined(h, " ")).collect::<Vec<_>>().join("  ");
    let words = |line: &[u8]| line.chunks(2).map(|w| joined(w, "")).collect::<Vec<_>>().join(" ");
    let lines = |f: &dyn Fn(usize, &[u8]) -> String| octets.chunks(16).enumerate().map(|(i, l)| f(16 * i, l)).collect::<String>();
    vec![
        lines(&|at, l| format!("{at:04x}   {:<48}   {}\n", halves(l), text(l))),
        lines(&|at, l| format!("{at:04x}  {:<47}   {}\n", joined(l, " "), text(l))),
        lines(&|at, l| format!("{at:04x}   {}\n", joined(l, " "))),
        lines(&|at, l| format!("\t0x{at:04x}:  {}\n", words(l))),
        lines(&|at, l| format!("\t0x{at:04x}:  {:<39}  {}\n", words(l), text(l).replace(' ', "."))),
        joined(octets, ":"),
        joined(octets, ", "),
        octets.iter().map(|o| format!("\\x{o:02x}")).collect(),
        format!("\"{}\"\n", octets.iter().map(|o| format!("\\x{o:02X}")).collect::<String>()),
        format!("static const unsigned char pkt1[{}] = {{\n0x{}\n}};\n", octets.len(), joined(octets, ", 0x")),
        format!("{{ 0x{} }}", joined(octets, ",0x")),
        format!("\u{feff}{}\r\n", joined(octets, " ")),
        format!("# a message\n{} # its octets\n", joined(octets, " ")),
    ]
}

fn forms(octets: &[u8]) -> Vec<String> {
    let made = TOOLS.iter().filter_map(|t| tool(t, octets));
    made.chain(written(octets)).collect()
}

#[test]
fn every_sample_in_every_form() {
    let mut read = 0;
    for (name, text, octets) in samples() {
        assert_eq!(hex::read(&text), Ok(vec![octets.clone()]), "{name}");
        for form in forms(&octets) {
            assert_eq!(hex::read(&form), Ok(vec![octets.clone()]), "{name}:\n{form}");
            read += 1;
        }
    }
    assert!(read > 600, "{read}");
}

#[test]
fn stored_forms() {
    let g = digits("4842001100000001000002005d0005004900010005");
    let folder = Path::new(env!("CARGO_MANIFEST_DIR")).join("tests/forms");
    let mut count = 0;
    for entry in std::fs::read_dir(folder).unwrap() {
        let path = entry.unwrap().path();
        let read = hex::read(&std::fs::read_to_string(&path).unwrap());
        let messages = read.unwrap_or_else(|f| panic!("{path:?}: line {}: expected {}", f.line, f.expected));
        assert!(!messages.is_empty() && messages.iter().all(|m| m.ends_with(&g)), "{path:?}");
        count += 1;
    }
    assert!(count >= 6, "{count}");
}

#[test]
fn several_messages() {
    let (a, b) = (digits("48420011000000010000"), digits("4001000900000100030001000701"));
    let both = Ok(vec![a.clone(), b.clone()]);
    for (one, other) in forms(&a).into_iter().zip(forms(&b)) {
        assert_eq!(hex::read(&format!("{one}\n\n{}", other.trim_start_matches('\u{feff}'))), both, "{one}{other}");
    }
    for t in [["od", "-Ax", "-tx1"], ["hexdump", "-v", "-C"], ["xxd", "-c", "16"]] {
        if let (Some(one), Some(other)) = (tool(&t, &a), tool(&t, &b)) {
            assert_eq!(hex::read(&(one + &other)), both);
        }
    }
}

#[test]
fn what_is_refused() {
    let g = digits("4842001100000001000002005d0005004900010005");
    let zeros = [0u8; 64];
    let made =
        [tool(&["od", "-x"], &g), tool(&["hexdump"], &g), tool(&["od", "-Ax", "-tx1"], &zeros), tool(&["xxd", "-e"], &g), tool(&["od", "-c"], &g)];
    for text in made.into_iter().flatten() {
        assert!(hex::read(&text).is_err(), "{text}");
    }
    let line = |text: &str| hex::read(text).unwrap_err().line;
    assert_eq!(line("48 42\n00 1\n"), 2);
    assert_eq!(line("0000  48 42\n0003  00\n"), 2);
    assert_eq!(line("0000  48 42\n\n0002  00\n"), 3);
    assert_eq!(line("48 42\n#00 11\n"), 2);
    assert_eq!(line("no hex here\n"), 1);
    assert_eq!(line("\n# nothing\n"), 1);
    assert_eq!(line("000000 48 42\n"), 1);
    assert_eq!(line("0000   48 42\n0002\n49\n"), 3);
}

/// Every text that is one character away.
fn damaged(text: &str) -> Vec<(String, Option<(char, char)>)> {
    const ALPHABET: &str = "0159afAF gx:,.|#\\\"{}*-\n\t";
    let chars: Vec<char> = text.chars().collect();
    let with = |at: usize, skip: usize, put: Option<char>| {
        chars[..at].iter().copied().chain(put).chain(chars[at + skip..].iter().copied()).collect::<String>()
    };
    let mut all = vec![];
    for at in 0..=chars.len() {
        all.extend(ALPHABET.chars().map(|c| (with(at, 0, Some(c)), None)));
        if at < chars.len() {
            all.push((with(at, 1, None), None));
            all.extend(ALPHABET.chars().filter(|c| *c != chars[at]).map(|c| (with(at, 1, Some(c)), Some((chars[at], c)))));
        }
    }
    all
}

fn one_digit_off(a: &[u8], b: &[u8]) -> bool {
    let off: Vec<u8> = a.iter().zip(b).filter(|(x, y)| x != y).map(|(x, y)| x ^ y).collect();
    a.len() == b.len() && off.len() == 1 && (off[0] & 15 == 0 || off[0] & 240 == 0)
}

/// The same message, one with another digit, an error; or, by a blank line in text without offsets, the same octets in two messages.
fn harmless(text: &str, octets: &[u8]) -> usize {
    let mut tried = 0;
    assert_eq!(hex::read(text), Ok(vec![octets.to_vec()]));
    for (other, change) in damaged(text) {
        tried += 1;
        let Ok(messages) = hex::read(&other) else { continue };
        let digit = change.is_some_and(|(was, is)| was.is_ascii_hexdigit() && is.is_ascii_hexdigit());
        let same = messages == [octets];
        let parted = messages.len() == 2
            && messages.concat() == octets
            && !text.contains("0000 ")
            && !text.contains(':')
            && other.trim().lines().any(|l| l.trim().is_empty());
        assert!(
            same || (digit && messages.len() == 1 && one_digit_off(&messages[0], octets)) || parted,
            "of:\n{text}\nby:\n{other}\nread:\n{messages:02x?}"
        );
    }
    tried
}

#[test]
fn damage_in_every_sample() {
    let tried: usize = samples().iter().map(|(_, text, octets)| harmless(text, octets)).sum();
    println!("{tried} texts");
    assert!(tried > 200_000, "{tried}");
}

#[test]
fn damage_in_every_form() {
    let all = samples();
    let mut tried = 0;
    for name in ["wrong-version-b", "recovery-missing-e", "empty-bearer-context-i", "delete-bearer-command-g", "overload-s11-k"] {
        let (_, _, octets) = all.iter().find(|(n, _, _)| n == name).unwrap();
        for form in forms(octets) {
            tried += harmless(&form, octets);
        }
    }
    println!("{tried} texts");
    assert!(tried > 250_000, "{tried}");
}

/// Octets whose text column looks like octets: an error is allowed, another message is not.
#[test]
fn columns_like_octets() {
    let mut tried = 0;
    for text in ["44 44 44 44 44 44 44 44 44", "0x44, 0x44\" |48|", "44444444", "    4444    44  44 44", "#a 00 >44< 0000 0010: 48"] {
        for form in forms(text.as_bytes()) {
            match hex::read(&form) {
                Ok(messages) => assert_eq!(messages, [text.as_bytes()], "{form}"),
                Err(_) => continue,
            }
            tried += harmless(&form, text.as_bytes());
        }
    }
    assert!(tried > 100_000, "{tried}");
}
