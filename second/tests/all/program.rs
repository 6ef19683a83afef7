//! The judge program, and the command line around it.

use std::fs;
use std::io::Write;
use std::process::{Command, Output, Stdio};

use crate::support::{mask, message, octets};
use second::generate::{Ask, Generator, Lookup};
use second::{lines, DOCUMENT};

const G: &str = "48 42 00 11 00 00 00 01 00 00 02 00 5D 00 05 00 49 00 01 00 05";
const G_ACCEPTED: &str = "accept 2 2\n0 93 0 16 5 0\n1 73 0 20 1 0\n";

fn input(kind: u8, message: &[u8]) -> Vec<u8> {
    [&[kind], message].concat()
}

#[test]
fn no_input_reads_as_kind_0() {
    assert_eq!(DOCUMENT.program(&[]), "refuse 1 0 0 0 0\n");
}

#[test]
fn one_octet_is_a_kind_with_an_empty_message() {
    assert_eq!(DOCUMENT.program(&[0]), "refuse 1 0 0 0 0\n");
    assert_eq!(DOCUMENT.program(&[1]), "refuse 2 0 0 0 0\n");
    assert_eq!(DOCUMENT.program(&[255]), "refuse 1 0 0 0 0\n");
}

#[test]
fn refusals_are_one_line() {
    let cut = &octets(G)[..20];
    assert_eq!(DOCUMENT.program(&input(1, cut)), "refuse 6 67 0 0 0\n");
    let empty = message(66, "5D 00 00 00");
    assert_eq!(
        DOCUMENT.program(&input(2, &empty)),
        "refuse 12 70 12 73 0\n"
    );
}

#[test]
fn the_first_4097_octets_count_and_no_copy_is_short() {
    let mut longest = message(1, "03 00 01 00 07 FF 0F EF 00");
    longest.resize(4096, 0x55);
    longest[2..4].copy_from_slice(&[0x0F, 0xFC]);
    let accepted = "accept 2 2\n0 3 0 12 1 0\n0 255 0 17 4079 0\n";
    assert_eq!(DOCUMENT.program(&input(1, &longest)), accepted);
    for length in [4097, 4098, 70_000] {
        longest.resize(length, 0);
        assert_eq!(DOCUMENT.program(&input(1, &longest)), "refuse 2 0 0 0 0\n");
    }
}

#[test]
fn the_table_has_room_for_1022_rows() {
    let mut body = octets("03 00 04 00 00 00 00 00");
    body.extend(octets("C8 00 00 00").repeat(1020));
    let text = DOCUMENT.program(&input(1, &message(1, &lines::hex(&body))));
    assert!(text.starts_with("accept 1021 1\n0 3 0 12 4 0\n0 200 0 20 0 1\n"));
    assert_eq!(text.lines().count(), 1022);
    let all_empty = octets("03 00 00 00").repeat(1022);
    let message = message(1, &lines::hex(&all_empty));
    assert_eq!(message.len(), 4096);
    assert_eq!(
        DOCUMENT.program(&input(1, &message)),
        "refuse 11 67 8 3 0\n"
    );
}

fn second(arguments: &[&str], input: &[u8]) -> Output {
    let mut child = Command::new(env!("CARGO_BIN_EXE_second"))
        .args(arguments)
        .stdin(Stdio::piped())
        .stdout(Stdio::piped())
        .stderr(Stdio::piped())
        .spawn()
        .expect("the program starts");
    let mut stdin = child.stdin.take().expect("its input is piped");
    // A command without input may be gone already.
    let _ = stdin.write_all(input);
    drop(stdin);
    child.wait_with_output().expect("the program ends")
}

fn printed(output: Output) -> String {
    assert!(output.status.success());
    String::from_utf8(output.stdout).expect("text")
}

#[test]
fn judge_command() {
    assert_eq!(
        printed(second(&["judge"], &input(1, &octets(G)))),
        G_ACCEPTED
    );
    assert_eq!(printed(second(&["judge"], &[])), "refuse 1 0 0 0 0\n");
}

#[test]
fn mask_command() {
    let message = message(1, "03 00 01 00 07 C8 00 02 00 11 22");
    let mut copy = vec![0; message.len()];
    mask(1, &message, &mut copy);
    let output = second(&["mask"], &input(1, &message));
    assert!(output.status.success());
    assert_eq!(output.stdout, copy);

    // 12 leaves a copy too.
    let missing = crate::support::message(1, "C8 00 02 00 11 22");
    let output = second(&["mask"], &input(1, &missing));
    assert!(output.status.success());
    assert_eq!(output.stdout[..12], missing[..12]);
    assert_eq!(output.stdout[12..], [0, 0]);

    let output = second(&["mask"], &input(5, &message));
    assert_eq!(output.status.code(), Some(1));
    assert!(output.stdout.is_empty());
    assert_eq!(output.stderr, b"refuse 1 0 0 0 0\n");

    // 131 is not on kind 3, and there is no copy.
    let context = crate::support::message(131, "02 00 02 00 10 00");
    for command in ["mask", "clean"] {
        let output = second(&[command], &input(3, &context));
        assert_eq!(output.status.code(), Some(1));
        assert!(output.stdout.is_empty());
        assert_eq!(output.stderr, b"refuse 21 0 0 0 0\n");
        let output = second(&[command], &input(4, &context));
        assert_eq!(output.stdout, context);
    }
}

#[test]
fn clean_command() {
    let good = message(1, "03 00 01 00 07 C8 00 02 00 11 22");
    let output = second(&["clean"], &input(1, &good));
    assert!(output.status.success());
    assert_eq!(output.stdout, message(1, "03 00 01 00 07"));

    let output = second(&["clean"], &input(1, &message(1, "98 00 01 00 00")));
    assert_eq!(output.status.code(), Some(1));
    assert!(output.stdout.is_empty());
    assert_eq!(output.stderr, b"refuse 12 70 0 3 0\n");
}

#[test]
fn lookup_command() {
    let g = G.replace(' ', "");
    let table = "2,2,6,18,66,1,0,93,0,16,5,0,1,73,0,20,1,0";
    let lines = [
        format!("desk 1 1 1 {g} {g} {table}"),
        format!("desk 1 2 1 {g} {g} {table}"),
        format!("desk 1 1 0 {g} - {table}"),
        format!("desk 2 1 1 {g} {g} {table}"),
        format!("plain 1 93 0 {g} {table}"),
        format!("plain 4294967295 93 0 {g} {table}"),
        format!("plain 1 73 0 {g} {table}"),
        format!("plain 1 73 0 {g} 1,1,6,12,66,1,0,73,0,21,0,0"),
        "plain 1 3 0 - -".into(),
        "desk 1 0 0 - - 0,0,6,6,1,1".into(),
    ];
    let output = second(&["lookup"], lines.join("\n").as_bytes());
    let expected = "1 05\n0 \n0 \n0 \n1 4900010005\n0 \n0 \n1 \n0 \n0 \n";
    assert_eq!(printed(output), expected);
    // A line without a kind, and a kind past 32 bits.
    for line in [
        format!("plain 93 0 {g} {table}"),
        format!("plain 4294967296 93 0 {g} {table}"),
    ] {
        assert_eq!(second(&["lookup"], line.as_bytes()).status.code(), Some(2));
    }
}

#[test]
fn lookup_lines_are_read_as_written() {
    let mut generator = Generator::new(41);
    for _ in 0..2000 {
        let lookup = generator.lookup();
        let read = lines::lookup(&lines::lookup_line(&lookup)).expect("a line");
        let copy = match lookup.ask {
            Ask::Plain { .. } => Vec::new(),
            Ask::Desk { .. } => lookup.copy.clone(),
        };
        assert_eq!(read, Lookup { copy, ..lookup });
    }
}

#[test]
fn generate_command() {
    let cases = Generator::new(5).inputs(300);
    let expected = cases.iter().map(|case| lines::case_line(case) + "\n");
    let output = printed(second(&["generate", "5", "300"], &[]));
    assert_eq!(output, expected.collect::<String>());
}

#[test]
fn generate_command_with_a_folder() {
    let folder = concat!(env!("CARGO_TARGET_TMPDIR"), "/generated");
    printed(second(&["generate", "5", "300", folder], &[]));
    for (number, case) in Generator::new(5).inputs(300).iter().enumerate() {
        let file = fs::read(format!("{folder}/{number:06}.in")).ok();
        let kind = u8::try_from(case.kind).ok();
        assert_eq!(file, kind.map(|kind| input(kind, &case.message)));
    }
    fs::remove_dir_all(folder).expect("the folder was made");
}

#[test]
fn listings_and_types_commands() {
    let listings = printed(second(&["listings"], &[]));
    let echo = "1 T 0 1234\n1 body 3/0 M - 1234\n1 body 152/0 - - 1234\n\
                1 body 255/any - * 1234\n2 T 0 1234\n";
    assert!(listings.starts_with(echo));
    assert!(listings.contains("\n97 T 1 123\n"));
    assert!(listings.contains("\n131 T 1 4\n131 body 2/0 M - 4\n131 body 1/0 - - 4\n"));
    assert!(
        listings.contains("\n131 109/0 93/0 M * 4\n131 109/0 72/0 M - 4\n131 93/0 73/0 M - 4\n")
    );
    assert!(listings.contains("\n66 body 180/1 - - 3\n"));
    assert!(listings.contains("\n67 180/0 71/0 - * 123 most 10\n"));
    let types = printed(second(&["types"], &[]));
    assert_eq!(types.lines().count(), 256);
    for line in [
        "0 1 - - whole whole - values",
        "1 1 - whole whole whole whole values",
        "79 [1,5,18,22,1,1,1,1] - rest whole whole rest values",
        "86 [1,8,8,15,8,15,15,22,6,13,13,20,13,20,20,27,8,15,15,22,15,22,22,29,13,20,20,27,20,27,27,34,\
         6,13,13,20,13,20,20,27,11,18,18,25,18,25,25,32,13,20,20,27,20,27,27,34,18,25,25,32,25,32,32,39] \
         - rest whole whole rest values",
        "87 [5,21,9,25] - - whole whole - values",
        "74 4 - whole whole whole whole values",
        "93 0 group - whole whole - values",
        "102 1 - - whole whole - values",
        "103 1 - whole whole whole whole values",
        "108 1 - whole whole whole whole values",
        "109 0 group - whole whole - values",
        "180 0 group - whole whole - values",
        "255 2 - whole whole whole whole values",
    ] {
        assert!(types.lines().any(|other| other == line), "{line}");
    }
}

#[test]
fn other_commands_are_errors() {
    for arguments in [&[][..], &["what"], &["generate", "x", "1"], &["judge", "1"]] {
        assert_eq!(second(arguments, &[]).status.code(), Some(2));
    }
}
