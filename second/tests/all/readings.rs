//! Rules beyond the examples, each worked out by hand.

use crate::support::{five, judge, mask, message, octets, rows, table, verdict};
use second::{Verdict, DOCUMENT};

const CONTEXT: &str = "5D 00 05 00 49 00 01 00 05";
const OVERLOAD: &str = "B7 00 04 00 00 00 00 01 B6 00 01 00 0A 9C 00 01 00 05";
/// An IMSI and the mandatory pairs of a Create Session Request, 71 octets with the
/// header: 1 at 12, 82 at 17, 87 at 22, 71 at 31, 93 at 36.
const SESSION: &str = "01 00 01 00 21 52 00 01 00 06 57 00 05 00 0A 00 00 00 01 47 00 01 00 00 \
                       5D 00 1F 00 49 00 01 00 05 50 00 16 00 \
                       01 02 03 04 05 06 07 08 09 0A 0B 0C 0D 0E 0F 10 11 12 13 14 15 16";

fn join(parts: &[&str]) -> String {
    parts.concat()
}

fn standings(kind: u32, message: &[u8]) -> Vec<u16> {
    let table = table(kind, message);
    rows(&table).iter().map(|row| row[5]).collect()
}

#[test]
fn a_kind_is_never_cut_and_comes_first() {
    let good = message(66, CONTEXT);
    for kind in [0, 5, 255, 256, 257, 258, 0x0001_0001, u32::MAX] {
        assert_eq!(five(kind, &good), [1, 0, 0, 0, 0]);
        assert_eq!(five(kind, &[]), [1, 0, 0, 0, 0]);
    }
}

#[test]
fn the_longest_message_has_4096_octets() {
    let mut longest = message(1, "03 00 01 00 07 FF 0F EF 00");
    longest.resize(4096, 0x55);
    longest[2..4].copy_from_slice(&[0x0F, 0xFC]);
    assert_eq!(rows(&table(1, &longest))[1], [0, 255, 0, 17, 4079, 0]);
    longest.push(0);
    longest[2..4].copy_from_slice(&[0x0F, 0xFD]);
    assert_eq!(five(1, &longest), [2, 0, 0, 0, 0]);
}

#[test]
fn checks_3_to_8_come_in_their_order() {
    let refused = |hex: &str| five(1, &octets(hex));
    // Version 3 with one octet: 3 before 4.
    assert_eq!(refused("7F"), [3, 0, 0, 0, 0]);
    // P set in a short header: 4 before 5.
    assert_eq!(refused("50 01 00 03 00 00 01"), [4, 0, 0, 0, 0]);
    // P set and a wrong length: 5 before 6.
    assert_eq!(refused("50 01 00 05 00 00 01 00"), [5, 0, 0, 0, 0]);
    // A wrong length and an unlisted type: 6 before 7.
    assert_eq!(refused("40 63 00 05 00 00 01 00"), [6, 67, 0, 0, 0]);
    assert_eq!(refused("40 63 FF FF 00 00 01 00"), [6, 67, 0, 0, 0]);
    assert_eq!(refused("40 63 00 04 00 00 01 00"), [7, 0, 0, 0, 0]);
    // T wrong and a remnant: 8 before 9.
    assert_eq!(refused("40 42 00 05 00 00 01 00 00"), [8, 0, 0, 0, 0]);
}

#[test]
fn header_length_goes_by_the_t_found() {
    let echo_with_t = octets("48 01 00 08 00 00 00 01 00 00 01 00");
    assert_eq!(five(1, &echo_with_t), [8, 0, 0, 0, 0]);
    for length in 8..12 {
        let mut message = echo_with_t[..length].to_vec();
        message[3] = length as u8 - 4;
        assert_eq!(five(1, &message), [4, 0, 0, 0, 0]);
    }
    let command_without_t = octets("40 42 00 04 00 00 01 00");
    assert_eq!(five(1, &command_without_t), [8, 0, 0, 0, 0]);
}

#[test]
fn only_the_listed_types_are_messages() {
    let listed = [1, 2, 32, 37, 66, 67, 68, 69, 97, 131];
    for typ in 0..=255 {
        let code = five(2, &message(typ, ""))[0];
        assert_eq!(code == 7, !listed.contains(&typ), "{typ}");
    }
}

#[test]
fn remnants_of_the_message_are_9() {
    for (rest, length) in [("00", 1), ("49 00", 2), ("49 00 00", 3)] {
        let message = message(66, &join(&[CONTEXT, rest]));
        assert_eq!(message.len(), 21 + length);
        assert_eq!(five(1, &message), [9, 67, 21, 0, 0]);
    }
}

#[test]
fn a_group_too_long_is_itself_the_fault() {
    // Its inside would be broken too, at 16.
    let message = message(66, "5D 00 06 00 49 00 0A 00 05");
    assert_eq!(five(1, &message), [9, 67, 12, 0, 0]);
}

#[test]
fn the_first_fault_in_octet_order_is_given() {
    let inside = message(66, "5D 00 06 00 49 00 01 00 05 00 FF 00");
    assert_eq!(five(1, &inside), [9, 67, 21, 0, 0]);
    let second = message(66, &join(&[CONTEXT, "5D 00 03 00 49 00 00"]));
    assert_eq!(five(1, &second), [9, 67, 25, 0, 0]);
}

#[test]
fn groups_not_kept_are_not_entered() {
    // 180/1 with two octets left: a fault only where it is listed.
    let overload = message(66, &join(&[CONTEXT, "B4 00 02 01 00 00"]));
    assert_eq!(standings(1, &overload), [0, 0, 1]);
    assert_eq!(standings(2, &overload), [0, 0, 1]);
    assert_eq!(five(3, &overload), [9, 67, 25, 0, 0]);
    // The second 180/0 is a repeat in 66, and one more report in 67.
    let twice = join(&[CONTEXT, "B4 00 12 00", OVERLOAD, "B4 00 01 00 00"]);
    assert_eq!(standings(1, &message(66, &twice)), [0, 0, 0, 0, 0, 0, 2]);
    let failed = "02 00 02 00 40 00 5D 00 0B 00 49 00 01 00 05 02 00 02 00 40 00";
    let twice = join(&[failed, "B4 00 12 00", OVERLOAD, "B4 00 01 00 00"]);
    assert_eq!(five(1, &message(67, &twice)), [9, 67, 59, 0, 0]);
}

#[test]
fn bracketed_kinds_hold_for_one_pair() {
    let body = |message: u8, first: &str| {
        let report = |inst| format!("B4 00 12 0{inst} {OVERLOAD}");
        crate::support::message(message, &join(&[first, &report(0), &report(1)]))
    };
    let command = body(66, CONTEXT);
    assert_eq!(standings(1, &command), [0, 0, 0, 0, 0, 0, 1]);
    assert_eq!(standings(2, &command), [0, 0, 0, 0, 0, 0, 1]);
    assert_eq!(standings(3, &command), [0; 10]);
    let failed = "02 00 02 00 40 00 5D 00 0B 00 49 00 01 00 05 02 00 02 00 40 00";
    let indication = body(67, failed);
    assert_eq!(standings(1, &indication), [0; 12]);
    assert_eq!(standings(2, &indication), [0; 12]);
    assert_eq!(standings(3, &indication), [0, 0, 0, 0, 0, 0, 0, 0, 1]);
}

#[test]
fn kinds_of_the_other_pairs_of_66() {
    let inside = "5D 00 0A 00 49 00 01 00 05 AC 00 01 00 01";
    let rest = "57 00 05 00 0A 00 00 00 01 C9 00 01 00 00 C9 00 00 00";
    let message = message(66, &join(&[inside, rest]));
    // Rows: 93/0, 73/0, 172/0, 87/0, 201/0, 201/0 (short).
    assert_eq!(standings(1, &message), [0, 0, 0, 1, 0, 3]);
    assert_eq!(standings(2, &message), [0, 0, 1, 1, 1, 1]);
    assert_eq!(standings(3, &message), [0, 0, 0, 0, 0, 3]);
}

#[test]
fn instances_not_listed_are_unexpected() {
    // 180/0 lists 71/0 in 67, 180/1 does not; 180/2 is listed nowhere.
    let failed = "02 00 02 00 40 00 5D 00 0B 00 49 00 01 00 05 02 00 02 00 40 00";
    let with_apn = |inst| format!("B4 00 17 0{inst} {OVERLOAD} 47 00 01 00 00");
    let body = join(&[failed, &with_apn(0), &with_apn(1), &with_apn(2)]);
    let expected = [0, 0, 0, 0, 0, 0, 0, 0, 0, 0, 0, 0, 0, 1, 1];
    assert_eq!(standings(1, &message(67, &body)), expected);
}

#[test]
fn private_extensions() {
    let mut body = String::from("03 00 01 00 07");
    for inst in 0..16 {
        body += &format!("FF 00 02 {inst:02X} 00 00 FF 00 01 {inst:02X} 00");
    }
    let echo = message(2, &body);
    let standings_of_echo = standings(3, &echo);
    assert_eq!(standings_of_echo[0], 0);
    assert!(standings_of_echo[1..].chunks(2).all(|two| two == [0, 3]));
    let in_group = message(66, "5D 00 0B 00 49 00 01 00 05 FF 00 02 00 00 00");
    assert_eq!(standings(1, &in_group), [0, 0, 1]);
}

#[test]
fn unexpected_comes_before_repeated() {
    let message = message(1, "03 00 01 00 07 C8 00 00 00 C8 00 01 00 00");
    assert_eq!(standings(1, &message), [0, 1, 1]);
}

#[test]
fn a_short_first_one_leaves_no_kept_row() {
    let message = message(1, "03 00 01 00 07 98 00 00 00 98 00 01 00 00");
    let table = table(1, &message);
    assert_eq!(table[..2], [3, 1]);
    assert_eq!(standings(1, &message), [0, 3, 2]);
}

#[test]
fn every_level_starts_with_no_pair_seen() {
    let context = "5D 00 0A 00 49 00 01 00 05 49 00 01 00 06";
    let message = message(66, &context.repeat(2));
    let table = table(1, &message);
    let expected = [
        [0, 93, 0, 16, 10, 0],
        [1, 73, 0, 20, 1, 0],
        [1, 73, 0, 25, 1, 2],
        [0, 93, 0, 30, 10, 0],
        [4, 73, 0, 34, 1, 0],
        [4, 73, 0, 39, 1, 2],
    ];
    assert_eq!(rows(&table), expected);
}

#[test]
fn short_anywhere_comes_before_missing_anywhere() {
    // 2/0 is missing at the message's level; the second context's 73/0 is short.
    let contexts = "5D 00 00 00 5D 00 04 00 49 00 00 00";
    assert_eq!(five(1, &message(67, contexts)), [11, 67, 20, 73, 0]);
    // Two short ones: the first in row order.
    let contexts = "5D 00 09 00 49 00 00 00 02 00 01 00 00 02 00 00 00";
    assert_eq!(five(1, &message(67, contexts)), [11, 67, 16, 73, 0]);
}

#[test]
fn a_short_repeat_of_a_mandatory_pair_is_no_refusal() {
    let context = "5D 00 09 00 49 00 01 00 05 49 00 00 00";
    assert_eq!(standings(1, &message(66, context)), [0, 0, 2]);
}

#[test]
fn missing_goes_by_level_and_then_by_the_listing() {
    assert_eq!(five(1, &message(67, "")), [12, 70, 0, 2, 0]);
    let cause = "02 00 02 00 40 00";
    assert_eq!(five(1, &message(67, cause)), [12, 70, 0, 93, 0]);
    // The body lacks 2/0, which comes before what its group lacks.
    assert_eq!(five(1, &message(67, "5D 00 00 00")), [12, 70, 0, 2, 0]);
    let groups = join(&[cause, "5D 00 06 00", cause, "5D 00 00 00"]);
    assert_eq!(five(1, &message(67, &groups)), [12, 70, 18, 73, 0]);
    let groups = join(&[cause, "5D 00 05 00 49 00 01 00 05"]);
    assert_eq!(five(1, &message(67, &groups)), [12, 70, 18, 2, 0]);
    // 180/0 before the 93/0 that the listing names first: levels by first octet.
    let groups = join(&[cause, "B4 00 00 00 5D 00 00 00"]);
    assert_eq!(five(1, &message(67, &groups)), [12, 70, 18, 183, 0]);
}

#[test]
fn mandatory_pairs_of_a_create_session_request() {
    let whole = octets(SESSION);
    assert_eq!(five(1, &message(32, SESSION)), [0; 5]);
    // Start and end of each body element in SESSION, in listing order.
    let elements = [(82, 5, 10), (87, 10, 19), (71, 19, 24), (93, 24, 59)];
    assert_eq!(whole.len(), 59);
    for (typ, start, end) in elements {
        let rest = [&whole[..start], &whole[end..]].concat();
        let body = second::lines::hex(&rest);
        assert_eq!(five(1, &message(32, &body)), [12, 70, 0, typ, 0], "{typ}");
    }
    // With all that follow left out too, it is still the first that is told.
    for (typ, start, _) in elements {
        let body = second::lines::hex(&whole[..start]);
        assert_eq!(five(1, &message(32, &body)), [12, 70, 0, typ, 0], "{typ}");
    }
}

#[test]
fn a_visitor_without_an_imsi_is_let_in() {
    let without = second::lines::hex(&octets(SESSION)[5..]);
    for kind in 1..=3 {
        assert_eq!(five(kind, &message(32, &without)), [0; 5]);
    }
    // In 97 the IMSI is mandatory as before.
    let update = "5D 00 05 00 49 00 01 00 05 48 00 08 00 00 00 00 00 00 00 00 00";
    assert_eq!(five(1, &message(97, update)), [12, 70, 0, 1, 0]);
}

#[test]
fn short_ones_of_a_create_session_request() {
    let without = second::lines::hex(&octets(SESSION)[5..]);
    for pair in ["01 00 00 00", "4D 00 00 00", "63 00 00 00", "7F 00 00 00"] {
        let short = message(32, &join(&[pair, &without]));
        assert_eq!(standings(1, &short), [3, 0, 0, 0, 0, 0, 0]);
        // A good one after it is a repeat.
        let good = pair.replacen("00 00 00", "00 01 00 21", 1);
        let twice = message(32, &join(&[pair, &good, &without]));
        assert_eq!(standings(1, &twice), [3, 2, 0, 0, 0, 0, 0, 0]);
    }
    let empty_apn = SESSION.replace("47 00 01 00 00", "47 00 00 00");
    assert_eq!(five(1, &message(32, &empty_apn)), [11, 67, 31, 71, 0]);
    // As a repeat it is no refusal, and in front it is one.
    let last = message(32, &join(&[SESSION, "47 00 00 00"]));
    assert_eq!(standings(1, &last), [0, 0, 0, 0, 0, 0, 0, 2]);
    let first = message(32, &join(&["47 00 00 00", SESSION]));
    assert_eq!(five(1, &first), [11, 67, 12, 71, 0]);
}

#[test]
fn an_optional_group_has_its_own_mandatory_pairs() {
    let removed = join(&[SESSION, "5D 00 00 01"]);
    assert_eq!(five(1, &message(32, &removed)), [12, 70, 71, 73, 0]);
    let third = join(&[SESSION, "5D 00 00 02"]);
    assert_eq!(five(1, &message(32, &third)), [0; 5]);
}

#[test]
fn a_small_table_comes_between_9_and_11() {
    let judge_with = |message: &[u8], numbers: usize| {
        let mut table = vec![7; numbers];
        let verdict = judge(1, message, &mut table);
        assert!(verdict.accepted() || table.iter().all(|&number| number == 7));
        verdict
    };
    let missing = message(1, "");
    for numbers in 0..6 {
        assert_eq!(judge_with(&missing, numbers).code, 10);
    }
    assert_eq!(judge_with(&missing, 6), verdict([12, 70, 0, 3, 0]));
    let short = message(1, "03 00 00 00");
    assert_eq!(judge_with(&short, 11), verdict([10, 0, 0, 0, 0]));
    assert_eq!(judge_with(&short, 12), verdict([11, 67, 8, 3, 0]));
    let broken = message(1, "03 00 01 00");
    assert_eq!(judge_with(&broken, 0), verdict([9, 67, 8, 0, 0]));
    let good = message(1, "03 00 01 00 07");
    // 10 numbers were enough for a header of four.
    assert_eq!(judge_with(&good, 10).code, 10);
    assert_eq!(judge_with(&good, 11).code, 10);
    assert_eq!(judge_with(&good, 12), Verdict::ACCEPTED);
}

#[test]
fn a_table_says_what_it_is_a_table_of() {
    // The same octets on each kind, with what each kind sets aside; and an echo.
    let whole = message(66, &join(&[CONTEXT, "C9 00 01 00 00"]));
    for (kind, kept) in [(1, 3), (2, 2), (3, 3)] {
        let table = table(kind, &whole);
        assert_eq!(table[..6], [3, kept, 6, 24, 66, kind as u16]);
    }
    let echo = message(2, "03 00 01 00 07");
    assert_eq!(table(3, &echo)[..6], [1, 1, 6, 12, 2, 3]);
}

/// The places of the covered octets.
fn covered_places(kind: u32, message: &[u8]) -> Vec<usize> {
    let covered = DOCUMENT.covered(kind, message);
    let places = covered.iter().enumerate();
    places.filter(|(_, &yes)| yes).map(|(at, _)| at).collect()
}

#[test]
fn cover_by_type_and_by_standing() {
    // 3/0, then 1/0 and 79/0 unexpected, 255/0 kept, 3/0 repeated, 255/1 short.
    let body = "03 00 01 00 07 01 00 01 00 21 4F 00 02 00 01 0A FF 00 02 00 05 06 \
                03 00 01 00 08 FF 00 01 01 09";
    let places = covered_places(1, &message(1, body));
    assert_eq!(places, [17, 22, 23, 28, 29, 34, 39]);
}

#[test]
fn the_first_octet_of_79_stays_where_it_is_read() {
    let start = 12 + octets(SESSION).len();
    let with = |element: &str| message(32, &join(&[SESSION, element]));
    let imsi = 16;
    let kept = with("4F 00 05 00 01 0A 2D 00 07");
    let expected = [imsi, start + 5, start + 6, start + 7, start + 8];
    assert_eq!(covered_places(1, &kept), expected);
    let short = with("4F 00 03 00 01 0A 2D");
    assert_eq!(covered_places(1, &short), [imsi, start + 5, start + 6]);
    let empty = with("4F 00 00 00");
    assert_eq!(covered_places(1, &empty), [imsi]);
    let repeated = with("4F 00 01 00 04 4F 00 01 00 01");
    assert_eq!(covered_places(1, &repeated), [imsi, start + 9]);
    let other = with("4F 00 02 01 01 0A");
    assert_eq!(covered_places(1, &other), [imsi, start + 4, start + 5]);
}

/// A Delete Bearer Command with a user location of so many octets, and its value's
/// place: 12 + 9 + 4.
fn located(first: u8, length: usize) -> Vec<u8> {
    let mut value = vec![0x21; length];
    if let Some(octet) = value.first_mut() {
        *octet = first;
    }
    let location = format!("56 {length:04X} 00 {}", second::lines::hex(&value));
    message(66, &join(&[CONTEXT, &location]))
}

#[test]
fn a_user_location_is_as_long_as_its_flags_say() {
    // None; CGI; SAI; RAI; TAI; ECGI; LAI; TAI and ECGI; all; none and all with
    // the two top bits, which add nothing.
    let lengths = [
        (0x00, 1),
        (0x01, 8),
        (0x02, 8),
        (0x04, 8),
        (0x08, 6),
        (0x10, 8),
        (0x20, 6),
        (0x18, 13),
        (0x3F, 39),
        (0xC0, 1),
        (0xFF, 39),
    ];
    for (first, least) in lengths {
        assert_eq!(standings(1, &located(first, least - 1)), [0, 0, 3]);
        assert_eq!(standings(1, &located(first, least)), [0, 0, 0]);
        assert_eq!(standings(1, &located(first, least + 1)), [0, 0, 0]);
    }
    assert_eq!(standings(2, &located(0, 0)), [0, 0, 3]);
}

#[test]
fn the_first_octet_of_86_stays_where_it_is_read() {
    assert_eq!(covered_places(1, &located(0x08, 6)), [26, 27, 28, 29, 30]);
    assert_eq!(covered_places(1, &located(0x08, 3)), [26, 27]);
    assert_eq!(covered_places(1, &located(0x08, 1)), []);
    assert_eq!(covered_places(1, &located(0xC0, 1)), []);
    assert_eq!(covered_places(1, &located(0, 0)), []);
    // A repeat, and an instance that is not listed: whole.
    let twice = join(&[CONTEXT, "56 00 01 00 40 56 00 02 00 40 21"]);
    assert_eq!(covered_places(1, &message(66, &twice)), [30, 31]);
    let other = join(&[CONTEXT, "56 00 02 01 40 21"]);
    assert_eq!(covered_places(1, &message(66, &other)), [25, 26]);
    // In 68 no instance is listed.
    let command = "64 00 01 00 01 55 00 01 00 21 56 00 02 00 40 21";
    assert_eq!(covered_places(1, &message(68, command)), [26, 27]);
}

#[test]
fn a_group_set_aside_is_covered_whole() {
    let group = join(&[CONTEXT, "5D 00 05 01 49 00 01 00 06"]);
    let places = covered_places(1, &message(66, &group));
    assert_eq!(places, [25, 26, 27, 28, 29]);
}

#[test]
fn cover_reaches_into_kept_groups() {
    // 86/0 and 255/0 are unexpected in 93/0, 97/0 is listed and not covered.
    let group = "5D 00 15 00 49 00 01 00 05 61 00 01 00 01 56 00 01 00 18 FF 00 02 00 0A 0B";
    let message = message(66, group);
    assert_eq!(covered_places(1, &message), [30, 35, 36]);
}

#[test]
fn nothing_is_covered_in_a_message_refused_by_1_to_9() {
    let good = message(1, "03 00 01 00 07 C8 00 02 00 11 22");
    assert_eq!(covered_places(1, &good), [17, 18]);
    assert_eq!(covered_places(0, &good), []);
    let broken = message(1, "03 00 01 00 07 C8 00 02 00 11 22 00");
    assert_eq!(covered_places(1, &broken), []);
}

#[test]
fn a_copy_is_made_with_11_and_with_12() {
    let missing = message(1, "98 00 00 00 C8 00 01 00 11");
    let short = message(32, "57 00 01 00 8A 01 00 01 00 21");
    let mut copy = vec![0xEE; short.len() + 2];
    let answered = mask(1, &missing, &mut copy);
    assert_eq!(answered, verdict([12, 70, 0, 3, 0]));
    assert_eq!(copy[..16], missing[..16]);
    assert_eq!(copy[16], 0);
    let answered = mask(1, &short, &mut copy);
    assert_eq!(answered, verdict([11, 67, 12, 87, 0]));
    // The mandatory short 87/0 counts as standing 3: it is not covered.
    assert_eq!(copy[..21], short[..21]);
    assert_eq!(copy[21..], [0, 0xEE, 0xEE]);
}

#[test]
fn a_small_copy_comes_after_9() {
    let good = message(1, "03 00 01 00 07");
    let broken = message(1, "03 00 02 00 07");
    let mut copy = [0xEE; 12];
    assert_eq!(mask(1, &good, &mut copy), verdict([13, 0, 0, 0, 0]));
    assert_eq!(mask(1, &broken, &mut copy), verdict([9, 67, 8, 0, 0]));
    assert_eq!(mask(5, &good, &mut copy), verdict([1, 0, 0, 0, 0]));
    assert_eq!(mask(1, &good, &mut []), verdict([13, 0, 0, 0, 0]));
    assert_eq!(copy, [0xEE; 12]);
}
