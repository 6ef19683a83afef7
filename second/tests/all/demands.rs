//! The demands over random messages.

use crate::support::{judged, rows, UNTOUCHED};
use second::generate::{Case, Generator, Random};
use second::listings::Line;
use second::rules::{Check, Standing};
use second::{judge_copy, Verdict, DOCUMENT};

const CASES: usize = 24_000;

/// Each row begins where the one before it at its level ended, the first where
/// the level begins, and the last ends where the level ends.
fn assert_rows_tile_their_levels(message: &[u8], rows: &[[u16; 6]]) {
    let header = if message[0] & 8 == 0 { 8 } else { 12 };
    let mut next = vec![header];
    let mut ends = vec![message.len()];
    let mut entered = vec![true];
    for (number, &[parent, typ, _, place, length, standing]) in rows.iter().enumerate() {
        let (place, parent) = (usize::from(place), usize::from(parent));
        assert!(parent <= number, "a parent comes before its rows");
        assert!(entered[parent], "only a kept group is a parent");
        assert_eq!(place - 4, next[parent]);
        next[parent] = place + usize::from(length);
        assert!(next[parent] <= ends[parent]);
        next.push(place);
        ends.push(place + usize::from(length));
        entered.push(standing == 0 && matches!(typ, 93 | 109 | 180));
    }
    for row in 0..next.len() {
        assert!(!entered[row] || next[row] == ends[row]);
    }
}

#[test]
fn rows_lie_within_their_parents_and_siblings_never_overlap() {
    let mut accepted = 0;
    let mut generator = Generator::new(17);
    let overloads = (0..CASES / 4).map(|_| generator.overload());
    for case in Generator::new(11).take(CASES).chain(overloads) {
        let (verdict, table) = judged(case.kind, &case.message);
        if verdict.accepted() {
            accepted += 1;
            assert_rows_tile_their_levels(&case.message, rows(&table));
            let kept = rows(&table).iter().filter(|row| row[5] == 0).count();
            assert_eq!(usize::from(table[1]), kept);
            assert_eq!(table[2..4], [6, 6 + 6 * table[0]]);
            let typ = case.message[1].into();
            assert_eq!(table[4..6], [typ, case.kind as u16]);
        }
    }
    assert!(accepted > CASES / 3);
}

/// The first mandatory pair without a kept row, looked for level by level.
pub fn missing_by_hand(lines: &[Line], case: &Case) -> Option<Verdict> {
    let rows = DOCUMENT
        .rows(case.kind, &case.message)
        .expect("a whole message");
    let mut levels = vec![(0, 0, None)];
    for (number, row) in rows.iter().enumerate() {
        if row.standing == Standing::Kept && matches!(row.typ, 93 | 109 | 180) {
            levels.push((number + 1, row.place - 4, Some((row.typ, row.inst))));
        }
    }
    for (parent, place, group) in levels {
        let listed = lines.iter().filter(|line| {
            let level = line.level.map(|(typ, inst)| (typ, inst.number()));
            line.message == case.message[1] && level == group && line.listed.mandatory
        });
        for line in listed {
            let (typ, inst) = (line.listed.typ, line.listed.inst.number());
            let kept = rows.iter().any(|row| {
                usize::from(row.parent) == parent
                    && row.standing == Standing::Kept
                    && (row.typ, row.inst) == (typ, inst)
            });
            if !kept {
                return Some(DOCUMENT.refusal(Check::Missing).at(place).of(typ, inst));
            }
        }
    }
    None
}

#[test]
fn missing_is_given_exactly_when_a_required_pair_has_no_kept_row() {
    let lines = DOCUMENT.lines();
    let mut missing = 0;
    let mut generator = Generator::new(18);
    let overloads = (0..CASES / 4).map(|_| generator.overload());
    for case in Generator::new(12).take(CASES).chain(overloads) {
        let (verdict, _) = judged(case.kind, &case.message);
        if verdict.code == 0 || verdict.code == 12 {
            let expected = missing_by_hand(&lines, &case);
            assert_eq!(verdict, expected.unwrap_or(Verdict::ACCEPTED));
            missing += usize::from(verdict.code == 12);
        }
    }
    assert!(missing > CASES / 60);
}

/// The message with its covered octets drawn anew.
fn other_covered(random: &mut Random, message: &[u8], covered: &[bool]) -> Vec<u8> {
    let octets = message.iter().zip(covered);
    octets
        .map(|(&own, &covered)| if covered { random.octet() } else { own })
        .collect()
}

/// A verdict, and what both lent buffers hold after it.
type Left = (Verdict, Vec<u16>, Vec<u8>);

fn left_by(case: &Case, lent: &(Vec<u16>, Vec<u8>)) -> Left {
    let (mut table, mut copy) = lent.clone();
    let verdict = judge_copy(case.kind, &case.message, &mut table, &mut copy);
    (verdict, table, copy)
}

fn assert_copy_is_right(case: &Case, covered: &[bool], copy: &[u8]) {
    let (copied, past) = copy.split_at(case.message.len());
    for ((&own, &covered), &copied) in case.message.iter().zip(covered).zip(copied) {
        assert_eq!(copied, if covered { 0 } else { own });
    }
    assert!(past.iter().all(|&octet| octet == 0xEE));
}

#[test]
fn covered_octets_change_nothing() {
    let mut generator = Generator::new(13);
    let mut random = Random::new(14);
    let mut pairs = 0;
    let mut copies = [0; 13];
    for turn in 0..CASES {
        let case = match turn % 4 {
            0 => generator.overload(),
            _ => generator.case(),
        };
        let covered = DOCUMENT.covered(case.kind, &case.message);
        let other = Case {
            kind: case.kind,
            message: other_covered(&mut random, &case.message, &covered),
        };
        pairs += usize::from(other != case);
        let lent = generator.lent(&case);
        let lent = (vec![UNTOUCHED; lent.0], vec![0xEE; lent.1]);
        let left = left_by(&case, &lent);
        assert_eq!(left_by(&other, &lent), left);
        let (verdict, table, copy) = &left;
        if matches!(verdict.code, 0 | 11 | 12) {
            assert_copy_is_right(&case, &covered, copy);
            let copied = Case {
                kind: case.kind,
                message: copy[..case.message.len()].to_vec(),
            };
            assert_eq!(left_by(&copied, &lent), left);
            copies[usize::from(verdict.code)] += 1;
        } else {
            assert_eq!(*copy, lent.1);
        }
        assert!(verdict.accepted() || *table == lent.0);
    }
    assert!(pairs > CASES / 4);
    let [accepted, .., short, missing] = copies;
    assert!(accepted > CASES / 8, "{copies:?}");
    assert!(short > CASES / 200 && missing > CASES / 200, "{copies:?}");
}

/// The call with every length of a table and of a copy, held to the words.
#[test]
fn lent_buffers_of_all_lengths() {
    for case in Generator::new(15).take(CASES / 12) {
        let need = case.table_need();
        let (largest, used) = judged(case.kind, &case.message);
        let covered = DOCUMENT.covered(case.kind, &case.message);
        let passes_9 = DOCUMENT.rows(case.kind, &case.message).is_ok();
        for numbers in case.table_lengths() {
            for octets in case.copy_lengths() {
                let lent = (vec![UNTOUCHED; numbers], vec![0xEE; octets]);
                let (verdict, table, copy) = left_by(&case, &lent);
                let expected = if passes_9 && octets < case.message.len() {
                    DOCUMENT.refusal(Check::CopyRoom)
                } else if passes_9 && numbers < need {
                    DOCUMENT.refusal(Check::TableRoom)
                } else {
                    largest
                };
                assert_eq!(verdict, expected);
                let written = if verdict.accepted() { need } else { 0 };
                assert_eq!(table[..written], used[..written]);
                assert!(table[written..].iter().all(|&number| number == UNTOUCHED));
                match verdict.code {
                    0 | 11 | 12 => assert_copy_is_right(&case, &covered, &copy),
                    _ => assert_eq!(copy, lent.1),
                }
            }
        }
    }
}
