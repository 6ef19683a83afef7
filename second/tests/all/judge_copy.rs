//! Judge and copy in one call: the order of its refusals, what each leaves in both
//! lent buffers, and calls that have one of these wrong, which the messages show.

use std::collections::BTreeMap;

use crate::demands::missing_by_hand;
use crate::support::{message, octets, rows, table, verdict, UNTOUCHED};
use second::generate::{figures, lends, Buffers, Case, Generator};
use second::listings::Line;
use second::rules::Standing;
use second::walk::Row;
use second::{clean, judge_copy, judge_copy_octets, start, Verdict, DOCUMENT};

const D: &str = "40 01 00 09 00 00 01 00 03 00 01 00 07";
/// D and an element that is not listed, the example M.
const M: &str = "40 01 00 0F 00 00 01 00 03 00 01 00 07 C8 00 02 00 11 22";
const OCTET: u8 = 0xEE;

/// What the call leaves in buffers of so many numbers and octets.
fn left(kind: u32, message: &[u8], numbers: usize, octets: usize) -> (Verdict, Vec<u16>, Vec<u8>) {
    let (mut table, mut copy) = (vec![UNTOUCHED; numbers], vec![OCTET; octets]);
    let verdict = judge_copy(kind, message, &mut table, &mut copy);
    (verdict, table, copy)
}

/// The five numbers of a refusal that writes nothing.
fn refused(kind: u32, message: &[u8], numbers: usize, octets: usize) -> [u16; 5] {
    let (verdict, table, copy) = left(kind, message, numbers, octets);
    assert_eq!(table, vec![UNTOUCHED; numbers]);
    assert_eq!(copy, vec![OCTET; octets]);
    assert!(!verdict.accepted());
    verdict.numbers()
}

#[test]
fn acceptance_writes_both() {
    let m = octets(M);
    let (verdict, table, copy) = left(1, &m, 20, 21);
    assert_eq!(verdict, Verdict::ACCEPTED);
    let numbers = [2, 1, 6, 18, 1, 1, 0, 3, 0, 12, 1, 0, 0, 200, 0, 17, 2, 1];
    assert_eq!(table[..18], numbers);
    assert_eq!(table[18..], [UNTOUCHED; 2]);
    assert_eq!(copy[..17], m[..17]);
    assert_eq!(copy[17..], [0, 0, OCTET, OCTET]);
    // With not a number and not an octet more than are needed.
    let (verdict, table, copy) = left(1, &m, 18, 19);
    assert_eq!(verdict, Verdict::ACCEPTED);
    assert_eq!(table, numbers);
    assert_eq!(copy[..17], m[..17]);
    assert_eq!(copy[17..], [0, 0]);
}

#[test]
fn one_to_nine_come_before_what_is_lent() {
    let d = octets(D);
    let mut version = d.clone();
    version[0] = 0x60;
    let mut piggybacked = d.clone();
    piggybacked[0] = 0x50;
    let mut unlisted = d.clone();
    unlisted[1] = 3;
    // 131 with T = 0: it is not on kind 1, which comes before its T.
    let mut off_kind = d.clone();
    off_kind[1] = 131;
    let mut teid = d.clone();
    teid[1] = 66;
    let mut broken = d.clone();
    broken[10] = 2;
    let mut long = d.clone();
    long.resize(4097, 0);
    let cases = [
        (5, d.clone(), [1, 0, 0, 0, 0]),
        (257, d.clone(), [1, 0, 0, 0, 0]),
        (0, Vec::new(), [1, 0, 0, 0, 0]),
        (1, Vec::new(), [2, 0, 0, 0, 0]),
        (1, long, [2, 0, 0, 0, 0]),
        (1, version, [3, 0, 0, 0, 0]),
        (1, d[..7].to_vec(), [4, 0, 0, 0, 0]),
        (1, piggybacked, [5, 0, 0, 0, 0]),
        (1, d[..12].to_vec(), [6, 67, 0, 0, 0]),
        (1, unlisted, [7, 0, 0, 0, 0]),
        (1, off_kind, [21, 0, 0, 0, 0]),
        (1, teid, [8, 0, 0, 0, 0]),
        (1, broken, [9, 67, 8, 0, 0]),
    ];
    for (kind, message, expected) in cases {
        for numbers in [0, 5, 6, 11, 12, 100] {
            for octets in [0, 12, 13, message.len(), message.len() + 1] {
                assert_eq!(refused(kind, &message, numbers, octets), expected);
            }
        }
    }
}

#[test]
fn thirteen_then_ten_then_eleven_then_twelve() {
    // 24 octets, three rows: 24 numbers. The body has no 2/0, which is 12; the
    // second context's 73/0 at 20 is short, which is 11.
    let both = message(67, "5D 00 00 00 5D 00 04 00 49 00 00 00");
    assert_eq!(both.len(), 24);
    for numbers in [0, 6, 22, 23, 24, 25] {
        for octets in [0, 1, 23] {
            assert_eq!(refused(1, &both, numbers, octets), [13, 0, 0, 0, 0]);
        }
    }
    for numbers in [0, 4, 5, 6, 18, 22, 23] {
        for octets in [24, 25, 4096] {
            assert_eq!(refused(1, &both, numbers, octets), [10, 0, 0, 0, 0]);
        }
    }
    for (numbers, octets) in [(24, 24), (25, 24), (24, 26), (100, 4096)] {
        let (verdict, table, copy) = left(1, &both, numbers, octets);
        assert_eq!(verdict.numbers(), [11, 67, 20, 73, 0]);
        assert_eq!(table, vec![UNTOUCHED; numbers]);
        assert_eq!(copy[..24], both);
        assert_eq!(copy[24..], vec![OCTET; octets - 24]);
    }
    // With a 73/0 that is long enough only 12 is left: 25 octets, 24 numbers.
    let lacks = message(67, "5D 00 00 00 5D 00 05 00 49 00 01 00 05");
    assert_eq!(refused(1, &lacks, 23, 24), [13, 0, 0, 0, 0]);
    assert_eq!(refused(1, &lacks, 24, 24), [13, 0, 0, 0, 0]);
    assert_eq!(refused(1, &lacks, 23, 25), [10, 0, 0, 0, 0]);
    let (verdict, table, copy) = left(1, &lacks, 24, 26);
    assert_eq!(verdict.numbers(), [12, 70, 0, 2, 0]);
    assert_eq!(table, [UNTOUCHED; 24]);
    assert_eq!(copy[..25], lacks);
    assert_eq!(copy[25], OCTET);
}

#[test]
fn a_table_of_under_six_numbers_is_ten_where_there_is_no_row() {
    // E: eight octets and no element.
    let e = octets("40 01 00 04 00 00 01 00");
    for numbers in 0..6 {
        assert_eq!(refused(1, &e, numbers, 7), [13, 0, 0, 0, 0]);
        assert_eq!(refused(1, &e, numbers, 8), [10, 0, 0, 0, 0]);
    }
    let (verdict, table, copy) = left(1, &e, 6, 9);
    assert_eq!(verdict.numbers(), [12, 70, 0, 3, 0]);
    assert_eq!(table, [UNTOUCHED; 6]);
    assert_eq!(copy[..8], e);
    assert_eq!(copy[8], OCTET);
}

#[test]
fn what_eleven_and_twelve_leave_is_masked() {
    // 32 with an 87/0 of one octet, which is mandatory, and an IMSI; cover of a
    // short mandatory one is that of standing 3.
    let short = message(32, "57 00 01 00 8A 01 00 01 00 21");
    let (verdict, table, copy) = left(1, &short, 18, 23);
    assert_eq!(verdict.numbers(), [11, 67, 12, 87, 0]);
    assert_eq!(table, [UNTOUCHED; 18]);
    assert_eq!(copy[..21], short[..21]);
    assert_eq!(copy[21..], [0, OCTET]);
    // An echo without 3/0, with an element that is not listed.
    let lacks = message(1, "98 00 01 00 0A C8 00 02 00 11 22");
    let (verdict, table, copy) = left(1, &lacks, 18, 19);
    assert_eq!(verdict.numbers(), [12, 70, 0, 3, 0]);
    assert_eq!(table, [UNTOUCHED; 18]);
    assert_eq!(copy[..17], lacks[..17]);
    assert_eq!(copy[17..], [0, 0]);
}

#[test]
fn the_largest_buffers_that_a_message_needs() {
    // 4,096 octets; 1,021 rows, which are 6,132 numbers.
    let most = [
        octets("03 00 04 00 00 00 00 00"),
        octets("C8 00 00 00").repeat(1020),
    ];
    let most = message(1, &second::lines::hex(&most.concat()));
    assert_eq!(most.len(), 4096);
    assert_eq!(refused(1, &most, 6131, 4095), [13, 0, 0, 0, 0]);
    assert_eq!(refused(1, &most, 6132, 4095), [13, 0, 0, 0, 0]);
    assert_eq!(refused(1, &most, 6131, 4096), [10, 0, 0, 0, 0]);
    let (verdict, table, copy) = left(1, &most, 6132, 4096);
    assert_eq!(verdict, Verdict::ACCEPTED);
    assert_eq!(table[..6], [1021, 1, 6, 6132, 1, 1]);
    assert_eq!(copy, most);
}

#[test]
fn a_void_group_needs_no_numbers_for_its_inside() {
    // 67 with 2/0, a context and a report of eleven empty APNs: five rows, 81
    // octets; the APNs would be eleven rows more.
    let report = format!("B4 00 2C 00 {}", "47 00 00 00 ".repeat(11));
    let body = "02 00 02 00 10 00 5D 00 0B 00 49 00 01 00 05 02 00 02 00 10 00";
    let void = message(67, &format!("{body} {report}"));
    assert_eq!(void.len(), 81);
    assert_eq!(refused(1, &void, 35, 80), [13, 0, 0, 0, 0]);
    assert_eq!(refused(1, &void, 35, 81), [10, 0, 0, 0, 0]);
    let (verdict, numbers, copy) = left(1, &void, 36, 81);
    assert_eq!((verdict, &numbers), (Verdict::ACCEPTED, &table(1, &void)));
    assert_eq!(rows(&numbers)[4], [0, 180, 0, 37, 44, 4]);
    assert_eq!(copy, void);
}

#[test]
fn the_cleaner_and_the_pieces_form_have_no_such_copy() {
    // M needs 19 octets for its copy, and 13 for the cleaned one; in parts there
    // is none to be short.
    let m = octets(M);
    assert_eq!(refused(1, &m, 18, 18), [13, 0, 0, 0, 0]);
    assert!(clean(1, &m, &mut [0; 13]).verdict.accepted());
    assert_eq!(clean(1, &m, &mut [0; 12]).verdict.code, 13);
    for numbers in [0, 17, 18] {
        let mut table = vec![0; numbers];
        let mut pieces = start(1, &mut table);
        pieces.part(&m, &mut table);
        let code = pieces.end(&mut table).code;
        assert_eq!(code, if numbers < 18 { 10 } else { 0 });
    }
}

/// The copy, handed to the call with the same buffers again, is answered and
/// written the same; answers the code, if a copy is made.
fn assert_copy_is_judged_the_same(case: &Case, numbers: usize, octets: usize) -> Option<u16> {
    let first = left(case.kind, &case.message, numbers, octets);
    let (verdict, _, copy) = &first;
    if !matches!(verdict.code, 0 | 11 | 12) {
        return None;
    }
    let copied = &copy[..case.message.len()];
    assert_eq!(left(case.kind, copied, numbers, octets), first, "{case:?}");
    Some(verdict.code)
}

#[test]
fn a_copy_is_judged_as_its_message() {
    let mut codes = BTreeMap::new();
    let mut generator = Generator::new(43);
    let overloads = (0..4_000).map(|_| generator.overload());
    let mix = Generator::new(44).take(8_000);
    for case in figures().into_iter().chain(overloads).chain(mix) {
        for (numbers, octets) in case.around_both() {
            let code = assert_copy_is_judged_the_same(&case, numbers, octets);
            *codes.entry(code).or_insert(0) += 1;
        }
    }
    println!("{codes:?}");
    let enough = [0, 11, 12].iter().all(|&code| codes[&Some(code)] > 2_000);
    assert!(enough, "{codes:?}");
}

/// What is said of a message and of what is lent, one thing for each check that
/// bears on their order: 1 to 9 as one, 13, 10, 11 and 12.
#[derive(Debug, Clone, Copy, PartialEq, Eq)]
enum Step {
    Framing,
    Copy,
    Table,
    Short,
    Missing,
}

use Step::*;

const ORDER: [Step; 5] = [Framing, Copy, Table, Short, Missing];

/// Every order of these.
fn orders() -> Vec<Vec<Step>> {
    let mut orders = vec![Vec::new()];
    for step in ORDER {
        let longer = |order: Vec<Step>| {
            (0..=order.len()).map(move |at| {
                let mut order = order.clone();
                order.insert(at, step);
                order
            })
        };
        orders = orders.into_iter().flat_map(longer).collect();
    }
    orders
}

/// What there is to say of a case, whatever is lent.
struct Facts<'c> {
    case: &'c Case,
    framing: Option<Verdict>,
    short: Option<Verdict>,
    missing: Option<Verdict>,
    rows: Vec<Row>,
    covered: Vec<bool>,
}

impl<'c> Facts<'c> {
    fn new(lines: &[Line], case: &'c Case) -> Self {
        let Case { kind, message } = case;
        let rows = DOCUMENT.rows(*kind, message);
        let framing = rows.as_ref().err().copied();
        let rows = rows.unwrap_or_default();
        let is_short = |row: &&Row| row.mandatory && row.standing == Standing::Short;
        let short = rows.iter().find(is_short).map(|row| {
            let (typ, inst) = (row.typ.into(), row.inst.into());
            verdict([11, 67, row.place - 4, typ, inst])
        });
        let missing = match framing {
            None => missing_by_hand(lines, case),
            Some(_) => None,
        };
        Self {
            case,
            framing,
            short,
            missing,
            covered: DOCUMENT.covered(*kind, message),
            rows,
        }
    }

    /// The refusal by that step with these buffers, if it applies.
    fn refusal(&self, step: Step, lent: &Buffers, wrong: Wrong) -> Option<Verdict> {
        let code = |code, applies: bool| applies.then_some(verdict([code, 0, 0, 0, 0]));
        match step {
            Framing => self.framing,
            Copy => code(13, self.copy_is_short(lent.copy, wrong)),
            Table => code(10, self.table_is_short(lent.table, wrong)),
            Short => self.short,
            Missing => self.missing,
        }
    }

    fn copy_is_short(&self, octets: usize, wrong: Wrong) -> bool {
        let need = match wrong {
            CopyOneMore => self.case.message.len() + 1,
            CopyOneLess => self.case.message.len().saturating_sub(1),
            CopyByCleaned => self.case.clean_need(),
            CopyOf4096 => 4096,
            CopyNotTested => 0,
            _ => self.case.message.len(),
        };
        octets < need
    }

    fn table_is_short(&self, octets: usize, wrong: Wrong) -> bool {
        let kept = |row: &&Row| row.standing == Standing::Kept;
        let rows = self.rows.len();
        let need = match wrong {
            TableOneMore => 7 + 6 * rows,
            TableOneLess => 5 + 6 * rows,
            TableOfFour => 4 + 6 * rows,
            TableOfKept => 6 + 6 * self.rows.iter().filter(kept).count(),
            TableOfInsides => self.case.table_need_with_insides(),
            TableNotTested => 0,
            _ => 6 + 6 * rows,
        };
        let lent = match wrong {
            TableInOctets => octets,
            TableRoundedUp => octets.div_ceil(2),
            _ => octets / 2,
        };
        lent < need
    }

    fn verdict(&self, order: &[Step], lent: &Buffers, wrong: Wrong) -> Verdict {
        let mut refusals = order.iter().map(|&step| self.refusal(step, lent, wrong));
        let refusal = refusals.find_map(|refusal| refusal);
        refusal.unwrap_or(Verdict::ACCEPTED)
    }

    /// All that the call leaves, with something wrong: code, table, copy, five.
    fn left(&self, lent: &Buffers, wrong: Wrong) -> Left {
        let verdict = self.verdict(&ORDER, lent, wrong);
        let mut left = Left {
            code: verdict.code,
            table: vec![OCTET; lent.table],
            copy: vec![OCTET; lent.copy],
            five: vec![OCTET; lent.five],
        };
        let told = match (wrong, verdict.code) {
            (AcceptedWith11And12, 11 | 12) => {
                left.code = 0;
                Verdict::ACCEPTED
            }
            (FiveOfAcceptance, 11 | 12) => Verdict::ACCEPTED,
            (NothingNamed, _) => self::verdict([verdict.code, verdict.cause, 0, 0, 0]),
            _ => verdict,
        };
        let five = told.numbers().map(u16::to_be_bytes);
        let written = match (wrong, lent.five) {
            (FiveAsMuchAsFits, octets) => octets.min(10),
            (_, 10..) => 10,
            _ => 0,
        };
        left.five[..written].copy_from_slice(&five.as_flattened()[..written]);
        if wrong == ShortFiveStops && lent.five < 10 {
            return left;
        }
        if writes_copy(verdict.code, wrong) {
            self.write_copy(verdict.code, wrong, &mut left.copy);
        }
        if writes_table(verdict.code, wrong) {
            self.write_table(wrong, &mut left.table);
        }
        left
    }

    /// As much as there is room for.
    fn write_copy(&self, code: u16, wrong: Wrong, copy: &mut [u8]) {
        let is_open = match wrong {
            NothingCovered => true,
            CoveredOnAcceptance => code != 0,
            _ => false,
        };
        let octets = self.case.message.iter().zip(&self.covered);
        for (place, (&own, &covered)) in copy.iter_mut().zip(octets) {
            *place = if covered && !is_open { 0 } else { own };
        }
        if let Some(past) = copy.get_mut(self.case.message.len()..) {
            if wrong == PastCopyCleared {
                past.fill(0);
            }
        }
    }

    /// As much as there is room for.
    fn write_table(&self, wrong: Wrong, table: &mut [u8]) {
        let Case { kind, message } = self.case;
        let mut numbers = vec![0; DOCUMENT.used(self.rows.len())];
        DOCUMENT.write_table(*kind, message, &self.rows, &mut numbers);
        let octets = numbers.iter().flat_map(|number| number.to_be_bytes());
        let octets = octets.collect::<Vec<_>>();
        let fits = match wrong {
            TableRoundedUp => table.len(),
            _ => table.len() / 2 * 2,
        };
        let written = octets.len().min(fits);
        table[..written].copy_from_slice(&octets[..written]);
        match wrong {
            PastTableCleared => table[written..fits].fill(0),
            OddOctetCleared => table[fits..].fill(0),
            _ => {}
        }
    }
}

#[derive(Debug, PartialEq, Eq)]
struct Left {
    code: u16,
    table: Vec<u8>,
    copy: Vec<u8>,
    five: Vec<u8>,
}

/// What a call may have wrong beside the order.
#[derive(Debug, Clone, Copy, PartialEq, Eq)]
enum Wrong {
    Nothing,
    CopyOneMore,
    CopyOneLess,
    CopyByCleaned,
    CopyOf4096,
    CopyNotTested,
    TableOneMore,
    TableOneLess,
    TableOfFour,
    TableOfKept,
    TableOfInsides,
    TableInOctets,
    TableRoundedUp,
    TableNotTested,
    CopyWith9,
    CopyWith10,
    CopyWith13,
    NoCopyWith11,
    NoCopyWith12,
    NoCopyAtAll,
    TableWith10,
    TableWith11,
    TableWith12,
    TableWith13,
    NoTableAtAll,
    NothingCovered,
    CoveredOnAcceptance,
    PastCopyCleared,
    PastTableCleared,
    OddOctetCleared,
    AcceptedWith11And12,
    FiveOfAcceptance,
    NothingNamed,
    FiveAsMuchAsFits,
    ShortFiveStops,
}

use Wrong::*;

const ALL: [Wrong; 34] = [
    CopyOneMore,
    CopyOneLess,
    CopyByCleaned,
    CopyOf4096,
    CopyNotTested,
    TableOneMore,
    TableOneLess,
    TableOfFour,
    TableOfKept,
    TableOfInsides,
    TableInOctets,
    TableRoundedUp,
    TableNotTested,
    CopyWith9,
    CopyWith10,
    CopyWith13,
    NoCopyWith11,
    NoCopyWith12,
    NoCopyAtAll,
    TableWith10,
    TableWith11,
    TableWith12,
    TableWith13,
    NoTableAtAll,
    NothingCovered,
    CoveredOnAcceptance,
    PastCopyCleared,
    PastTableCleared,
    OddOctetCleared,
    AcceptedWith11And12,
    FiveOfAcceptance,
    NothingNamed,
    FiveAsMuchAsFits,
    ShortFiveStops,
];

fn writes_copy(code: u16, wrong: Wrong) -> bool {
    match (code, wrong) {
        (11, NoCopyWith11) | (12, NoCopyWith12) | (_, NoCopyAtAll) => false,
        (9, CopyWith9) | (10, CopyWith10) | (13, CopyWith13) => true,
        _ => matches!(code, 0 | 11 | 12),
    }
}

fn writes_table(code: u16, wrong: Wrong) -> bool {
    match (code, wrong) {
        (_, NoTableAtAll) => false,
        (10, TableWith10) | (11, TableWith11) | (12, TableWith12) | (13, TableWith13) => true,
        _ => code == 0,
    }
}

/// The same by the program.
fn by_the_program(case: &Case, lent: &Buffers) -> Left {
    let (mut table, mut copy) = (vec![OCTET; lent.table], vec![OCTET; lent.copy]);
    let mut five = vec![OCTET; lent.five];
    let (kind, message) = (case.kind, &case.message);
    let code = judge_copy_octets(kind, message, &mut table, &mut copy, &mut five);
    Left {
        code,
        table,
        copy,
        five,
    }
}

/// How often each wrong call and each wrong order is seen; no more are counted.
struct Seen {
    wrong: [usize; ALL.len()],
    orders: Vec<(Vec<Step>, usize)>,
}

const PLENTY: usize = 60;

impl Seen {
    fn new() -> Self {
        let orders = orders().into_iter().filter(|order| *order != ORDER);
        Self {
            wrong: [0; ALL.len()],
            orders: orders.map(|order| (order, 0)).collect(),
        }
    }

    fn note(&mut self, facts: &Facts, lent: &Buffers) {
        let right = by_the_program(facts.case, lent);
        assert_eq!(
            right,
            facts.left(lent, Nothing),
            "{lent:?} {:?}",
            facts.case
        );
        let wrong = self.wrong.iter_mut().zip(ALL);
        for (seen, wrong) in wrong.filter(|(seen, _)| **seen < PLENTY) {
            *seen += usize::from(facts.left(lent, wrong) != right);
        }
        let verdict = facts.verdict(&ORDER, lent, Nothing);
        for (order, seen) in self.orders.iter_mut().filter(|(_, seen)| *seen < PLENTY) {
            *seen += usize::from(facts.verdict(order, lent, Nothing) != verdict);
        }
    }

    fn assert_all_seen(&self, least: usize) {
        let wrong = ALL.iter().zip(self.wrong).collect::<Vec<_>>();
        println!("{wrong:?}");
        assert!(wrong.iter().all(|(_, seen)| *seen >= least), "{wrong:?}");
        assert_eq!(self.orders.len(), 119);
        let rare = self.orders.iter().filter(|(_, seen)| *seen < least);
        let rare = rare.collect::<Vec<_>>();
        assert!(rare.is_empty(), "{rare:?}");
    }
}

#[test]
fn wrong_calls_and_orders_are_seen_by_the_figures() {
    let lines = DOCUMENT.lines();
    let mut seen = Seen::new();
    for (seed, case) in figures().iter().enumerate() {
        let facts = Facts::new(&lines, case);
        for lent in case.buffers(seed as u64) {
            seen.note(&facts, &lent);
        }
    }
    seen.assert_all_seen(50);
}

#[test]
fn wrong_calls_and_orders_are_seen_by_the_lends() {
    let lines = DOCUMENT.lines();
    let mut seen = Seen::new();
    let mut count = 0;
    for (case, all) in lends() {
        let facts = Facts::new(&lines, &case);
        for lent in all {
            seen.note(&facts, &lent);
            count += 1;
        }
    }
    println!("{count} lends");
    seen.assert_all_seen(12);
}

/// Short, exact or longer, by how much there is and how much is needed.
fn fit(lent: usize, need: usize) -> &'static str {
    match lent {
        _ if lent + 1 == need => "one short",
        _ if lent == need => "exact",
        _ if lent == need + 1 => "one longer",
        _ => "other",
    }
}

/// How often which code is answered with which table and which copy, for the code
/// that the case has with room enough.
fn fits(cases: impl Iterator<Item = (Case, Vec<Buffers>)>) -> BTreeMap<String, usize> {
    let mut met = BTreeMap::new();
    for (case, all) in cases {
        let need = case.table_need();
        let with_room = by_the_program(&case, &case.enough()).code;
        for lent in all {
            let code = by_the_program(&case, &lent).code;
            let table = fit(lent.table / 2, need);
            let copy = fit(lent.copy, case.message.len());
            let name = format!("{with_room}: table {table}, copy {copy}: {code}");
            *met.entry(name).or_insert(0) += 1;
        }
    }
    met
}

fn assert_all_fits(met: &BTreeMap<String, usize>, codes: &[u16]) {
    const FITS: [&str; 3] = ["one short", "exact", "one longer"];
    for &with_room in codes {
        for table in FITS {
            for copy in FITS {
                let code = match (with_room, table, copy) {
                    (1..=9 | 21, ..) => with_room,
                    (_, _, "one short") => 13,
                    (_, "one short", _) => 10,
                    _ => with_room,
                };
                let name = format!("{with_room}: table {table}, copy {copy}: {code}");
                let count = met.get(&name).copied().unwrap_or_default();
                assert!(count >= 10, "{name}: {count}");
            }
        }
    }
}

#[test]
fn every_fit_of_table_and_copy() {
    let figures = figures().into_iter().enumerate().map(|(seed, case)| {
        let lent = case.buffers(seed as u64).to_vec();
        (case, lent)
    });
    assert_all_fits(&fits(figures), &[0, 9, 11, 12]);
    let codes = (0..=12).chain([21]).filter(|&code| code != 10);
    let codes = codes.collect::<Vec<_>>();
    assert_all_fits(&fits(lends().into_iter()), &codes);
}
