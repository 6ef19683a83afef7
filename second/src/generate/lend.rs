//! What is lent beside a message: tables and copies of all lengths.

use std::collections::BTreeMap;
use std::sync::LazyLock;

use super::random::Random;
use super::{figures, Case, Generator};
use crate::rules::{Check, Listed, Order, Standing};
use crate::{Answer, Rules, Verdict, DOCUMENT};

/// The document's rules without a limit: no group is void, and each that is
/// otherwise kept is listed with its inside.
pub static UNLIMITED: LazyLock<Rules> = LazyLock::new(|| {
    fn lift(listing: &mut [Listed]) {
        for listed in listing {
            listed.most = None;
            lift(&mut listed.inside);
        }
    }
    let mut rules = DOCUMENT.clone();
    for message in &mut rules.messages {
        lift(&mut message.body);
    }
    rules
});

impl Case {
    /// The numbers that the table needs for this case.
    pub fn table_need(&self) -> usize {
        let rows = DOCUMENT.rows(self.kind, &self.message);
        DOCUMENT.used(rows.map_or(0, |rows| rows.len()))
    }

    /// The same if void groups were listed with their insides.
    pub fn table_need_with_insides(&self) -> usize {
        let rows = UNLIMITED.rows(self.kind, &self.message);
        UNLIMITED.used(rows.map_or(0, |rows| rows.len()))
    }

    /// Lengths of lent tables: one and two short, exact, longer, and the tiny ones;
    /// where a group is void, also such that its inside would overrun.
    pub fn table_lengths(&self) -> Vec<usize> {
        let need = self.table_need();
        let more = self.table_need_with_insides();
        let tiny = 0..=DOCUMENT.sizes.table_header + 1;
        let around = [need - 1, need - 2, need, need + 1, need + 20];
        let mut lengths = around.into_iter().chain(tiny).collect::<Vec<_>>();
        if more > need {
            let between = [
                need,
                need + 3,
                need.midpoint(more),
                more - 6,
                more - 1,
                more,
            ];
            lengths.extend(between);
        }
        lengths
    }

    /// Lengths of lent copies: one short, exact, longer, and none.
    pub fn copy_lengths(&self) -> Vec<usize> {
        let length = self.message.len();
        around(length)
    }

    /// Numbers of a table and octets of a copy around what both need: each one
    /// short, exact and one longer, with each of the other.
    pub fn around_both(&self) -> Vec<(usize, usize)> {
        let (numbers, octets) = (self.table_need(), self.message.len());
        let tables = [numbers - 1, numbers, numbers + 1];
        let copies = [octets.saturating_sub(1), octets, octets + 1];
        let pairs = tables
            .iter()
            .flat_map(|&table| copies.map(|copy| (table, copy)));
        pairs.collect()
    }

    /// The octets that the cleaner's copy needs for this case, also where 11 or
    /// 12 refuse it; those of the message where its framing is broken.
    pub fn clean_need(&self) -> usize {
        let cleaned = DOCUMENT.cleaned(self.kind, &self.message);
        cleaned.map_or(self.message.len(), |cleaned| cleaned.len())
    }

    /// Lengths of lent cleaned copies: as for copies.
    pub fn clean_lengths(&self) -> Vec<usize> {
        around(self.clean_need())
    }
}

/// One short, exact, longer, and none.
pub fn around(need: usize) -> Vec<usize> {
    vec![need.saturating_sub(1), need, need + 1, need + 20, 0]
}

/// Lengths in octets of the buffers lent with a case: table, copy and five numbers
/// of judge and copy in one call, the cleaner's copy and its answer.
#[derive(Debug, Clone, Copy, PartialEq, Eq)]
pub struct Buffers {
    pub table: usize,
    pub copy: usize,
    pub five: usize,
    pub clean: usize,
    pub answer: usize,
}

/// Lengths for the five numbers: exact, longer, one short, none.
const FIVES: [usize; 5] = [10, 11, 13, 9, 0];
/// Lengths for the five numbers and a length: exact, longer, one short, none.
pub const ANSWERS: [usize; 4] = [12, 15, 11, 0];

impl Case {
    /// As much as the case needs.
    pub fn enough(&self) -> Buffers {
        Buffers {
            table: 2 * self.table_need(),
            copy: self.message.len(),
            five: 2 * Verdict::NUMBERS,
            clean: self.clean_need(),
            answer: 2 * Answer::NUMBERS,
        }
    }

    /// What is lent with a case in three trials: all that it needs, then table and
    /// copy around what both need, then whatever chance gives.
    pub fn buffers(&self, seed: u64) -> [Buffers; 3] {
        let mut random = Random::new(seed);
        let enough = self.enough();
        let enough = Buffers {
            table: enough.table + random.below(2),
            five: *random.pick(&FIVES[..3]),
            answer: *random.pick(&ANSWERS[..2]),
            ..enough
        };
        let some = Buffers {
            table: 2 * random.pick(&self.table_lengths()) + random.below(2),
            copy: *random.pick(&self.copy_lengths()),
            five: *random.pick(&FIVES),
            clean: *random.pick(&self.clean_lengths()),
            answer: *random.pick(&ANSWERS),
        };
        let (numbers, octets) = *random.pick(&self.around_both());
        let around = Buffers {
            table: 2 * numbers + random.below(2),
            copy: octets,
            five: *random.pick(&FIVES),
            ..some
        };
        [enough, around, some]
    }

    /// Buffers with every length of a table and of a copy that bears on the order
    /// of the refusals: those around what both need, tables that lack a row or have
    /// room for a header of four alone, and none of either.
    pub fn all_buffers(&self) -> Vec<Buffers> {
        let (need, message) = (self.table_need(), self.message.len());
        let mut pairs = self.around_both();
        pairs.extend([(0, 0), (0, message), (need, 0), (need - 2, message)]);
        pairs.extend([(need - 2, message.saturating_sub(1)), (0, message + 1)]);
        pairs.extend([(need - 6, message), (need - 6, message + 1)]);
        let lent = |(at, (numbers, octets)): (usize, (usize, usize))| Buffers {
            table: 2 * numbers + at % 2,
            copy: octets,
            five: FIVES[at % FIVES.len()],
            ..self.enough()
        };
        pairs.into_iter().enumerate().map(lent).collect()
    }
}

/// How many cases there are of each class.
const OF_A_CLASS: usize = 12;

/// Cases for the order of the refusals, each with all its buffers: so many of
/// each class.
pub fn lends() -> Vec<(Case, Vec<Buffers>)> {
    let mut met = BTreeMap::new();
    let mut lends = Vec::new();
    for case in figures() {
        let count = met.entry(Class::of(&case)).or_insert(0);
        if *count < OF_A_CLASS {
            *count += 1;
            let lent = case.all_buffers();
            lends.push((case, lent));
        }
    }
    lends
}

/// What a case is for the order of the refusals.
#[derive(PartialEq, Eq, PartialOrd, Ord)]
struct Class {
    /// With room enough, and the same but for 11.
    codes: [u16; 2],
    has_void: bool,
    is_empty: bool,
    is_longest: bool,
    /// Are there as many rows as an accepted message can have, or more?
    is_crowded: bool,
}

impl Class {
    fn of(Case { kind, message }: &Case) -> Self {
        let judged = DOCUMENT.judged_with_room(*kind, message);
        let otherwise = NOT_SHORT.judged_with_room(*kind, message);
        let mut rows = judged.rows.iter();
        Self {
            codes: [judged.verdict.code, otherwise.verdict.code],
            is_crowded: rows.len() + 1 >= DOCUMENT.sizes.most_rows,
            has_void: rows.any(|row| row.standing == Standing::Void),
            is_empty: message.is_empty(),
            is_longest: message.len() == DOCUMENT.sizes.longest,
        }
    }
}

/// The document's rules without refusal 11.
static NOT_SHORT: LazyLock<Rules> = LazyLock::new(|| {
    let mut rules = DOCUMENT.clone();
    let checks = DOCUMENT.checks.judge.checks().iter().copied();
    let others = checks.filter(|&check| check != Check::Short);
    rules.checks.judge = Order::new(&others.collect::<Vec<_>>());
    rules
});

impl Generator {
    /// Some lengths of a table and of a copy to lend for this case: in every other
    /// call around what both need, else any two.
    pub fn lent(&mut self, case: &Case) -> (usize, usize) {
        if self.random.percent(50) {
            return *self.random.pick(&case.around_both());
        }
        let table = *self.random.pick(&case.table_lengths());
        let copy = *self.random.pick(&case.copy_lengths());
        (table, copy)
    }
}
