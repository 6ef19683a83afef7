//! Verdicts: five numbers, all zero for acceptance; answers, which have a length
//! after them, and counts, which have a number of rows.

use crate::rules::{Check, Rules};

/// Code, reply cause, place, type and instance; what a verdict does not name is 0.
#[derive(Debug, Clone, Copy, PartialEq, Eq)]
pub struct Verdict {
    pub code: u16,
    pub cause: u16,
    pub place: u16,
    pub typ: u16,
    pub inst: u16,
}

impl Rules {
    /// The refusal by that check, with nothing named yet.
    pub fn refusal(&self, check: Check) -> Verdict {
        Verdict {
            code: check.code(),
            cause: self.checks.causes[usize::from(check.code())],
            ..Verdict::ACCEPTED
        }
    }
}

impl Verdict {
    pub const NUMBERS: usize = 5;

    pub const ACCEPTED: Self = Self {
        code: 0,
        cause: 0,
        place: 0,
        typ: 0,
        inst: 0,
    };

    /// The same with a place named.
    pub fn at(self, place: u16) -> Self {
        Self { place, ..self }
    }

    /// The same with a pair named.
    pub fn of(self, typ: u8, inst: u8) -> Self {
        Self {
            typ: typ.into(),
            inst: inst.into(),
            ..self
        }
    }

    pub fn accepted(self) -> bool {
        self == Self::ACCEPTED
    }

    /// The five numbers in their order.
    pub const fn numbers(self) -> [u16; Self::NUMBERS] {
        [self.code, self.cause, self.place, self.typ, self.inst]
    }
}

/// A verdict, and how many octets were written: 0 where it refuses.
#[derive(Debug, Clone, Copy, PartialEq, Eq)]
pub struct Answer {
    pub verdict: Verdict,
    pub length: u16,
}

impl Answer {
    pub const NUMBERS: usize = Verdict::NUMBERS + 1;

    pub fn refused(verdict: Verdict) -> Self {
        Self { verdict, length: 0 }
    }

    /// Acceptance with what was written. No message is longer than 16 bits tell.
    pub fn written(octets: &[u8]) -> Self {
        Self {
            verdict: Verdict::ACCEPTED,
            length: octets.len() as u16,
        }
    }

    /// The six numbers in their order.
    pub const fn numbers(self) -> [u16; Self::NUMBERS] {
        let [code, cause, place, typ, inst] = self.verdict.numbers();
        [code, cause, place, typ, inst, self.length]
    }
}

/// A verdict, and how many rows the walk lists: 0 where it refuses.
#[derive(Debug, Clone, Copy, PartialEq, Eq)]
pub struct Count {
    pub verdict: Verdict,
    pub rows: u16,
}

impl Count {
    pub const NUMBERS: usize = Verdict::NUMBERS + 1;

    pub fn refused(verdict: Verdict) -> Self {
        Self { verdict, rows: 0 }
    }

    /// The six numbers in their order.
    pub const fn numbers(self) -> [u16; Self::NUMBERS] {
        let [code, cause, place, typ, inst] = self.verdict.numbers();
        [code, cause, place, typ, inst, self.rows]
    }
}
