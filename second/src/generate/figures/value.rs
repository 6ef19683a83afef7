//! Values of a length that bears, without a zero octet, so that what is
//! covered can be told from what is not.

use crate::generate::random::Random;
use crate::rules::{Inst, Least};
use crate::DOCUMENT;

/// A value's length against the least one: one less, equal, one more.
#[derive(Debug, Clone, Copy, PartialEq, Eq)]
pub enum Fit {
    Short,
    Exact,
    Over,
}

pub const FITS: [Fit; 3] = [Fit::Short, Fit::Exact, Fit::Over];

/// Where the least length goes by the first octet, its classes come in turn.
#[derive(Default)]
pub struct Values {
    turn: usize,
}

/// How many values of the first octet's bits the least length of a type tells
/// apart.
pub fn classes(typ: u8) -> usize {
    match &DOCUMENT.facts(typ).least {
        Least::Fixed(_) => 1,
        Least::ByFirst(by) => by.least.len(),
    }
}

impl Values {
    /// A value of the next class.
    pub fn next(&mut self, random: &mut Random, typ: u8, fit: Fit) -> Vec<u8> {
        if classes(typ) > 1 {
            self.turn += 1;
        }
        self.of_class(random, typ, self.turn % classes(typ), fit)
    }

    /// A value whose first octet is of that class.
    pub fn of_class(&self, random: &mut Random, typ: u8, class: usize, fit: Fit) -> Vec<u8> {
        let first = first_octet(random, typ, class);
        self.of_first(random, typ, first, fit)
    }

    /// A value with that first octet, if it has one.
    pub fn of_first(&self, random: &mut Random, typ: u8, first: u8, fit: Fit) -> Vec<u8> {
        let least = DOCUMENT.facts(typ).least(&[first]);
        let length = match fit {
            Fit::Short => least.saturating_sub(1),
            Fit::Exact => least,
            Fit::Over => least + 1,
        };
        let mut value = self.some(random, length);
        if let Some(octet) = value.first_mut() {
            *octet = first;
        }
        value
    }

    /// So many octets, none of them zero.
    pub fn some(&self, random: &mut Random, length: usize) -> Vec<u8> {
        (0..length).map(|_| random.between(1, 255) as u8).collect()
    }

    /// The instance of a line; any of them where the line has all.
    pub fn instance(&self, random: &mut Random, inst: Inst) -> u8 {
        match inst {
            Inst::Is(inst) => inst,
            Inst::Any => random.below(16) as u8,
        }
    }
}

/// A first octet of that class that is not zero.
pub fn first_octet(random: &mut Random, typ: u8, class: usize) -> u8 {
    loop {
        let first = beside(typ, class, random.octet());
        if first != 0 {
            return first;
        }
    }
}

/// The first octet of that class; the bits that do not bear are those of `other`.
pub fn beside(typ: u8, class: usize, other: u8) -> u8 {
    match &DOCUMENT.facts(typ).least {
        Least::Fixed(_) => other,
        Least::ByFirst(by) => {
            let bits = ((by.least.len() - 1) as u8) << by.shift;
            other & !bits | (class as u8) << by.shift
        }
    }
}
