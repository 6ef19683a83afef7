//! A seeded generator of messages made from the listings, good and damaged, of
//! the buffers lent with them, of the parts that they come in, of lookups, and of
//! what a builder is given.

mod builds;
mod compose;
mod damage;
mod draft;
mod feeds;
mod figures;
mod lend;
mod limits;
mod lookups;
mod overload;
mod parts;
mod random;
mod tables;

pub use builds::{builds, Build, Rooms};
pub use feeds::{Call, Feed, Left, What};
pub use figures::figures;
pub use lend::{lends, Buffers, ANSWERS, UNLIMITED};
pub use lookups::{hostile_tables, Ask, Lookup};
pub use parts::{parts, Cut, CUTS};
pub use random::Random;

use crate::DOCUMENT;
use draft::Draft;

/// A message and the kind it is given with.
#[derive(Debug, Clone, PartialEq, Eq)]
pub struct Case {
    pub kind: u32,
    pub message: Vec<u8>,
}

impl Case {
    /// The case as the judge program reads it, if its kind is an octet.
    pub fn input(&self) -> Option<Vec<u8>> {
        let kind = u8::try_from(self.kind).ok()?;
        Some([&[kind], &self.message[..]].concat())
    }
}

/// The same seed gives the same cases on every platform.
#[derive(Debug, Clone)]
pub struct Generator {
    random: Random,
}

impl Generator {
    pub fn new(seed: u64) -> Self {
        Self {
            random: Random::new(seed),
        }
    }

    /// The ordinary mix: good and damaged messages, some at the limits, and some
    /// with groups that are too full or nearly.
    pub fn case(&mut self) -> Case {
        match self.random.below(1000) {
            0..=2 => self.at_limit(),
            3..=32 => self.overload(),
            33..=619 => self.good(),
            _ => self.damaged(),
        }
    }

    /// A message that its kind accepts.
    pub fn good(&mut self) -> Case {
        let (kind, draft) = self.draft();
        let message = draft.octets(&mut self.random);
        Case { kind, message }
    }

    /// A good message with one fault or two.
    pub fn damaged(&mut self) -> Case {
        let (kind, draft) = self.draft();
        damage::damage(&mut self.random, kind, draft)
    }

    /// A message with groups that hold about as many elements as they may, good
    /// or with a fault.
    pub fn overload(&mut self) -> Case {
        overload::overload(&mut self.random)
    }

    /// One of these that is accepted and has a group that is void.
    pub fn void(&mut self) -> Case {
        loop {
            let case = self.overload();
            let is_void = case.table_need() != case.table_need_with_insides();
            let judged = DOCUMENT.judged_with_room(case.kind, &case.message);
            if is_void && judged.verdict.accepted() {
                return case;
            }
        }
    }

    /// A message at the limit of octets or of elements.
    pub fn at_limit(&mut self) -> Case {
        limits::at_limit(&mut self.random)
    }

    /// So many for the programs: the ordinary mix, and one in twelve at the limit
    /// of octets, past it, or at that of elements.
    pub fn inputs(&mut self, count: usize) -> Vec<Case> {
        let case = |turn| match turn % 12 {
            0 => limits::in_turn(&mut self.random, turn / 12),
            _ => self.case(),
        };
        (0..count).map(case).collect()
    }

    fn draft(&mut self) -> (u32, Draft) {
        let message = self.random.pick(&DOCUMENT.messages);
        let kind = self.random.kind_of(message);
        (kind, compose::compose(&mut self.random, kind, message))
    }
}

impl Iterator for Generator {
    type Item = Case;

    /// The next case of the ordinary mix; there is always one.
    fn next(&mut self) -> Option<Case> {
        Some(self.case())
    }
}
