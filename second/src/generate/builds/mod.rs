//! What a builder is given: the tables of accepted messages, whole and with one
//! fault, small tables made by chance, tables at the limits, and tables with groups
//! that are too full or nearly.

mod faults;
mod limits;
mod overload;
mod small;

use super::compose::compose;
use super::lend::{around, ANSWERS};
use super::random::Random;
use super::tables::{self, table_of, Row, KIND, TYPE};
use super::{Case, Generator};
use crate::rules::Message;
use crate::{Head, DOCUMENT};

/// All that one message is built from; its type and kind are in the table.
#[derive(Debug, Clone, PartialEq, Eq)]
pub struct Build {
    pub head: Head,
    pub table: Vec<u16>,
    pub values: Vec<u8>,
}

/// Lengths in octets of what is lent to the builder: the table, which may have an
/// octet that is not read, the room and the answer.
#[derive(Debug, Clone, Copy, PartialEq, Eq)]
pub struct Rooms {
    pub table: usize,
    pub room: usize,
    pub answer: usize,
}

impl Build {
    /// What a message is rebuilt from: its own numbers and rows, with itself as
    /// the values.
    fn of(case: &Case) -> Self {
        let Case { kind, message } = case;
        let rows = DOCUMENT.rows(*kind, message).unwrap_or_default();
        let mut table = vec![0; DOCUMENT.used(rows.len())];
        DOCUMENT.write_table(*kind, message, &rows, &mut table);
        let number = |at: usize| u32::from_be_bytes([0, 1, 2, 3].map(|more| message[at + more]));
        let teid = message[0] & DOCUMENT.bits.teid != 0;
        let (teid, sequence) = match teid {
            true => (number(4), number(8) >> 8),
            false => (0, number(4) >> 8),
        };
        Self {
            head: Head { teid, sequence },
            table,
            values: message.clone(),
        }
    }

    /// The same of the cleaned copy, so that every row is kept.
    fn of_kept(case: &Case) -> Self {
        let cleaned = DOCUMENT.cleaned(case.kind, &case.message);
        Self::of(&Case {
            kind: case.kind,
            message: cleaned.expect("a whole message"),
        })
    }

    fn rows(&self) -> &[Row] {
        tables::rows(&self.table)
    }

    fn rows_mut(&mut self) -> &mut [Row] {
        self.table[DOCUMENT.sizes.first_row..].as_chunks_mut().0
    }

    /// Takes these rows, with a header that agrees with them where one can.
    fn put_rows(&mut self, rows: &[Row]) {
        self.table = table_of(self.table[TYPE], self.table[KIND], rows);
    }

    /// The octets that the message would have.
    pub fn need(&self) -> usize {
        DOCUMENT.build_need(&self.table)
    }

    /// Lengths of lent rooms: one short, exact, longer, and none. No room is much
    /// longer than a message can be.
    pub fn rooms(&self) -> Vec<usize> {
        around(self.need().min(DOCUMENT.sizes.longest + 9))
    }

    /// The table as octets, of that length: after the last number one octet more
    /// at most.
    pub fn table_octets(&self, length: usize) -> Vec<u8> {
        let numbers = self.table.iter().flat_map(|number| number.to_be_bytes());
        numbers.chain([0xA5]).take(length).collect()
    }

    /// What is lent in two trials: once all that is needed, and once whatever
    /// chance gives.
    pub fn lent(&self, seed: u64) -> [Rooms; 2] {
        let mut random = Random::new(seed);
        let rooms = self.rooms();
        let mut lent = |room, answers: &[usize]| Rooms {
            table: 2 * self.table.len() + random.below(2),
            room,
            answer: *random.pick(answers),
        };
        let enough = lent(rooms[1], &ANSWERS[..2]);
        let some = lent(0, &ANSWERS);
        let room = *random.pick(&rooms);
        [enough, Rooms { room, ..some }]
    }
}

fn is_group(row: &Row) -> bool {
    u8::try_from(row[1]).is_ok_and(|typ| DOCUMENT.facts(typ).group)
}

impl Generator {
    /// One of all that a builder is given, but for the largest tables.
    pub fn build(&mut self) -> Build {
        if self.random.percent(25) {
            return small::small(&mut self.random);
        }
        let case = self.good();
        let shape = self.random.below(faults::SHAPES);
        faults::shaped(&mut self.random, &case, shape)
    }
}

/// How often each shape is made of each message on each kind.
const ROUNDS: usize = 5;
const SMALL: usize = 2_000;
const SEED: u64 = 32_274;

/// Builds that pin what the builder goes by, the same at every call.
pub fn builds() -> Vec<Build> {
    let mut random = Random::new(SEED);
    let mut builds = Vec::new();
    for _ in 0..ROUNDS {
        for message in &DOCUMENT.messages {
            for kind in message.kinds.each() {
                for shape in 0..faults::SHAPES {
                    let case = good(&mut random, kind, message);
                    builds.push(faults::shaped(&mut random, &case, shape));
                }
            }
        }
        builds.extend(limits::limits(&mut random));
        builds.extend(limits::types(&mut random));
        builds.extend(overload::overloads(&mut random));
    }
    builds.extend((0..SMALL).map(|_| small::small(&mut random)));
    builds
}

fn good(random: &mut Random, kind: u32, message: &'static Message) -> Case {
    let message = compose(random, kind, message).octets(random);
    Case { kind, message }
}
