//! The shape of the rules: each figure that an answer hangs on stands in one
//! value, so that a test can change any of them. `document` has the figures.

use std::cmp::Ordering;
use std::fmt;
use std::ops::RangeInclusive;

/// All figures.
#[derive(Debug, Clone, PartialEq, Eq)]
pub struct Rules {
    /// The interface kinds that there are.
    pub kinds: RangeInclusive<u32>,
    /// Every listed message, ascending.
    pub messages: Vec<Message>,
    /// One entry for each type number of an element.
    pub types: [Facts; 256],
    pub bits: Bits,
    pub sizes: Sizes,
    pub table: Table,
    pub checks: Checks,
    /// Does a cleaned copy have the elements of that standing? The others are
    /// set aside.
    pub cleaned: [bool; STANDINGS],
    pub builds: Builds,
    pub lookups: Lookups,
}

/// One message type with its body.
#[derive(Debug, Clone, PartialEq, Eq)]
pub struct Message {
    pub typ: u8,
    /// Does the header have T = 1, and so a TEID?
    pub teid: bool,
    /// The interface kinds that the message is on.
    pub kinds: Kinds,
    pub body: Vec<Listed>,
}

/// One listed pair. Its place in the listing is its rank in check 12.
#[derive(Debug, Clone, PartialEq, Eq)]
pub struct Listed {
    pub typ: u8,
    pub inst: Inst,
    pub mandatory: bool,
    pub many: bool,
    pub kinds: Kinds,
    /// How many elements of the pair a group may hold. With more of them, short
    /// ones counted, the group is void.
    pub most: Option<usize>,
    /// What a group lists inside; empty for other elements.
    pub inside: Vec<Listed>,
}

/// The instance of a listed pair.
#[derive(Debug, Clone, Copy, PartialEq, Eq)]
pub enum Inst {
    Is(u8),
    Any,
}

/// The interface kinds where a message or a pair is listed, bit `kind` for each.
#[derive(Debug, Clone, Copy, PartialEq, Eq)]
pub struct Kinds(pub u8);

/// What is known of an element by its type alone.
#[derive(Debug, Clone, PartialEq, Eq)]
pub struct Facts {
    pub least: Least,
    pub group: bool,
    /// The covered part of the value, one entry for each standing.
    pub cover: [Cover; STANDINGS],
}

/// The least value length of a type.
#[derive(Debug, Clone, PartialEq, Eq)]
pub enum Least {
    Fixed(usize),
    ByFirst(Box<ByFirst>),
}

/// A least length by some bits of the value's first octet.
#[derive(Debug, Clone, PartialEq, Eq)]
pub struct ByFirst {
    /// How many bits below those that bear.
    pub shift: u8,
    /// One length for each value of the bits that bear, a power of two of them.
    pub least: Vec<usize>,
    /// The least length where there is no first octet: over 0, so that an
    /// empty value is short.
    pub empty: usize,
}

/// Which octets of a value are covered.
#[derive(Debug, Clone, Copy, PartialEq, Eq)]
pub enum Cover {
    Nothing,
    /// All but the first octet, which the least length reads.
    Rest,
    Whole,
    /// Of a group: every value directly inside it whole, and no header.
    Values,
}

#[derive(Debug, Clone, Copy, PartialEq, Eq)]
pub enum Standing {
    Kept = 0,
    Unexpected = 1,
    Repeated = 2,
    Short = 3,
    Void = 4,
}

pub const STANDINGS: usize = 5;

/// What stands in part of an octet.
#[derive(Debug, Clone, PartialEq, Eq)]
pub struct Bits {
    /// The version, in the top 3 bits of the first octet.
    pub version: u8,
    /// P and T in the first octet.
    pub piggyback: u8,
    pub teid: u8,
    /// The instance in an element's fourth octet.
    pub instance: u8,
}

/// Numbers of octets, of table numbers and of rows. A pair of figures is for
/// T = 0 and for T = 1.
#[derive(Debug, Clone, PartialEq, Eq)]
pub struct Sizes {
    /// Octets of the longest message.
    pub longest: usize,
    /// The least octets that a message needs for its header.
    pub header: [usize; 2],
    /// Where the first element begins.
    pub body: [usize; 2],
    /// Octets of a message that its length field does not count.
    pub uncounted: usize,
    /// Which octet of a message has its type.
    pub type_octet: usize,
    /// So many octets left at a level are no element.
    pub remnant: RangeInclusive<usize>,
    /// Numbers that a table needs beside its rows.
    pub table_header: usize,
    /// Where the first row begins.
    pub first_row: usize,
    /// Numbers from one row to the next.
    pub row: usize,
    /// Octets that a buffer for the five numbers needs.
    pub five: usize,
    /// The same for the five numbers and a length.
    pub answer: usize,
    /// The same for the five numbers and a number of rows.
    pub count: usize,
    /// Octets that a buffer for the state of the pieces form needs.
    pub state: usize,
    /// Rows that the judge program's table has room for.
    pub most_rows: usize,
    /// Octets of the copy that the judge program lends.
    pub program_copy: usize,
}

/// What a table says before its rows, and of them.
#[derive(Debug, Clone, PartialEq, Eq)]
pub struct Table {
    /// What each number of the header tells, in their order.
    pub header: Vec<Told>,
    /// The standing of the rows that the header counts as kept.
    pub kept: u16,
}

/// What a number of a table's header tells.
#[derive(Debug, Clone, Copy, PartialEq, Eq)]
pub enum Told {
    Rows,
    Kept,
    /// The place of the first row.
    First(usize),
    /// The numbers used: those beside the rows, and so many for each row.
    Used {
        beside: usize,
        row: usize,
    },
    Type,
    Kind,
}

/// A check is named by its code. A code that an order has at two places has two
/// checks.
#[derive(Debug, Clone, Copy, PartialEq, Eq)]
pub enum Check {
    Kind = 1,
    Size = 2,
    Version = 3,
    Header = 4,
    Piggyback = 5,
    Length = 6,
    Type = 7,
    Teid = 8,
    Framing = 9,
    TableRoom = 10,
    Short = 11,
    Missing = 12,
    CopyRoom = 13,
    Table = 14,
    Room = 15,
    Built = 16,
    Ended = 17,
    /// A listed message type that is not on this kind.
    OffKind = 21,
    /// 14 for a table without a whole header.
    TableHeader = 31,
}

pub const CODES: usize = 22;

impl Check {
    pub fn code(self) -> u16 {
        match self {
            Check::TableHeader => Check::Table as u16,
            check => check as u16,
        }
    }
}

/// Which checks are made, in their order, and the causes that they give.
#[derive(Debug, Clone, PartialEq, Eq)]
pub struct Checks {
    /// Those of judge and copy in one call. The pieces form goes by them too: it
    /// has no copy, so that no copy of it is too short.
    pub judge: Order,
    pub clean: Order,
    /// Those of the number of rows.
    pub count: Order,
    pub build: Order,
    /// The refusals of the one call that write the copy, as acceptance does.
    pub with_copy: Vec<Check>,
    /// The same of the table.
    pub with_table: Vec<Check>,
    /// The reply cause by code; code 0 is acceptance.
    pub causes: [u16; CODES],
}

/// Checks in the order in which they are made.
#[derive(Debug, Clone, PartialEq, Eq)]
pub struct Order {
    checks: Vec<Check>,
    /// The same as bits, and those of them before the walk's first.
    all: u32,
    before_the_walk: u32,
}

impl Order {
    pub fn new(checks: &[Check]) -> Self {
        let bits = |checks: &[Check]| {
            checks
                .iter()
                .fold(0, |bits, &check| bits | 1 << check as u32)
        };
        let walk = checks.iter().position(|check| *check == Check::Framing);
        Self {
            checks: checks.to_vec(),
            all: bits(checks),
            before_the_walk: bits(&checks[..walk.unwrap_or(checks.len())]),
        }
    }

    pub fn checks(&self) -> &[Check] {
        &self.checks
    }

    pub fn has(&self, check: Check) -> bool {
        self.all >> check as u32 & 1 != 0
    }

    /// The first check with a bit among these.
    pub fn first(&self, faults: u32) -> Option<Check> {
        if faults == 0 {
            return None;
        }
        let mut checks = self.checks.iter().copied();
        checks.find(|&check| faults >> check as u32 & 1 != 0)
    }

    /// The same among the checks that come before any element is looked at.
    pub fn first_before_the_walk(&self, faults: u32) -> Option<Check> {
        self.first(faults & self.before_the_walk)
    }
}

/// What the builder takes: the largest sequence number, the largest type and
/// instance of a row, and its standing.
#[derive(Debug, Clone, PartialEq, Eq)]
pub struct Builds {
    pub sequence: u32,
    pub typ: u16,
    pub inst: u16,
    pub standing: u16,
}

/// What the lookups want of a row and of what is lent.
#[derive(Debug, Clone, PartialEq, Eq)]
pub struct Lookups {
    /// Parent and standing of the rows that the plain lookup looks among.
    pub parent: u16,
    pub standing: u16,
    /// How the message's length may compare with the copy's in the desk's.
    pub lengths: Vec<Ordering>,
}

impl Rules {
    /// The listed message of that type.
    pub fn message_of(&self, typ: u8) -> Option<&Message> {
        self.messages.iter().find(|message| message.typ == typ)
    }

    /// The facts of one element type.
    pub fn facts(&self, typ: u8) -> &Facts {
        &self.types[usize::from(typ)]
    }

    /// Numbers that a table of so many rows needs.
    pub fn used(&self, rows: usize) -> usize {
        self.sizes.table_header + self.sizes.row * rows
    }

    /// Where a row begins in a table, counted from 0.
    pub fn place_of(&self, row: usize) -> usize {
        self.sizes.first_row + self.sizes.row * row
    }
}

impl Listed {
    /// Is this the line of that pair, on whatever kind?
    pub fn is(&self, typ: u8, inst: u8) -> bool {
        self.typ == typ && (self.inst == Inst::Any || self.inst == Inst::Is(inst))
    }

    /// The lines inside that have a limit, with their positions and limits.
    pub fn limits(&self) -> impl Iterator<Item = (usize, usize)> + '_ {
        let lines = self.inside.iter().enumerate();
        lines.filter_map(|(position, listed)| Some((position, listed.most?)))
    }
}

/// The position in a level's listing of a pair listed there for the kind.
pub fn position(listing: &[Listed], kind: u32, typ: u8, inst: u8) -> Option<usize> {
    listing
        .iter()
        .position(|listed| listed.is(typ, inst) && listed.kinds.has(kind))
}

impl Inst {
    /// The instance as a number; one that may be any counts as 0.
    pub fn number(self) -> u8 {
        match self {
            Inst::Is(inst) => inst,
            Inst::Any => 0,
        }
    }
}

impl Kinds {
    pub fn has(self, kind: u32) -> bool {
        kind < 8 && self.0 & 1 << kind != 0
    }

    /// Each of them, ascending.
    pub fn each(self) -> impl ExactSizeIterator<Item = u32> + Clone {
        let kinds = (0..8).filter(|&kind| self.has(kind)).collect::<Vec<_>>();
        kinds.into_iter()
    }
}

impl Facts {
    /// The least length that this value may have.
    pub fn least(&self, value: &[u8]) -> usize {
        match (&self.least, value.first()) {
            (Least::Fixed(least), _) => *least,
            (Least::ByFirst(by), Some(first)) => by.of(*first),
            (Least::ByFirst(by), None) => by.empty,
        }
    }
}

impl ByFirst {
    fn of(&self, first: u8) -> usize {
        self.least[usize::from(first >> self.shift) & (self.least.len() - 1)]
    }
}

impl fmt::Display for Inst {
    fn fmt(&self, f: &mut fmt::Formatter) -> fmt::Result {
        match self {
            Inst::Is(inst) => write!(f, "{inst}"),
            Inst::Any => write!(f, "any"),
        }
    }
}

impl fmt::Display for Kinds {
    fn fmt(&self, f: &mut fmt::Formatter) -> fmt::Result {
        self.each().try_for_each(|kind| write!(f, "{kind}"))
    }
}
