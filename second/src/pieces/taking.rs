//! The body of a message, octet by octet.
//!
//! In hand are the header of one element, what its value still has to come, and
//! the levels that are open. A row is known when its element's header is whole,
//! or with the first octet of its value where the least length hangs on that. Only
//! whether a group is void shows at its end; then all that was met inside is taken
//! back.

use std::ops::Range;

use super::Room;
use crate::framing::ELEMENT_HEADER;
use crate::rules::{position, Least, Listed, Rules, Standing};
use crate::table::COLUMNS;

/// Where a refusal lies, and the pair that it names.
#[derive(Debug, Clone, Copy)]
pub struct Named {
    pub place: u16,
    pub typ: u8,
    pub inst: u8,
}

/// What the next octet is.
#[derive(Debug, Clone, Copy)]
enum Next {
    /// The octet of an element's header with that number.
    Header(usize),
    /// The first of a value, which its least length hangs on.
    First,
    /// One of a value that ends there.
    Value(usize),
    /// Nothing of the body: it is over, or broken.
    Nothing,
}

/// A level that is open: the body, or a kept group.
#[derive(Debug, Clone)]
struct Open<'r> {
    listing: &'r [Listed],
    /// Where it ends in the message.
    end: usize,
    /// The group's first octet and row number; 0 for the body.
    place: u16,
    number: u16,
    /// Positions of the listing that came, and of those that were kept, a bit each.
    came: u32,
    kept: u32,
    /// How many elements came of each line.
    counts: Vec<usize>,
    /// The group, unless this is the body.
    group: Option<Group>,
}

/// A group that is entered, with what was known before its row was.
#[derive(Debug, Clone)]
struct Group {
    row: [u16; COLUMNS],
    /// The bit of its line at the level around it.
    bit: u32,
    rows: usize,
    kept: usize,
    short: Option<Named>,
    missing: Option<Named>,
}

impl Open<'_> {
    /// Did more elements of some line come than a group may hold?
    fn is_too_full(&self) -> bool {
        let mut lines = self.listing.iter().zip(&self.counts);
        lines.any(|(listed, &count)| listed.most.is_some_and(|most| count > most))
    }
}

/// What was met so far.
#[derive(Debug, Clone)]
pub struct Taking<'r> {
    rules: &'r Rules,
    kind: u32,
    open: Vec<Open<'r>>,
    next: Next,
    /// The element's header as far as it came.
    header: [u8; ELEMENT_HEADER],
    pub rows: usize,
    pub kept: usize,
    /// Where the framing is broken, if it is.
    pub broken: Option<u16>,
    /// The first mandatory element that is short.
    pub short: Option<Named>,
    /// Of the levels that are over and lack something, the one that began first.
    pub missing: Option<Named>,
}

impl<'r> Taking<'r> {
    /// A body of this listing that lies there by the message's own word.
    pub fn new(
        rules: &'r Rules,
        kind: u32,
        listing: &'r [Listed],
        lies: Range<usize>,
        table: &mut (impl Room + ?Sized),
    ) -> Self {
        let mut taking = Self {
            rules,
            kind,
            open: Vec::new(),
            next: Next::Nothing,
            header: [0; ELEMENT_HEADER],
            rows: 0,
            kept: 0,
            broken: None,
            short: None,
            missing: None,
        };
        // A length below the header's own is refused at the end.
        if lies.start <= lies.end {
            taking.enter(listing, lies.end, 0, None);
            taking.go_on(lies.start, table);
        }
        taking
    }

    /// Takes the octet at that place of the message.
    pub fn octet(&mut self, octet: u8, at: usize, table: &mut (impl Room + ?Sized)) {
        let after = at + 1;
        match self.next {
            Next::Header(number) => {
                self.header[number] = octet;
                self.next = Next::Header(number + 1);
                if number + 1 == ELEMENT_HEADER {
                    self.whole_header(after, table);
                }
            }
            Next::First => self.stand(at, Some(octet), table),
            Next::Value(end) if after == end => self.go_on(after, table),
            Next::Value(_) | Next::Nothing => {}
        }
    }

    /// Opens the body, or the group whose row was the last.
    fn enter(&mut self, listing: &'r [Listed], end: usize, place: u16, group: Option<Group>) {
        self.open.push(Open {
            listing,
            end,
            place,
            number: self.rows as u16,
            came: 0,
            kept: 0,
            counts: vec![0; listing.len()],
            group,
        });
    }

    /// An element may begin here; levels that end here are over.
    fn go_on(&mut self, at: usize, table: &mut (impl Room + ?Sized)) {
        self.next = Next::Nothing;
        while let Some(level) = self.open.last() {
            let left = level.end - at;
            if self.rules.sizes.remnant.contains(&left) {
                self.broken = Some(at as u16);
                return;
            }
            if left > 0 {
                self.next = Next::Header(0);
                return;
            }
            self.leave(table);
        }
    }

    /// The innermost level is over.
    fn leave(&mut self, table: &mut (impl Room + ?Sized)) {
        let Some(level) = self.open.pop() else {
            return;
        };
        match &level.group {
            Some(group) if level.is_too_full() => return self.make_void(group, table),
            Some(group) => {
                if let Some(around) = self.open.last_mut() {
                    around.kept |= group.bit;
                }
            }
            None => {}
        }
        let mut lines = level.listing.iter().enumerate();
        let lacking = lines.find(|(position, listed)| {
            listed.mandatory && listed.kinds.has(self.kind) && level.kept >> position & 1 == 0
        });
        // Groups end before the levels around them, which began earlier.
        let is_first = self.missing.is_none_or(|other| level.place < other.place);
        if let (Some((_, listed)), true) = (lacking, is_first) {
            self.missing = Some(Named {
                place: level.place,
                typ: listed.typ,
                inst: listed.inst.number(),
            });
        }
    }

    /// Takes back the group that is just over and all that was met inside, and
    /// puts its row down as that of a void one.
    fn make_void(&mut self, group: &Group, table: &mut (impl Room + ?Sized)) {
        let from = self.rules.place_of(group.rows);
        let to = self.rules.place_of(self.rows);
        table.lay(from, &vec![0; to - from]);
        (self.rows, self.kept) = (group.rows, group.kept);
        (self.short, self.missing) = (group.short, group.missing);
        let [parent, typ, inst, place, length, _] = group.row;
        let void = Standing::Void as u16;
        self.put_row([parent, typ, inst, place, length, void], table);
    }

    fn typ(&self) -> u8 {
        self.header[0]
    }

    fn inst(&self) -> u8 {
        self.header[3] & self.rules.bits.instance
    }

    fn length(&self) -> usize {
        usize::from(u16::from_be_bytes([self.header[1], self.header[2]]))
    }

    /// The header is whole, and its value begins at `place`.
    fn whole_header(&mut self, place: usize, table: &mut (impl Room + ?Sized)) {
        let end = self.open.last().map_or(place, |level| level.end);
        if place + self.length() > end {
            self.broken = Some((place - ELEMENT_HEADER) as u16);
            self.next = Next::Nothing;
            return;
        }
        let least = &self.rules.facts(self.typ()).least;
        if self.length() > 0 && matches!(least, Least::ByFirst(_)) {
            self.next = Next::First;
        } else {
            self.stand(place, None, table);
        }
    }

    /// The element's standing and row; its value begins at `place`, with that
    /// octet if it was waited for.
    fn stand(&mut self, place: usize, first: Option<u8>, table: &mut (impl Room + ?Sized)) {
        let (typ, inst, length) = (self.typ(), self.inst(), self.length());
        let begun = (place - ELEMENT_HEADER) as u16;
        let Some(level) = self.open.last_mut() else {
            return;
        };
        let parent = level.number;
        let line = position(level.listing, self.kind, typ, inst);
        let listed = line.map(|line| &level.listing[line]);
        let bit = line.map_or(0, |line| 1 << line);
        let is_repeat = level.came & bit != 0 && listed.is_some_and(|listed| !listed.many);
        let is_short = length < self.rules.facts(typ).least(first.as_slice());
        level.came |= bit;
        if let Some(line) = line {
            level.counts[line] += 1;
        }
        let standing = match listed {
            None => Standing::Unexpected,
            Some(_) if is_repeat => Standing::Repeated,
            Some(_) if is_short => Standing::Short,
            Some(_) => Standing::Kept,
        };
        let is_entered = standing == Standing::Kept && self.rules.facts(typ).group;
        // Whether a group is kept shows at its end.
        if standing == Standing::Kept && !is_entered {
            level.kept |= bit;
        }
        if standing == Standing::Short && listed.is_some_and(|listed| listed.mandatory) {
            let place = begun;
            self.short.get_or_insert(Named { place, typ, inst });
        }
        let row = [
            parent,
            typ.into(),
            inst.into(),
            place as u16,
            length as u16,
            standing as u16,
        ];
        let group = Group {
            row,
            bit,
            rows: self.rows,
            kept: self.kept,
            short: self.short,
            missing: self.missing,
        };
        self.put_row(row, table);
        let end = place + length;
        let after = place + first.iter().len();
        match listed {
            Some(listed) if is_entered => {
                self.enter(&listed.inside, end, begun, Some(group));
                self.go_on(after, table);
            }
            _ if after == end => self.go_on(end, table),
            _ => self.next = Next::Value(end),
        }
    }

    /// Counts a row, and writes as much of it as the table has room for: one that
    /// is too short is made zero at the end.
    fn put_row(&mut self, row: [u16; COLUMNS], table: &mut (impl Room + ?Sized)) {
        table.lay(self.rules.place_of(self.rows), &row);
        self.rows += 1;
        let [.., standing] = row;
        self.kept += usize::from(standing == self.rules.table.kept);
    }
}
