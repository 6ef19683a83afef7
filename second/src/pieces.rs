//! The pieces form: a message that comes in parts, and then its end.
//!
//! No octet is kept for long: of the header its first four, of the elements what
//! `taking` has in hand. Rows go into the lent table as they are met. Every
//! answer about the message waits for the end.

mod room;
mod taking;

use crate::checks::fault;
use crate::rules::{Check, Rules};
use crate::verdict::Verdict;
pub(crate) use room::{Octets, Room};
use taking::{Named, Taking};

/// Octets of a message's header that some check reads.
const READ: usize = 4;

/// A message of which some parts have come.
#[derive(Debug, Clone)]
pub struct Pieces<'r> {
    rules: &'r Rules,
    kind: u32,
    /// The numbers of the table that was lent at the start.
    room: usize,
    is_ended: bool,
    /// Octets that came, also those that nothing looks at. It stays at its
    /// largest number and never begins again.
    count: u64,
    header: [u8; READ],
    /// The body, from its first octet on.
    body: Option<Taking<'r>>,
}

impl Rules {
    /// Begins a message. Nothing is refused before its end.
    pub fn start(&self, kind: u32, table: &mut [u16]) -> Pieces<'_> {
        self.start_in(kind, table)
    }

    pub(crate) fn start_in(&self, kind: u32, table: &mut (impl Room + ?Sized)) -> Pieces<'_> {
        table.clear();
        Pieces {
            rules: self,
            kind,
            room: table.numbers(),
            is_ended: false,
            count: 0,
            header: [0; READ],
            body: None,
        }
    }
}

impl Pieces<'_> {
    /// Takes the next octets, if any; acceptance says that they are taken.
    pub fn part(&mut self, octets: &[u8], table: &mut [u16]) -> Verdict {
        self.part_in(octets, table)
    }

    /// The verdict on all that came, and on acceptance its table.
    pub fn end(&mut self, table: &mut [u16]) -> Verdict {
        self.end_in(table)
    }

    pub(crate) fn part_in(&mut self, octets: &[u8], table: &mut (impl Room + ?Sized)) -> Verdict {
        if self.is_refused(table.numbers()) {
            return self.rules.refusal(Check::Ended);
        }
        let looked_at = (self.rules.sizes.longest as u64).saturating_sub(self.count);
        let looked_at = usize::try_from(looked_at).unwrap_or(usize::MAX);
        for (&octet, at) in octets.iter().take(looked_at).zip(self.count as usize..) {
            self.octet(octet, at, table);
        }
        self.count = self.count.saturating_add(octets.len() as u64);
        Verdict::ACCEPTED
    }

    pub(crate) fn end_in(&mut self, table: &mut (impl Room + ?Sized)) -> Verdict {
        if self.is_refused(table.numbers()) {
            return self.rules.refusal(Check::Ended);
        }
        self.is_ended = true;
        if let Some(check) = self.rules.checks.judge.first(self.faults()) {
            table.clear();
            return self.verdict(check);
        }
        // What is accepted has a whole header, and so a body, be it empty.
        let counts = self.body.as_ref().map(|body| (body.rows, body.kept));
        let (rows, kept) = counts.unwrap_or_default();
        let typ = self.typ().unwrap_or_default();
        let header = self.rules.header(self.kind, typ, rows, kept);
        table.lay(0, &header.collect::<Vec<_>>());
        Verdict::ACCEPTED
    }

    /// Has the end come, or is this a table of another length?
    fn is_refused(&self, numbers: usize) -> bool {
        self.is_ended || numbers != self.room
    }

    /// Takes the octet that stands at that place of the message.
    fn octet(&mut self, octet: u8, at: usize, table: &mut (impl Room + ?Sized)) {
        if let Some(body) = &mut self.body {
            return body.octet(octet, at, table);
        }
        if let Some(place) = self.header.get_mut(at) {
            *place = octet;
        }
        let next = at + 1;
        if next == self.rules.sizes.body[usize::from(self.has_teid())] {
            let listed = self.typ().and_then(|typ| self.rules.message_of(typ));
            let listing = listed.map_or(&[][..], |listed| &listed.body);
            let end = self.length();
            let body = Taking::new(self.rules, self.kind, listing, next..end, table);
            self.body = Some(body);
        }
    }

    /// T as it was found.
    fn has_teid(&self) -> bool {
        self.header[0] & self.rules.bits.teid != 0
    }

    fn typ(&self) -> Option<u8> {
        self.header.get(self.rules.sizes.type_octet).copied()
    }

    /// The octets that the message has by its own word.
    fn length(&self) -> usize {
        let [_, _, high, low] = self.header;
        usize::from(u16::from_be_bytes([high, low])) + self.rules.sizes.uncounted
    }

    /// Every check that applies, a bit each. Octets that did not come read as 0:
    /// then a check before those that read them applies.
    fn faults(&self) -> u32 {
        let Rules { bits, sizes, .. } = self.rules;
        let (flags, teid) = (self.header[0], self.has_teid());
        let listed = self.typ().and_then(|typ| self.rules.message_of(typ));
        let is_off_kind = listed.is_some_and(|listed| !listed.kinds.has(self.kind));
        let wants_teid = listed.is_none_or(|listed| listed.teid);
        let needed = sizes.header[usize::from(teid)] as u64;
        fault(Check::Kind, !self.rules.kinds.contains(&self.kind))
            | fault(Check::Size, self.count == 0)
            | fault(Check::Size, self.count > sizes.longest as u64)
            | fault(Check::Version, flags >> 5 != bits.version)
            | fault(Check::Header, self.count < needed)
            | fault(Check::Piggyback, flags & bits.piggyback != 0)
            | fault(Check::Length, self.count != self.length() as u64)
            | fault(Check::Type, listed.is_none())
            | fault(Check::OffKind, is_off_kind)
            | fault(Check::Teid, wants_teid != teid)
            | self.body.as_ref().map_or(0, |body| self.body_faults(body))
    }

    fn body_faults(&self, body: &Taking) -> u32 {
        fault(Check::Framing, body.broken.is_some())
            | fault(Check::TableRoom, self.room < self.rules.used(body.rows))
            | fault(Check::Short, body.short.is_some())
            | fault(Check::Missing, body.missing.is_some())
    }

    /// The refusal by a check that applies, with what it names.
    fn verdict(&self, check: Check) -> Verdict {
        let refusal = self.rules.refusal(check);
        let Some(body) = &self.body else {
            return refusal;
        };
        let pair = |named: &Named| refusal.at(named.place).of(named.typ, named.inst);
        let named = match check {
            Check::Framing => body.broken.map(|place| refusal.at(place)),
            Check::Short => body.short.as_ref().map(pair),
            Check::Missing => body.missing.as_ref().map(pair),
            _ => None,
        };
        named.unwrap_or(refusal)
    }
}
