//! The builder: a message from a table and a buffer of values. What kind and
//! message type it is, the table's header says.
//!
//! A group's rows come after it. So the lengths are added up from the last row
//! back to the first, and then the octets are written from the first row on.

use crate::checks::fault;
use crate::framing::ELEMENT_HEADER;
use crate::rules::{Check, Message, Rules, Standing, Told};
use crate::table::Entry;
use crate::verdict::Answer;

/// What a message has before its elements and no table tells.
#[derive(Debug, Clone, Copy, PartialEq, Eq)]
pub struct Head {
    pub teid: u32,
    pub sequence: u32,
}

/// Octets of a header without a TEID, and of the TEID.
const HEADER: usize = 8;
const TEID: usize = 4;

impl Rules {
    /// Writes the message of these rows. Nothing is written on a refusal, and
    /// room past the message stays.
    pub fn build(&self, head: Head, table: &[u16], values: &[u8], room: &mut [u8]) -> Answer {
        let kind = self.told(table, Told::Kind).map(u32::from);
        let kind = kind.filter(|kind| self.kinds.contains(kind));
        let listed = self.listed(table);
        let is_off_kind = match (listed, kind) {
            (Some(listed), Some(kind)) => !listed.kinds.has(kind),
            _ => false,
        };
        let rows = self.entries(table).unwrap_or_default();
        let sound = self.is_sound(head, table, &rows, values);
        let need = self.built_length(listed, &rows);
        // Only what could be a message is put together and judged.
        let message = match listed {
            Some(listed) if sound && need <= self.sizes.longest => {
                self.octets(listed, head, &rows, values)
            }
            _ => Vec::new(),
        };
        let is_kept = kind.is_some_and(|kind| self.is_all_kept(kind, &message));
        let faults = fault(Check::TableHeader, table.len() < self.sizes.table_header)
            | fault(Check::Kind, kind.is_none())
            | fault(Check::Type, listed.is_none())
            | fault(Check::OffKind, is_off_kind)
            | fault(Check::Table, !sound)
            | fault(Check::Room, need > self.sizes.longest.min(room.len()))
            | fault(Check::Built, !is_kept);
        if let Some(check) = self.checks.build.first(faults) {
            return Answer::refused(self.refusal(check));
        }
        room[..message.len()].copy_from_slice(&message);
        Answer::written(&message)
    }

    /// How many octets the message of this table would have, if its rows can be
    /// read.
    pub fn build_need(&self, table: &[u16]) -> usize {
        let rows = self.entries(table).unwrap_or_default();
        self.built_length(self.listed(table), &rows)
    }

    /// The listed message of the type that the header tells.
    fn listed(&self, table: &[u16]) -> Option<&Message> {
        let typ = self.told(table, Told::Type)?;
        self.message_of(u8::try_from(typ).ok()?)
    }

    /// Is there nothing in the table, the values and the sequence number that
    /// stands against building?
    fn is_sound(&self, head: Head, table: &[u16], rows: &[Entry], values: &[u8]) -> bool {
        self.agrees(table, rows)
            && self.stands_depth_first(rows)
            && rows.iter().all(|row| self.takes(row, values))
            && head.sequence <= self.builds.sequence
    }

    /// Is each parent the message, or a group that is the row just before or
    /// around it?
    fn stands_depth_first(&self, rows: &[Entry]) -> bool {
        // The groups that the next row can be in, the innermost last.
        let mut open = vec![0];
        rows.iter().enumerate().all(|(at, row)| {
            let parent = open.iter().position(|&number| number == row.parent);
            open.truncate(parent.map_or(0, |position| position + 1));
            if self.is_group(row) {
                open.push((at + 1) as u16);
            }
            parent.is_some()
        })
    }

    /// Can this row be an element?
    fn takes(&self, row: &Entry, values: &[u8]) -> bool {
        row.standing == self.builds.standing
            && row.typ <= self.builds.typ
            && row.inst <= self.builds.inst
            && (self.is_group(row) || row.value(values).is_some())
    }

    /// A row is a group's by its type number, listed or not.
    fn is_group(&self, row: &Entry) -> bool {
        u8::try_from(row.typ).is_ok_and(|typ| self.facts(typ).group)
    }

    /// The header, and every row with its value.
    fn built_length(&self, listed: Option<&Message>, rows: &[Entry]) -> usize {
        let elements = rows.iter().map(|row| ELEMENT_HEADER + self.own_length(row));
        // A type that is not listed would have a TEID, as most do.
        let header = match listed {
            Some(Message { teid: false, .. }) => HEADER,
            _ => HEADER + TEID,
        };
        header + elements.sum::<usize>()
    }

    /// The octets of a row's own value; those of a group are its rows.
    fn own_length(&self, row: &Entry) -> usize {
        match self.is_group(row) {
            true => 0,
            false => usize::from(row.length),
        }
    }

    /// The length of each row's value, that of the message's body first.
    fn lengths(&self, rows: &[Entry]) -> Vec<usize> {
        let mut lengths = vec![0; rows.len() + 1];
        for (at, row) in rows.iter().enumerate().rev() {
            lengths[at + 1] += self.own_length(row);
            lengths[usize::from(row.parent)] += ELEMENT_HEADER + lengths[at + 1];
        }
        lengths
    }

    /// The header with no length yet. Bits that nothing reads are zero.
    fn header_octets(&self, listed: &Message, head: Head) -> Vec<u8> {
        let teid = if listed.teid { self.bits.teid } else { 0 };
        let mut octets = vec![self.bits.version << 5 | teid, listed.typ, 0, 0];
        if listed.teid {
            octets.extend(head.teid.to_be_bytes());
        }
        octets.extend((head.sequence << 8).to_be_bytes());
        octets
    }

    /// The message of rows that are sound.
    fn octets(&self, listed: &Message, head: Head, rows: &[Entry], values: &[u8]) -> Vec<u8> {
        let lengths = self.lengths(rows);
        let mut octets = self.header_octets(listed, head);
        let following = octets.len() + lengths[0] - self.sizes.uncounted;
        octets[2..4].copy_from_slice(&(following as u16).to_be_bytes());
        for (row, length) in rows.iter().zip(&lengths[1..]) {
            let [high, low] = (*length as u16).to_be_bytes();
            octets.extend([row.typ as u8, high, low, row.inst as u8]);
            if !self.is_group(row) {
                octets.extend(row.value(values).unwrap_or_default());
            }
        }
        octets
    }

    /// Is the message accepted, with table and copy large enough, and every row
    /// kept?
    fn is_all_kept(&self, kind: u32, message: &[u8]) -> bool {
        let rows = self.judged_with_room(kind, message).accepted();
        rows.is_ok_and(|rows| rows.iter().all(|row| row.standing == Standing::Kept))
    }
}
