//! The checks. Each is made by itself; which of those that apply is given, the
//! order in the rules says.

use crate::rules::{Check, Checks, Listed, Message, Order, Rules};
use crate::verdict::Verdict;
use crate::walk::{Row, Walk};

/// What the checks of a message come to.
pub(crate) struct Checked {
    /// The first that applies; none accepts.
    pub check: Option<Check>,
    pub verdict: Verdict,
    /// The rows that were met, up to where the framing is broken.
    pub rows: Vec<Row>,
}

impl Checked {
    /// The rows of an accepted message, or the refusal.
    pub fn accepted(self) -> Result<Vec<Row>, Verdict> {
        match self.check {
            None => Ok(self.rows),
            Some(_) => Err(self.verdict),
        }
    }
}

impl Checks {
    /// Is the copy written where that check is the first to apply, or none?
    pub(crate) fn copied(&self, first: Option<Check>) -> bool {
        first.is_none_or(|check| self.with_copy.contains(&check))
    }

    /// The same of the table.
    pub(crate) fn tabled(&self, first: Option<Check>) -> bool {
        first.is_none_or(|check| self.with_table.contains(&check))
    }
}

impl Rules {
    /// Makes these checks of a message. What is lent bears on checks of its own:
    /// `lent` answers their faults for the message walked.
    pub(crate) fn checked(
        &self,
        order: &Order,
        kind: u32,
        message: &[u8],
        lent: impl FnOnce(&Walk) -> u32,
    ) -> Checked {
        let header = Header::new(self, kind, message);
        let mut faults = header.faults;
        if let Some(check) = order.first_before_the_walk(faults) {
            return Checked {
                check: Some(check),
                verdict: self.refusal(check),
                rows: Vec::new(),
            };
        }
        let walk = Walk::new(self, kind, message, header.listing(), header.body);
        faults |= fault(Check::Framing, walk.broken.is_some()) | lent(&walk);
        if order.has(Check::Short) {
            faults |= fault(Check::Short, walk.first_short().is_some());
        }
        if order.has(Check::Missing) {
            faults |= fault(Check::Missing, walk.first_missing().is_some());
        }
        let check = order.first(faults);
        let refusal = check.map(|check| self.verdict(check, &walk));
        Checked {
            check,
            verdict: refusal.unwrap_or(Verdict::ACCEPTED),
            rows: walk.rows,
        }
    }

    /// The refusal by a check that applies, with what it names.
    fn verdict(&self, check: Check, walk: &Walk) -> Verdict {
        let refusal = self.refusal(check);
        let named = match check {
            Check::Framing => walk.broken.map(|place| refusal.at(place)),
            Check::Short => walk.first_short().map(|row| {
                let named = refusal.at(row.first_octet());
                named.of(row.typ, row.inst)
            }),
            Check::Missing => walk.first_missing().map(|(level, listed)| {
                let named = refusal.at(level.place);
                named.of(listed.typ, listed.inst.number())
            }),
            _ => None,
        };
        named.unwrap_or(refusal)
    }
}

/// The bit of a check, if it applies.
pub fn fault(check: Check, applies: bool) -> u32 {
    u32::from(applies) << check as u32
}

/// What kind and header say.
pub struct Header<'r> {
    /// The listed message of its type, if there is one.
    listed: Option<&'r Message>,
    /// Where the first element begins.
    pub body: usize,
    faults: u32,
}

impl<'r> Header<'r> {
    /// What the message lists in its body.
    pub fn listing(&self) -> &'r [Listed] {
        self.listed.map_or(&[], |listed| &listed.body)
    }

    /// Every check of kind and header that applies, a bit each.
    pub fn faults(&self) -> u32 {
        self.faults
    }

    pub fn new(rules: &'r Rules, kind: u32, message: &[u8]) -> Self {
        let Rules { bits, sizes, .. } = rules;
        let length = message.len();
        // A message without a first octet has no version that could be wrong.
        let flags = message.first().copied().unwrap_or(bits.version << 5);
        // T as it is found, which is not always the T that the type wants.
        let teid = flags & bits.teid != 0;
        let typ = message.get(sizes.type_octet);
        let listed = typ.and_then(|&typ| rules.message_of(typ));
        // A type that is not listed is off no kind.
        let is_off_kind = listed.is_some_and(|listed| !listed.kinds.has(kind));
        // A type that is not listed would want T = 1, as most do.
        let wants_teid = listed.is_none_or(|listed| listed.teid);
        let counted = match *message {
            [_, _, high, low, ..] => usize::from(u16::from_be_bytes([high, low])),
            _ => 0,
        };
        let faults = fault(Check::Kind, !rules.kinds.contains(&kind))
            | fault(Check::Size, length == 0 || length > sizes.longest)
            | fault(Check::Version, flags >> 5 != bits.version)
            | fault(Check::Header, length < sizes.header[usize::from(teid)])
            | fault(Check::Piggyback, flags & bits.piggyback != 0)
            | fault(Check::Length, counted + sizes.uncounted != length)
            | fault(Check::Type, listed.is_none())
            | fault(Check::OffKind, is_off_kind)
            | fault(Check::Teid, wants_teid != teid);
        Self {
            listed,
            body: sizes.body[usize::from(teid)],
            faults,
        }
    }
}
