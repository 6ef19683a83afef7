//! What checks 1 to 8 pin, each alone and each with the next.

use std::cmp::Ordering;

use super::value::Fit;
use super::{Figures, Which};
use crate::generate::draft::mend_length;
use crate::generate::Case;
use crate::DOCUMENT;

type Fault = fn(&mut Figures, &mut Case);

/// The fault of each check, in the order of the checks.
const FAULTS: [Fault; 10] = [
    Figures::other_kind,
    Figures::oversize,
    Figures::other_version,
    Figures::cut,
    Figures::piggybacked,
    Figures::other_length,
    Figures::other_type,
    Figures::off_kind,
    Figures::other_teid,
    Figures::remnant,
];

/// Where the fault of a wrong kind stands among them.
const OFF_KIND: usize = 7;

impl Figures {
    pub fn headers(&mut self) {
        for (at, &fault) in FAULTS.iter().enumerate() {
            self.damaged(&[fault]);
            if let Some(&next) = FAULTS.get(at + 1) {
                // The later fault goes in first, so that it cannot undo the earlier.
                self.damaged(&[next, fault]);
                self.damaged(&[next, fault]);
            }
        }
        self.off_kinds();
        self.kinds();
        self.header_lengths();
        self.message_types();
    }

    fn good(&mut self) -> Case {
        let message = self.random.pick(&DOCUMENT.messages);
        let kind = self.random.kind_of(message);
        let draft = self.draft(kind, message, Which::Mandatory, Fit::Over);
        Case {
            kind,
            message: draft.octets(&mut self.random),
        }
    }

    fn damaged(&mut self, faults: &[Fault]) {
        let mut case = self.good();
        for fault in faults {
            fault(self, &mut case);
        }
        self.cases.push(case);
    }

    fn other_kind(&mut self, case: &mut Case) {
        case.kind = *self.random.pick(&[0, 5, 6, 255, 257, 258, u32::MAX]);
    }

    fn oversize(&mut self, case: &mut Case) {
        case.message.resize(DOCUMENT.sizes.longest + 1, 0);
        mend_length(&mut case.message);
    }

    fn other_version(&mut self, case: &mut Case) {
        let version = *self.random.pick(&[0, 1, 3, 4, 5, 6, 7]);
        case.message[0] = case.message[0] & 0x1F | version << 5;
    }

    /// Cut within its header, with a length field that says so if it is there.
    fn cut(&mut self, case: &mut Case) {
        let header = if case.message[0] & 0x08 == 0 { 8 } else { 12 };
        case.message.truncate(self.random.between(1, header - 1));
        if case.message.len() >= 4 {
            mend_length(&mut case.message);
        }
    }

    fn piggybacked(&mut self, case: &mut Case) {
        case.message[0] |= 0x10;
    }

    /// By one less or more, mostly.
    fn other_length(&mut self, case: &mut Case) {
        let length = u16::from_be_bytes([case.message[2], case.message[3]]);
        let off = *self.random.pick(&[1, 1, u16::MAX, u16::MAX, 256]);
        let wrong = length.wrapping_add(off);
        case.message[2..4].copy_from_slice(&wrong.to_be_bytes());
    }

    fn other_type(&mut self, case: &mut Case) {
        while DOCUMENT.message_of(case.message[1]).is_some() {
            case.message[1] = self.random.octet();
        }
    }

    /// A kind that the message is not on; one that is on all of them gets another
    /// type. A kind that is none stays, and so does a type that is not listed.
    fn off_kind(&mut self, case: &mut Case) {
        let Some(listed) = DOCUMENT.message_of(case.message[1]) else {
            return;
        };
        match self.random.kind_off(listed) {
            Some(kind) => case.kind = kind,
            None => {
                case.kind = self.random.kind();
                case.message[1] = self.random.type_off(case.kind);
            }
        }
    }

    /// A message on a wrong kind with each of the other faults, and each message
    /// whole on each kind that it is not on.
    fn off_kinds(&mut self) {
        for (at, &fault) in FAULTS.iter().enumerate() {
            // The later fault goes in first here too.
            match at.cmp(&OFF_KIND) {
                Ordering::Less => self.damaged(&[FAULTS[OFF_KIND], fault]),
                Ordering::Equal => {}
                Ordering::Greater => self.damaged(&[fault, FAULTS[OFF_KIND]]),
            }
        }
        for message in &DOCUMENT.messages {
            let off = DOCUMENT.kinds.clone();
            for kind in off.filter(|&kind| !message.kinds.has(kind)) {
                for which in [Which::Mandatory, Which::All] {
                    let own = self.random.kind_of(message);
                    let draft = self.draft(own, message, which, Fit::Over);
                    self.put(kind, &draft);
                }
            }
        }
    }

    /// The other T, the header's length changed with it; an unlisted type wants
    /// T = 1 like most.
    fn other_teid(&mut self, case: &mut Case) {
        let listed = DOCUMENT.message_of(case.message[1]);
        let wanted = listed.is_none_or(|listed| listed.teid);
        let found = case.message[0] & 0x08 != 0;
        if wanted != found {
            return;
        }
        case.message[0] ^= 0x08;
        if wanted {
            case.message.drain(4..8);
        } else {
            case.message.splice(4..4, [0, 0, 0, 1]);
        }
        mend_length(&mut case.message);
    }

    fn remnant(&mut self, case: &mut Case) {
        let length = self.random.between(1, 3);
        let left = self.values.some(&mut self.random, length);
        case.message.extend(left);
        mend_length(&mut case.message);
    }

    /// The kinds beside those that there are.
    fn kinds(&mut self) {
        for kind in [DOCUMENT.kinds.start() - 1, DOCUMENT.kinds.end() + 1] {
            let mut case = self.good();
            case.kind = kind;
            self.cases.push(case);
        }
        self.cases.push(Case {
            kind: 0,
            message: Vec::new(),
        });
        self.cases.push(Case {
            kind: 1,
            message: Vec::new(),
        });
    }

    /// Messages of every length up to and around a header, with either T.
    fn header_lengths(&mut self) {
        for length in 1..=14 {
            for flags in [0x40, 0x48] {
                let mut message = self.values.some(&mut self.random, length);
                let kind = self.random.kind();
                message[0] = flags;
                if length >= 4 {
                    message[1] = match (flags, kind) {
                        (0x40, _) => 1,
                        (_, 4) => 131,
                        _ => 66,
                    };
                    mend_length(&mut message);
                }
                self.cases.push(Case { kind, message });
            }
        }
    }

    /// Every message type there could be, with either T by turns.
    fn message_types(&mut self) {
        let (flags, length) = if self.odd_round() {
            (0x40, 8)
        } else {
            (0x48, 12)
        };
        for typ in 0..=255 {
            let mut message = self.values.some(&mut self.random, length);
            message[..2].copy_from_slice(&[flags, typ]);
            mend_length(&mut message);
            let kind = self.random.kind();
            self.cases.push(Case { kind, message });
        }
    }
}
