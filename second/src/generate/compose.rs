//! Messages made from the listings that are accepted on their kind: groups,
//! repeats, unexpected, private and short optional elements among them.

use super::draft::{Draft, Element, Run, Value};
use super::overload::crowded;
use super::random::Random;
use crate::rules::{position, Inst, Listed, Message};
use crate::DOCUMENT;

/// Past so many octets only what is mandatory is added, at its least length,
/// so that a message stays below 4,096 octets.
const ROOMY: usize = 2400;
const LONG_VALUE: usize = 700;

/// Types of which unexpected elements are often made: covered ones, groups,
/// those whose length goes by the first octet, and others.
const FAMILIAR: [u8; 20] = [
    1, 2, 3, 73, 74, 75, 76, 78, 79, 86, 87, 93, 96, 103, 108, 109, 180, 183, 201, 255,
];

pub fn compose(random: &mut Random, kind: u32, message: &'static Message) -> Draft {
    let share = *random.pick(&[10, 30, 50, 100]);
    let mut composer = Composer {
        random,
        kind,
        share,
        octets: 0,
    };
    let body = composer.run(&message.body);
    Draft { message, body }
}

/// A value long enough for its type.
pub fn good_value(random: &mut Random, typ: u8, extra: usize) -> Vec<u8> {
    let first = random.octet();
    let length = DOCUMENT.facts(typ).least(&[first]) + extra;
    value(random, first, length)
}

/// A value below its type's least length; empty where none can be.
pub fn short_value(random: &mut Random, typ: u8) -> Vec<u8> {
    let first = random.octet();
    let length = random.below(DOCUMENT.facts(typ).least(&[first]));
    value(random, first, length)
}

fn value(random: &mut Random, first: u8, length: usize) -> Vec<u8> {
    let mut value = random.octets(length);
    if let Some(octet) = value.first_mut() {
        *octet = first;
    }
    value
}

struct Composer<'a> {
    random: &'a mut Random,
    kind: u32,
    /// How many of a hundred optional pairs are present.
    share: usize,
    octets: usize,
}

impl Composer<'_> {
    fn roomy(&self) -> bool {
        self.octets < ROOMY
    }

    fn run(&mut self, listing: &'static [Listed]) -> Run {
        let mut run = Run::default();
        for listed in listing {
            for turn in 0..self.count(listed) {
                // Groups in groups fill a message while they are repeated.
                if turn > 0 && !self.roomy() {
                    break;
                }
                let element = self.element(listed);
                run.elements.push(element);
            }
        }
        if self.random.percent(25) {
            self.random.shuffle(&mut run.elements);
        }
        self.add_unexpected(&mut run, listing);
        self.add_repeated(&mut run, listing);
        run
    }

    /// How often a listed pair stands, also on a kind where it is not listed.
    fn count(&mut self, listed: &Listed) -> usize {
        let present = if !self.roomy() {
            listed.mandatory
        } else if listed.kinds.has(self.kind) {
            listed.mandatory || self.random.percent(self.share)
        } else {
            self.random.percent(8)
        };
        match (present, listed.many && self.roomy()) {
            (false, _) => 0,
            (true, false) => 1,
            (true, true) => self.repeats(),
        }
    }

    fn repeats(&mut self) -> usize {
        match self.random.below(100) {
            0..=69 => 1,
            70..=96 => self.random.between(2, 3),
            _ => self.random.between(4, 13),
        }
    }

    fn element(&mut self, listed: &'static Listed) -> Element {
        let inst = match listed.inst {
            Inst::Is(inst) => inst,
            Inst::Any => self.random.below(16) as u8,
        };
        let mut element = Element::plain(listed.typ, inst, Vec::new());
        element.spare = self.spare();
        element.value = if DOCUMENT.facts(listed.typ).group {
            self.octets += 4;
            Value::Group(self.inside(listed))
        } else {
            Value::Plain(self.value(listed))
        };
        element
    }

    /// What a group holds; one that has a limit is about that full now and then.
    fn inside(&mut self, group: &'static Listed) -> Run {
        let has_limit = group.limits().next().is_some();
        if has_limit && self.roomy() && self.random.percent(25) {
            let run = crowded(self.random, group);
            self.octets += run.octets();
            return run;
        }
        self.run(&group.inside)
    }

    fn spare(&mut self) -> u8 {
        if self.random.percent(10) {
            self.random.octet() & 0xF0
        } else {
            0
        }
    }

    fn value(&mut self, listed: &Listed) -> Vec<u8> {
        let value = if !listed.mandatory && self.random.percent(4) {
            short_value(self.random, listed.typ)
        } else {
            let extra = self.extra();
            good_value(self.random, listed.typ, extra)
        };
        self.octets += 4 + value.len();
        value
    }

    fn extra(&mut self) -> usize {
        if !self.roomy() {
            return 0;
        }
        match self.random.below(400) {
            0..=179 => 0,
            180..=398 => self.random.between(1, 9),
            _ => self.random.between(10, LONG_VALUE),
        }
    }

    fn add_unexpected(&mut self, run: &mut Run, listing: &[Listed]) {
        while self.roomy() && self.random.percent(20) {
            let element = self.unexpected(listing);
            let at = self.random.between(0, run.elements.len());
            run.elements.insert(at, element);
        }
    }

    /// An element that this kind lists nowhere at the level; one of a group's
    /// type may hold anything, since it is not entered.
    fn unexpected(&mut self, listing: &[Listed]) -> Element {
        let (typ, inst) = self.unlisted_pair(listing);
        let length = self.random.below(13);
        self.octets += 4 + length;
        let value = if DOCUMENT.facts(typ).group && self.random.percent(50) {
            nested(self.random)
        } else {
            Value::Plain(self.random.octets(length))
        };
        Element {
            spare: self.spare(),
            value,
            ..Element::plain(typ, inst, Vec::new())
        }
    }

    fn unlisted_pair(&mut self, listing: &[Listed]) -> (u8, u8) {
        loop {
            let typ = if self.random.percent(60) {
                *self.random.pick(&FAMILIAR)
            } else {
                self.random.octet()
            };
            let inst = if self.random.percent(60) {
                0
            } else {
                self.random.below(16) as u8
            };
            if position(listing, self.kind, typ, inst).is_none() {
                return (typ, inst);
            }
        }
    }

    /// A second element of a pair that may stand once, somewhere after the
    /// first; its value may have any length.
    fn add_repeated(&mut self, run: &mut Run, listing: &[Listed]) {
        if run.elements.is_empty() || !self.roomy() || !self.random.percent(20) {
            return;
        }
        let first = self.random.below(run.elements.len());
        let Element { typ, inst, .. } = run.elements[first];
        let once =
            position(listing, self.kind, typ, inst).is_some_and(|position| !listing[position].many);
        if once {
            let length = self.random.below(10);
            self.octets += 4 + length;
            let repeat = Element::plain(typ, inst, self.random.octets(length));
            let at = self.random.between(first + 1, run.elements.len());
            run.elements.insert(at, repeat);
        }
    }
}

/// Groups within groups, the innermost perhaps with octets left over.
pub fn nested(random: &mut Random) -> Value {
    let mut run = Run {
        elements: Vec::new(),
        remnant: vec![0x49; random.below(8)],
    };
    for _ in 0..random.below(20) {
        let typ = *random.pick(&[93, 93, 109, 180]);
        let inner = Element {
            value: Value::Group(run),
            ..Element::plain(typ, 0, Vec::new())
        };
        run = Run {
            elements: vec![inner],
            remnant: Vec::new(),
        };
    }
    Value::Group(run)
}
