//! A message in the making: a tree of elements, and its octets.

use super::random::Random;
use crate::rules::Message;

/// A message with what stands in its body.
#[derive(Debug, Clone)]
pub struct Draft {
    pub message: &'static Message,
    pub body: Run,
}

/// The elements of one level, and octets left over after them.
#[derive(Debug, Clone, Default)]
pub struct Run {
    pub elements: Vec<Element>,
    pub remnant: Vec<u8>,
}

#[derive(Debug, Clone)]
pub struct Element {
    pub typ: u8,
    pub inst: u8,
    /// The four bits beside the instance, in the high half.
    pub spare: u8,
    /// By how much the length field misses the value's length.
    pub off: i32,
    pub value: Value,
}

#[derive(Debug, Clone)]
pub enum Value {
    Plain(Vec<u8>),
    Group(Run),
}

impl Element {
    pub fn plain(typ: u8, inst: u8, value: Vec<u8>) -> Self {
        Self {
            typ,
            inst,
            spare: 0,
            off: 0,
            value: Value::Plain(value),
        }
    }

    fn put(&self, octets: &mut Vec<u8>) {
        octets.extend([self.typ, 0, 0, self.spare | self.inst]);
        let place = octets.len();
        match &self.value {
            Value::Plain(value) => octets.extend(value),
            Value::Group(run) => run.put(octets),
        }
        let claim = (octets.len() - place) as i32 + self.off;
        let claim = claim.clamp(0, i32::from(u16::MAX)) as u16;
        octets[place - 3..place - 1].copy_from_slice(&claim.to_be_bytes());
    }
}

impl Run {
    pub fn put(&self, octets: &mut Vec<u8>) {
        for element in &self.elements {
            element.put(octets);
        }
        octets.extend(&self.remnant);
    }

    /// How many octets it has.
    pub fn octets(&self) -> usize {
        let mut octets = Vec::new();
        self.put(&mut octets);
        octets.len()
    }

    /// The run of the first group of these pairs, one inside the other.
    pub fn at(&mut self, path: &[(u8, u8)]) -> Option<&mut Run> {
        let Some(((typ, inst), rest)) = path.split_first() else {
            return Some(self);
        };
        let mut elements = self.elements.iter_mut();
        let group = elements.find(|e| (e.typ, e.inst) == (*typ, *inst))?;
        match &mut group.value {
            Value::Group(run) => run.at(rest),
            Value::Plain(_) => None,
        }
    }

    /// This run or that of some group in it.
    pub fn some_run(&mut self, random: &mut Random) -> &mut Run {
        let is_group = |element: &Element| matches!(element.value, Value::Group(_));
        let groups = self.elements.iter().filter(|e| is_group(e)).count();
        if groups == 0 || random.percent(35) {
            return self;
        }
        let chosen = random.below(groups);
        let mut runs = self.elements.iter_mut().filter_map(|e| match &mut e.value {
            Value::Group(run) => Some(run),
            Value::Plain(_) => None,
        });
        runs.nth(chosen)
            .expect("a group was counted")
            .some_run(random)
    }
}

impl Draft {
    /// The message's octets, ignored bits and numbers of the header at random.
    pub fn octets(&self, random: &mut Random) -> Vec<u8> {
        let ignored = if random.percent(20) {
            random.octet() & 0x07
        } else {
            0
        };
        let (t, numbers) = if self.message.teid { (0x08, 8) } else { (0, 4) };
        let mut octets = Vec::with_capacity(256);
        octets.extend([0x40 | t | ignored, self.message.typ, 0, 0]);
        octets.extend(random.octets(numbers));
        self.body.put(&mut octets);
        mend_length(&mut octets);
        octets
    }
}

/// Puts the header's length field right; one that cannot hold it is cut.
pub fn mend_length(octets: &mut [u8]) {
    let following = octets.len() - 4;
    octets[2..4].copy_from_slice(&(following as u16).to_be_bytes());
}
