//! A small seeded source of numbers (SplitMix64), the same on every platform.

use crate::rules::Message;
use crate::DOCUMENT;

#[derive(Debug, Clone)]
pub struct Random {
    state: u64,
}

impl Random {
    pub fn new(seed: u64) -> Self {
        Self { state: seed }
    }

    pub fn number(&mut self) -> u64 {
        self.state = self.state.wrapping_add(0x9E37_79B9_7F4A_7C15);
        let mut z = self.state;
        z = (z ^ (z >> 30)).wrapping_mul(0xBF58_476D_1CE4_E5B9);
        z = (z ^ (z >> 27)).wrapping_mul(0x94D0_49BB_1331_11EB);
        z ^ (z >> 31)
    }

    /// A number from 0 up to but not including `bound`; 0 for a bound of 0.
    pub fn below(&mut self, bound: usize) -> usize {
        ((u128::from(self.number()) * bound as u128) >> 64) as usize
    }

    /// A number from `low` to `high`, both included.
    pub fn between(&mut self, low: usize, high: usize) -> usize {
        low + self.below(high - low + 1)
    }

    /// Yes in so many cases out of a hundred.
    pub fn percent(&mut self, percent: usize) -> bool {
        self.below(100) < percent
    }

    /// One of the kinds that there are.
    pub fn kind(&mut self) -> u32 {
        let (first, last) = (*DOCUMENT.kinds.start(), *DOCUMENT.kinds.end());
        self.between(first as usize, last as usize) as u32
    }

    /// One of the kinds that the message is on.
    pub fn kind_of(&mut self, message: &Message) -> u32 {
        let kinds = message.kinds.each().collect::<Vec<_>>();
        *self.pick(&kinds)
    }

    /// A kind that the message is not on, if there is one.
    pub fn kind_off(&mut self, message: &Message) -> Option<u32> {
        let mut kinds = DOCUMENT.kinds.clone().collect::<Vec<_>>();
        kinds.retain(|&kind| !message.kinds.has(kind));
        (!kinds.is_empty()).then(|| *self.pick(&kinds))
    }

    /// A message type that is listed and not on that kind.
    pub fn type_off(&mut self, kind: u32) -> u8 {
        let messages = DOCUMENT.messages.iter();
        let off = messages.filter(|message| !message.kinds.has(kind));
        self.pick(&off.collect::<Vec<_>>()).typ
    }

    pub fn octet(&mut self) -> u8 {
        self.number() as u8
    }

    pub fn octets(&mut self, length: usize) -> Vec<u8> {
        let mut octets = vec![0; length];
        for part in octets.chunks_mut(8) {
            part.copy_from_slice(&self.number().to_le_bytes()[..part.len()]);
        }
        octets
    }

    pub fn pick<'a, T>(&mut self, of: &'a [T]) -> &'a T {
        &of[self.below(of.len())]
    }

    /// One of several, each as often as its weight says.
    pub fn weighted<T: Copy>(&mut self, of: &[(usize, T)]) -> T {
        let whole = of.iter().map(|(weight, _)| weight).sum();
        let mut at = self.below(whole);
        for &(weight, one) in of {
            if at < weight {
                return one;
            }
            at -= weight;
        }
        unreachable!("the number drawn is below the sum of the weights")
    }

    pub fn shuffle<T>(&mut self, of: &mut [T]) {
        for last in (1..of.len()).rev() {
            of.swap(last, self.below(last + 1));
        }
    }
}
