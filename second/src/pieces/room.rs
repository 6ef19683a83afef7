//! A lent table, as numbers or as octets.

pub trait Room {
    /// How many numbers it has room for.
    fn numbers(&self) -> usize;

    /// Writes one number that there is room for.
    fn put(&mut self, at: usize, number: u16);

    /// Writes numbers from that place on, as far as there is room.
    fn lay(&mut self, at: usize, numbers: &[u16]) {
        for (at, &number) in (at..self.numbers()).zip(numbers) {
            self.put(at, number);
        }
    }

    /// Makes every number zero.
    fn clear(&mut self) {
        for at in 0..self.numbers() {
            self.put(at, 0);
        }
    }
}

impl Room for [u16] {
    fn numbers(&self) -> usize {
        self.len()
    }

    fn put(&mut self, at: usize, number: u16) {
        self[at] = number;
    }
}

/// Two octets a number, high octet first. An odd last one is never written.
pub struct Octets<'a>(pub &'a mut [u8]);

impl Room for Octets<'_> {
    fn numbers(&self) -> usize {
        self.0.len() / 2
    }

    fn put(&mut self, at: usize, number: u16) {
        self.0[2 * at..][..2].copy_from_slice(&number.to_be_bytes());
    }
}
