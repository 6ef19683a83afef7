//! The forms for the C receiver: numbers as octets, two each, high octet first.

use crate::build::Head;
use crate::pieces::{Octets, Pieces};
use crate::rules::{Check, Rules};
use crate::verdict::{Answer, Verdict};

/// What stands in place of the octets of a state: in C a buffer that a start
/// writes, here the message itself. Each call is told how long that buffer is.
#[derive(Debug, Clone, Default)]
pub struct State<'r>(Option<Pieces<'r>>);

impl Rules {
    /// Judge and copy in one call, with the table and the five numbers as octets;
    /// answers the code. An odd last octet of the table is not used and stays.
    #[inline]
    pub fn judge_copy_octets(
        &self,
        kind: u32,
        message: &[u8],
        table: &mut [u8],
        copy: &mut [u8],
        five: &mut [u8],
    ) -> u16 {
        let judged = self.judged(kind, message, table.len() / 2, copy.len());
        if self.checks.copied(judged.check) {
            self.write_copy(message, &judged.rows, copy);
        }
        if self.checks.tabled(judged.check) {
            let mut numbers = vec![0; self.used(judged.rows.len())];
            self.write_table(kind, message, &judged.rows, &mut numbers);
            put(&numbers, table);
        }
        self.put_five(judged.verdict, five)
    }

    /// The number of rows with its six numbers as octets; answers the code.
    pub fn count_rows_octets(&self, kind: u32, message: &[u8], answer: &mut [u8]) -> u16 {
        let count = self.count_rows(kind, message);
        if answer.len() >= self.sizes.count {
            put(&count.numbers(), answer);
        }
        count.verdict.code
    }

    /// The cleaner with its six numbers as octets; answers the code.
    #[inline]
    pub fn clean_octets(
        &self,
        kind: u32,
        message: &[u8],
        clean: &mut [u8],
        answer: &mut [u8],
    ) -> u16 {
        self.put_answer(self.clean(kind, message, clean), answer)
    }

    /// The builder with its table and its six numbers as octets; answers the
    /// code. An odd last octet of the table is not read.
    pub fn build_octets(
        &self,
        head: Head,
        table: &[u8],
        values: &[u8],
        room: &mut [u8],
        answer: &mut [u8],
    ) -> u16 {
        let (numbers, _) = table.as_chunks();
        let numbers = numbers.iter().map(|&number| u16::from_be_bytes(number));
        let table = numbers.collect::<Vec<_>>();
        self.put_answer(self.build(head, &table, values, room), answer)
    }

    /// The start of the pieces form; answers the code. A state that is too short
    /// is left alone, and so is the table then; so is a table's odd last octet.
    pub fn start_octets<'r>(
        &'r self,
        kind: u32,
        state: &mut State<'r>,
        state_len: usize,
        table: &mut [u8],
    ) -> u16 {
        if state_len < self.sizes.state {
            return self.refusal(Check::Ended).code;
        }
        *state = State(Some(self.start_in(kind, &mut Octets(table))));
        Verdict::ACCEPTED.code
    }

    /// A part, with the five numbers as octets; answers the code.
    pub fn part_octets(
        &self,
        state: &mut State,
        state_len: usize,
        part: &[u8],
        table: &mut [u8],
        five: &mut [u8],
    ) -> u16 {
        let verdict = match self.begun(state, state_len) {
            Some(pieces) => pieces.part_in(part, &mut Octets(table)),
            None => self.refusal(Check::Ended),
        };
        self.put_five(verdict, five)
    }

    /// The end, with the five numbers as octets; answers the code.
    pub fn end_octets(
        &self,
        state: &mut State,
        state_len: usize,
        table: &mut [u8],
        five: &mut [u8],
    ) -> u16 {
        let verdict = match self.begun(state, state_len) {
            Some(pieces) => pieces.end_in(&mut Octets(table)),
            None => self.refusal(Check::Ended),
        };
        self.put_five(verdict, five)
    }

    /// The message of a state that is long enough and was started.
    fn begun<'s, 'r>(
        &self,
        state: &'s mut State<'r>,
        state_len: usize,
    ) -> Option<&'s mut Pieces<'r>> {
        state.0.as_mut().filter(|_| state_len >= self.sizes.state)
    }

    /// Writes the five numbers where there is room for all of them.
    fn put_five(&self, verdict: Verdict, five: &mut [u8]) -> u16 {
        if five.len() >= self.sizes.five {
            put(&verdict.numbers(), five);
        }
        verdict.code
    }

    /// Writes the five numbers and the length where there is room for all.
    fn put_answer(&self, answer: Answer, octets: &mut [u8]) -> u16 {
        if octets.len() >= self.sizes.answer {
            put(&answer.numbers(), octets);
        }
        answer.verdict.code
    }
}

fn put(numbers: &[u16], octets: &mut [u8]) {
    for (number, place) in numbers.iter().zip(octets.chunks_exact_mut(2)) {
        place.copy_from_slice(&number.to_be_bytes());
    }
}
