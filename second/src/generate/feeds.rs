//! Runs of calls of the pieces form: a message in its parts, and between them
//! calls that are not taken and must change nothing.

use super::parts::{parts, Cut, CUTS};
use super::random::Random;
use super::Case;
use crate::rules::Check;
use crate::{Rules, State, DOCUMENT};

/// What is called.
#[derive(Debug, Clone, Copy, PartialEq, Eq)]
pub enum What<'m> {
    Start(u32),
    Part(&'m [u8]),
    End,
}

/// One call, with the lengths in octets of all that is lent.
#[derive(Debug, Clone, Copy, PartialEq, Eq)]
pub struct Call<'m> {
    pub what: What<'m>,
    pub state: usize,
    pub table: usize,
    pub five: usize,
}

/// All calls on one state and one table, which is longer than any of them lends.
#[derive(Debug, Clone, PartialEq, Eq)]
pub struct Feed<'m> {
    pub calls: Vec<Call<'m>>,
}

/// What a call answered and left.
#[derive(Debug, Clone, PartialEq, Eq)]
pub struct Left {
    pub code: u16,
    pub five: Vec<u8>,
    /// The table after a start and after an end. After a part it is in use: then
    /// this is what may not be written, its odd last octet and all that was not
    /// lent. Of a call that is not taken `is_as_before` says all.
    pub table: Vec<u8>,
    /// Was the call not taken, and is no octet of the table another than before?
    pub is_as_before: bool,
}

/// Octets of the table past the longest that a call lends.
const PAST: usize = 3;
/// Lengths for the five numbers.
const FIVES: [usize; 5] = [10, 10, 13, 9, 0];
/// The code of a call that is not taken.
const NOT_TAKEN: u16 = Check::Ended as u16;
/// How many calls at most are put between others.
const MOST_BETWEEN: usize = 4;

impl Case {
    /// The calls of one trial, of a table that is long enough in every second. The
    /// case comes twice, cut otherwise the second time.
    pub fn feed(&self, seed: u64) -> Feed<'_> {
        let cut = CUTS[seed as usize % CUTS.len()];
        let mut random = Random::new(seed);
        let is_enough = random.percent(50);
        self.feed_cut(cut, is_enough, &mut random)
    }

    /// The same with that cut.
    pub fn feed_cut(&self, cut: Cut, is_enough: bool, random: &mut Random) -> Feed<'_> {
        let mut feed = Feed { calls: Vec::new() };
        let numbers = if is_enough {
            let (need, more) = (self.table_need(), self.table_need_with_insides());
            *random.pick(&[need, need, need + 1, need + 20, more])
        } else {
            *random.pick(&self.table_lengths())
        };
        feed.message(
            self.kind,
            numbers,
            parts(&self.message, cut, random),
            random,
        );
        // What is left of the first must not show in a second message: on
        // another kind, in another table, and begun anew halfway. The table that
        // was in use is no longer than the next, which makes all of it zero.
        let kind = *random.pick(&[self.kind, self.kind, self.kind, 1, 2, 3, 4]);
        let numbers = *random.pick(&[numbers, self.table_need(), self.table_need() + 7]);
        let again = parts(&self.message, Cut::Chance, random);
        let in_use = numbers - random.below(2).min(numbers);
        feed.start(self.kind, in_use, random);
        for part in again.iter().take(again.len() / 2) {
            feed.part(part, in_use, random);
        }
        feed.message(kind, numbers, again, random);
        feed
    }
}

impl<'m> Feed<'m> {
    /// A message whole, with calls between its own that are not taken.
    fn message(&mut self, kind: u32, numbers: usize, parts: Vec<&'m [u8]>, random: &mut Random) {
        if random.percent(20) {
            self.short_state(kind, numbers, random);
        }
        self.start(kind, numbers, random);
        let chance = (100 * MOST_BETWEEN).div_ceil(parts.len() + 1).min(60);
        for part in parts {
            if random.percent(chance) {
                self.not_taken(kind, numbers, random);
            }
            self.part(part, numbers, random);
        }
        if random.percent(50) {
            self.not_taken(kind, numbers, random);
        }
        self.push(What::End, 2 * numbers, random);
        self.after_the_end(numbers, random);
    }

    fn start(&mut self, kind: u32, numbers: usize, random: &mut Random) {
        self.push(What::Start(kind), 2 * numbers, random);
    }

    fn part(&mut self, part: &'m [u8], numbers: usize, random: &mut Random) {
        self.push(What::Part(part), 2 * numbers, random);
    }

    /// With a state that is long enough, and perhaps an octet that is no number.
    fn push(&mut self, what: What<'m>, table: usize, random: &mut Random) {
        self.calls.push(Call {
            what,
            state: DOCUMENT.sizes.state + *random.pick(&[0, 0, 1, 9]),
            table: table + random.below(2),
            five: *random.pick(&FIVES),
        });
    }

    fn not_taken(&mut self, kind: u32, numbers: usize, random: &mut Random) {
        if random.percent(60) {
            self.other_table(numbers, random);
        } else {
            self.short_state(kind, numbers, random);
        }
    }

    /// A part or an end that lends more or fewer numbers than the start did.
    fn other_table(&mut self, numbers: usize, random: &mut Random) {
        let others = [numbers + 1, numbers + 6, 0, numbers.saturating_sub(1)];
        let others = others.into_iter().filter(|&other| other != numbers);
        let other = *random.pick(&others.collect::<Vec<_>>());
        let what = part_or_end(random);
        self.push(what, 2 * other, random);
    }

    /// Any call with a state that is too short, be it started or not.
    fn short_state(&mut self, kind: u32, numbers: usize, random: &mut Random) {
        let what = part_or_end(random);
        let what = *random.pick(&[what, What::Start(kind)]);
        self.push(what, 2 * numbers, random);
        let state = DOCUMENT.sizes.state;
        if let Some(call) = self.calls.last_mut() {
            call.state = *random.pick(&[state - 1, state / 2, 0]);
        }
    }

    /// A part, an empty part and an end, with the same table and with others.
    fn after_the_end(&mut self, numbers: usize, random: &mut Random) {
        let mut calls = [
            (What::Part(&[0x40][..]), numbers),
            (What::Part(&[][..]), numbers),
            (What::End, numbers),
            (What::End, numbers + 1),
        ];
        random.shuffle(&mut calls);
        for (what, numbers) in calls.into_iter().take(3) {
            self.push(what, 2 * numbers, random);
        }
    }

    /// Octets of the table that is lent from.
    pub fn table_octets(&self) -> usize {
        let lent = self.calls.iter().map(|call| call.table).max();
        lent.unwrap_or_default() + PAST
    }

    /// Makes all calls, each with its part of the table and its five numbers, and
    /// tells what each left.
    pub fn run(&self, mut call: impl FnMut(&Call, &mut [u8], &mut [u8]) -> u16) -> Vec<Left> {
        let mut table = pattern(self.table_octets());
        let mut before = Vec::new();
        let mut all = Vec::with_capacity(self.calls.len());
        for one in &self.calls {
            let mut five = pattern(one.five);
            before.clone_from(&table);
            let code = call(one, &mut table[..one.table], &mut five);
            let from = match one.what {
                _ if code == NOT_TAKEN => table.len(),
                What::Part(_) => one.table / 2 * 2,
                _ => 0,
            };
            all.push(Left {
                code,
                five,
                table: table[from..].to_vec(),
                is_as_before: code == NOT_TAKEN && table == before,
            });
        }
        all
    }

    /// What these rules leave at each call.
    pub fn left_by(&self, rules: &Rules) -> Vec<Left> {
        let mut state = State::default();
        self.run(|call, table, five| match call.what {
            What::Start(kind) => rules.start_octets(kind, &mut state, call.state, table),
            What::Part(part) => rules.part_octets(&mut state, call.state, part, table, five),
            What::End => rules.end_octets(&mut state, call.state, table, five),
        })
    }
}

/// A call that would spoil the message if it were taken.
fn part_or_end(random: &mut Random) -> What<'static> {
    const PARTS: [&[u8]; 3] = [&[], &[0], &[0x48, 66, 0, 8]];
    let part = What::Part(PARTS[random.below(PARTS.len())]);
    *random.pick(&[part, What::End])
}

/// Octets that show whether they were written over; none is zero.
fn pattern(length: usize) -> Vec<u8> {
    (0..length).map(|at| (at % 251) as u8 | 1).collect()
}
