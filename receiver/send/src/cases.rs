//! The datagrams, and what the second program says of them.

use second::generate::{Case, Generator};

const SEED: u64 = 2123;
const LONGEST: usize = 5_000;
const LONGEST_MESSAGE: usize = 4_096;
const TABLE_OCTETS: usize = 2 * (6 + 6 * 1_022);
const FIVE_OCTETS: usize = 10;
const ANSWER_OCTETS: usize = 12;
const KINDS: std::ops::RangeInclusive<u32> = 1..=4;
const CODES: usize = 22;
/// Codes that no datagram gets: each port has its kind, the buffers are large enough, and from 14 on they are not of judge and cleaner but 21.
const NEVER: [usize; 10] = [1, 10, 13, 14, 15, 16, 17, 18, 19, 20];

pub type Counts = Vec<usize>;

pub struct Sent {
    pub case: Case,
    judge: [u8; FIVE_OCTETS],
    clean: [u8; ANSWER_OCTETS],
}

impl Sent {
    fn new(case: Case) -> Self {
        let (mut judge, mut clean) = ([0; FIVE_OCTETS], [0; ANSWER_OCTETS]);
        second::judge_copy_octets(case.kind, &case.message, &mut [0; TABLE_OCTETS], &mut [0; LONGEST_MESSAGE], &mut judge);
        second::clean_octets(case.kind, &case.message, &mut [0; LONGEST_MESSAGE], &mut clean);
        Self { case, judge, clean }
    }

    pub fn port(&self) -> usize {
        self.case.kind as usize - 1
    }

    /// Whether it is accepted with an element in a group in a group.
    pub fn is_deep(&self) -> bool {
        let rows = second::DOCUMENT.rows(self.case.kind, &self.case.message).unwrap_or_default();
        self.judge[1] == 0 && rows.iter().any(|row| row.parent != 0 && rows[usize::from(row.parent) - 1].parent != 0)
    }

    pub fn answer(&self) -> Vec<u8> {
        [&self.judge[..], &self.clean].concat()
    }

    /// How long the cleaned copy is.
    pub fn cleaned(&self) -> usize {
        usize::from(u16::from_be_bytes([self.clean[10], self.clean[11]]))
    }
}

/// So many datagrams: those at the edges of size first, then generated ones, and an Echo Request whose cleaned copy is shorter than its
/// masked one.
pub fn cases(count: usize) -> Vec<Sent> {
    let edges = KINDS.flat_map(|kind| edges().map(|message| Case { kind, message }));
    let fits = |case: &Case| KINDS.contains(&case.kind) && case.message.len() <= LONGEST;
    let generated = Generator::new(SEED).filter(fits);
    let last = Case { kind: 1, message: vec![0x40, 1, 0, 15, 0, 0, 1, 0, 3, 0, 1, 0, 7, 200, 0, 2, 0, 1, 2] };
    edges.chain(generated).take(count - 1).chain([last]).map(Sent::new).collect()
}

/// An empty datagram, a good message of 4,096 octets, and the same with octets after it.
fn edges() -> [Vec<u8>; 4] {
    let mut largest = vec![0x40, 1, 0x0F, 0xFC, 0, 0, 1, 0, 3, 0x0F, 0xF4, 0];
    largest.resize(LONGEST_MESSAGE, 7);
    let longer = |length| {
        let mut message = largest.clone();
        message.resize(length, 0);
        message
    };
    [Vec::new(), longer(LONGEST_MESSAGE), longer(LONGEST_MESSAGE + 1), longer(LONGEST)]
}

/// How many of the judge's and of the cleaner's verdicts have each code.
pub fn counts(sent: &[Sent]) -> [Counts; 2] {
    let mut counts = [vec![0; CODES], vec![0; CODES]];
    for one in sent {
        for (count, code) in counts.iter_mut().zip([one.judge[1], one.clean[1]]) {
            count[usize::from(code)] += 1;
        }
    }
    counts
}

/// How many masked copies there are: acceptance leaves one, and 11 and 12 do.
pub fn copies(judge: &[usize]) -> usize {
    judge[0] + judge[11] + judge[12]
}

/// Whether every code was given that judge and cleaner can give here.
pub fn all_reached(counts: &[usize]) -> bool {
    (0..CODES).all(|code| NEVER.contains(&code) == (counts[code] == 0))
}
