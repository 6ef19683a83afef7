//! Each figure of the rules is pinned by the gate's own comparisons: whatever
//! single figure is changed, at least ten of the messages (or lookups, builds, or
//! messages in parts) that the proved programs are compared on get another answer. So a fault that
//! stood in the proved code and in its definition alike would be seen.

use std::collections::BTreeMap;
use std::thread;

use crate::changes::{changes, Bears, Change, Shown};
use second::generate::{builds, figures, lends, Buffers, Build, Case, Generator, Lookup, Rooms};
use second::{Rules, DOCUMENT};

const AT_LEAST: usize = 10;
/// No more are counted.
const PLENTY: usize = 50;

/// What the gate compares, with the answers by the document's figures.
struct Gate {
    cases: Vec<Compared>,
    /// The cases for the order of the refusals, once with each of their buffers.
    lends: Vec<Lent>,
    /// The numbers of the cases with a row of a type, by type.
    with_type: Vec<Vec<usize>>,
    inputs: Vec<(Vec<u8>, String)>,
    lookups: Vec<Lookup>,
    builds: Vec<Built>,
}

struct Compared {
    case: Case,
    buffers: [Buffers; 3],
    answers: [Vec<u8>; 3],
    /// The standings that rows of a type have, a bit each, by type.
    standings: [u8; 256],
}

struct Lent {
    case: Case,
    lent: Buffers,
    answer: Vec<u8>,
}

struct Built {
    build: Build,
    lent: [Rooms; 2],
    answers: [Vec<u8>; 2],
}

/// What a call writes into two buffers of these lengths, of 0xEE at first, and
/// the code that it answers.
fn left_by(lengths: [usize; 2], call: impl FnOnce(&mut [u8], &mut [u8]) -> u16) -> Vec<u8> {
    let mut octets = vec![0xEE; lengths[0] + lengths[1]];
    let (first, second) = octets.split_at_mut(lengths[0]);
    let code = call(first, second);
    octets.extend(code.to_be_bytes());
    octets
}

/// All that judge and copy in one call answers and writes.
fn judged(rules: &Rules, case: &Case, lent: &Buffers) -> Vec<u8> {
    let Case { kind, message } = case;
    let buffers = lent.table + lent.copy;
    left_by([buffers, lent.five], |buffers, five| {
        let (table, copy) = buffers.split_at_mut(lent.table);
        rules.judge_copy_octets(*kind, message, table, copy, five)
    })
}

/// The same, and all that the cleaner does.
fn answer(rules: &Rules, case: &Case, lent: &Buffers) -> Vec<u8> {
    let Case { kind, message } = case;
    let cleaned = left_by([lent.clean, lent.answer], |clean, answer| {
        rules.clean_octets(*kind, message, clean, answer)
    });
    [judged(rules, case, lent), cleaned].concat()
}

/// All that the number of rows answers and writes.
fn rows_told(rules: &Rules, case: &Case, octets: usize) -> Vec<u8> {
    left_by([octets, 0], |answer, _| {
        rules.count_rows_octets(case.kind, &case.message, answer)
    })
}

/// All that the builder answers and writes.
fn built(rules: &Rules, build: &Build, lent: &Rooms) -> Vec<u8> {
    let table = build.table_octets(lent.table);
    left_by([lent.room, lent.answer], |room, answer| {
        rules.build_octets(build.head, &table, &build.values, room, answer)
    })
}

impl Built {
    fn new((seed, build): (usize, Build)) -> Self {
        let lent = build.lent(seed as u64);
        let answers = lent.map(|lent| built(&DOCUMENT, &build, &lent));
        Self {
            build,
            lent,
            answers,
        }
    }

    fn differs(&self, rules: &Rules) -> bool {
        let mut trials = self.lent.iter().zip(&self.answers);
        trials.any(|(lent, expected)| built(rules, &self.build, lent) != *expected)
    }
}

impl Compared {
    fn new(seed: usize, case: Case) -> Self {
        let buffers = case.buffers(seed as u64);
        let answers = buffers.map(|lent| answer(&DOCUMENT, &case, &lent));
        let mut standings = [0; 256];
        for row in DOCUMENT.rows(case.kind, &case.message).unwrap_or_default() {
            standings[usize::from(row.typ)] |= 1 << row.standing as usize;
        }
        Self {
            case,
            buffers,
            answers,
            standings,
        }
    }

    fn bears(&self, bears: Bears) -> bool {
        let is_message = |message| self.case.message.get(1) == Some(&message);
        let has_row = |typ: u8| match (self.standings[usize::from(typ)], bears.standing) {
            (standings, None) => standings != 0,
            (standings, Some(standing)) => standings >> standing & 1 != 0,
        };
        bears.message.is_none_or(is_message) && bears.typ.is_none_or(has_row)
    }

    /// Is some answer another? What listings and types say shows with buffers
    /// that are large enough; only other figures may need the other trials.
    fn differs(&self, change: &Change) -> bool {
        let trials = if change.bears == Bears::default() {
            3
        } else {
            1
        };
        let mut trials = self.buffers.iter().zip(&self.answers).take(trials);
        trials.any(|(lent, expected)| answer(&change.rules, &self.case, lent) != *expected)
    }
}

impl Lent {
    fn new(case: &Case, lent: Buffers) -> Self {
        Self {
            case: case.clone(),
            lent,
            answer: judged(&DOCUMENT, case, &lent),
        }
    }
}

impl Gate {
    fn new() -> Self {
        let cases = figures().into_iter().enumerate();
        let cases = cases.map(|(seed, case)| Compared::new(seed, case));
        // The seeds and counts are those of .ci/programs and .ci/lookups.
        let inputs = Generator::new(5).inputs(400);
        let inputs = inputs.iter().filter_map(Case::input);
        let mut generator = Generator::new(1);
        let lookups = (0..20_000).map(|_| generator.lookup());
        let cases = cases.collect::<Vec<_>>();
        let with_type = (0..256).map(|typ| {
            let has = |number: &usize| cases[*number].standings[typ] != 0;
            (0..cases.len()).filter(has).collect()
        });
        let each = |(case, lent): (Case, Vec<Buffers>)| {
            let lent = lent.into_iter();
            lent.map(|lent| Lent::new(&case, lent)).collect::<Vec<_>>()
        };
        Self {
            with_type: with_type.collect(),
            cases,
            lends: lends().into_iter().flat_map(each).collect(),
            inputs: inputs
                .map(|input| (input.clone(), DOCUMENT.program(&input)))
                .collect(),
            lookups: lookups.collect(),
            builds: builds().into_iter().enumerate().map(Built::new).collect(),
        }
    }

    /// On how many messages, inputs or lookups a change shows: the least count
    /// over the comparisons that have to show it.
    fn count(&self, change: &Change) -> usize {
        let counts = change.shown.iter().map(|shown| match shown {
            Shown::Octets => self.octets(change),
            Shown::Lends => self.lends(&change.rules),
            Shown::Program => self.program(&change.rules),
            Shown::Lookups => self.lookups(&change.rules),
            Shown::Builds => self.builds(&change.rules),
            Shown::Pieces => self.pieces(&change.rules),
            Shown::Rows => self.rows(change),
        });
        counts.min().expect("some comparison has to show it")
    }

    fn octets(&self, change: &Change) -> usize {
        let differs = |case: &&Compared| case.bears(change.bears) && case.differs(change);
        match change.bears.typ {
            Some(typ) => {
                let numbers = self.with_type[usize::from(typ)].iter();
                let cases = numbers.map(|&number| &self.cases[number]);
                cases.filter(differs).take(PLENTY).count()
            }
            None => self.cases.iter().filter(differs).take(PLENTY).count(),
        }
    }

    /// The call alone, over the cases for the order of its refusals.
    fn lends(&self, rules: &Rules) -> usize {
        let differs = |one: &&Lent| judged(rules, &one.case, &one.lent) != one.answer;
        self.lends.iter().filter(differs).take(PLENTY).count()
    }

    fn program(&self, rules: &Rules) -> usize {
        let differs = |(input, text): &&(Vec<u8>, String)| rules.program(input) != *text;
        self.inputs.iter().filter(differs).count()
    }

    fn builds(&self, rules: &Rules) -> usize {
        let differs = |built: &&Built| built.differs(rules);
        self.builds.iter().filter(differs).take(PLENTY).count()
    }

    /// The number of rows of the same messages, with the answers lent to the cleaner.
    fn rows(&self, change: &Change) -> usize {
        let message = change.bears.message;
        let bears = |case: &&Compared| {
            message.is_none_or(|message| case.case.message.get(1) == Some(&message))
        };
        let differs = |case: &&Compared| {
            let mut lent = case.buffers.iter();
            lent.any(|lent| {
                let told = |rules| rows_told(rules, &case.case, lent.answer);
                told(&change.rules) != told(&DOCUMENT)
            })
        };
        let cases = self.cases.iter().filter(bears);
        cases.filter(differs).take(PLENTY).count()
    }

    /// The same messages in parts, with the seeds that the trials give them.
    fn pieces(&self, rules: &Rules) -> usize {
        let differs = |(seed, case): &(usize, &Compared)| {
            let feed = case.case.feed(*seed as u64);
            feed.left_by(rules) != feed.left_by(&DOCUMENT)
        };
        let cases = self.cases.iter().enumerate();
        cases.filter(differs).take(PLENTY).count()
    }

    fn lookups(&self, rules: &Rules) -> usize {
        let differs = |lookup: &&Lookup| lookup.answer(rules) != lookup.answer(&DOCUMENT);
        self.lookups.iter().filter(differs).count()
    }
}

/// The count of every change, in their order.
fn counts(gate: &Gate, changes: &[Change]) -> Vec<usize> {
    let threads = thread::available_parallelism().map_or(1, usize::from);
    let count = |start: usize| {
        let own = changes.iter().skip(start).step_by(threads);
        own.map(|change| gate.count(change)).collect::<Vec<_>>()
    };
    let mut all = vec![0; changes.len()];
    thread::scope(|scope| {
        let workers = (0..threads).map(|start| scope.spawn(move || count(start)));
        for (start, worker) in workers.collect::<Vec<_>>().into_iter().enumerate() {
            let own = worker.join().expect("no change makes the program fail");
            for (at, count) in own.into_iter().enumerate() {
                all[start + at * threads] = count;
            }
        }
    });
    all
}

/// What came of all changes.
#[derive(Default)]
struct Tally {
    /// How many were tried of a class, and the least count of one.
    pinned: BTreeMap<&'static str, (usize, usize)>,
    /// How many of a class nothing can show, and why.
    silent: BTreeMap<(&'static str, &'static str), usize>,
    wrong: Vec<String>,
}

impl Tally {
    fn note(&mut self, change: &Change, count: usize) {
        let Change { class, name, .. } = change;
        match change.silent {
            Some(why) => {
                *self.silent.entry((class, why)).or_default() += 1;
                if count > 0 {
                    self.wrong
                        .push(format!("{class}: {name}: shows all the same"));
                }
            }
            None => {
                let (tried, least) = self.pinned.entry(class).or_insert((0, PLENTY));
                (*tried, *least) = (*tried + 1, count.min(*least));
                if count < AT_LEAST {
                    self.wrong.push(format!("{class}: {name}: {count}"));
                }
            }
        }
    }

    fn print(&self) {
        for (class, (tried, least)) in &self.pinned {
            println!("{class}: {tried} changes, each on {least} or more");
        }
        for ((class, why), count) in &self.silent {
            println!("{class}: {count} changes that nothing can show: {why}");
        }
    }
}

#[test]
fn every_figure_is_pinned() {
    let gate = Gate::new();
    let (messages, inputs) = (gate.cases.len(), gate.inputs.len());
    let (lookups, builds) = (gate.lookups.len(), gate.builds.len());
    let lends = gate.lends.len();
    println!("{messages} messages, {lends} lends, {inputs} inputs");
    println!("{lookups} lookups, {builds} builds");
    let changes = changes();
    let mut tally = Tally::default();
    for (change, count) in changes.iter().zip(counts(&gate, &changes)) {
        tally.note(change, count);
    }
    tally.print();
    let wrong = &tally.wrong;
    assert!(wrong.is_empty(), "not pinned:\n{}", wrong.join("\n"));
}
