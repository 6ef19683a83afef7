//! Messages that pin the figures of the rules: for each figure there are some
//! on which a program that has it wrong by one answers otherwise. They come in
//! rounds; each round has every shape once, filled and mixed by chance.

mod crowd;
mod deep;
mod framing;
mod header;
mod listed;
mod overload;
mod value;

use super::draft::{Draft, Element, Run, Value};
use super::random::Random;
use super::Case;
use crate::rules::{Kinds, Listed, Message};
use crate::DOCUMENT;
use value::{Fit, Values};

/// A figure that one shape pins is shown wrong by so many messages at least.
const ROUNDS: usize = 12;
const SEED: u64 = 29_274;

/// All of them, the same at every call.
pub fn figures() -> Vec<Case> {
    let mut figures = Figures {
        random: Random::new(SEED),
        values: Values::default(),
        round: 0,
        cases: Vec::new(),
    };
    for round in 0..ROUNDS {
        figures.round = round;
        figures.listed();
        figures.framing();
        figures.headers();
        figures.crowds();
        figures.overloads();
        figures.deep();
    }
    figures.cases
}

struct Figures {
    random: Random,
    values: Values,
    round: usize,
    cases: Vec<Case>,
}

/// Which lines of a listing stand in a message.
#[derive(Clone, Copy, PartialEq, Eq)]
enum Which {
    Mandatory,
    /// Those, and every group.
    Groups,
    /// All that the kind lists.
    All,
    /// Those of other kinds too, and with each line its type with an instance
    /// that no line has.
    Foreign,
}

/// The pairs of the groups around a level; none for the body.
type Path = Vec<(u8, u8)>;

/// A level of a message on a kind that enters it.
struct Level {
    message: &'static Message,
    kind: u32,
    path: Path,
    listing: &'static [Listed],
}

impl Level {
    /// The lines of the groups around it, from the outermost on.
    fn around(&self) -> Vec<&'static Listed> {
        let mut listing = &self.message.body[..];
        let mut around = Vec::new();
        for &(typ, inst) in &self.path {
            let group = listing.iter().find(|listed| listed.is(typ, inst));
            let group = group.expect("a level's groups are listed");
            around.push(group);
            listing = &group.inside;
        }
        around
    }

    fn is_listed(&self, listed: &Listed) -> bool {
        listed.kinds.has(self.kind)
    }
}

/// Every level of every message on every kind that it is on.
fn levels() -> Vec<Level> {
    let mut levels = Vec::new();
    for message in &DOCUMENT.messages {
        for kind in turns(message) {
            push_levels(&mut levels, message, kind, Vec::new(), &message.body);
        }
    }
    levels
}

/// The kinds of a message in their turns. One that is on fewer kinds than most is on
/// each of them as often.
fn turns(message: &Message) -> Vec<u32> {
    const MOST: usize = 3;
    let kinds = message.kinds.each();
    let count = kinds.len().max(MOST);
    kinds.cycle().take(count).collect()
}

fn push_levels(
    levels: &mut Vec<Level>,
    message: &'static Message,
    kind: u32,
    path: Path,
    listing: &'static [Listed],
) {
    levels.push(Level {
        message,
        kind,
        path: path.clone(),
        listing,
    });
    let groups = listing.iter().filter(|listed| is_group(listed.typ));
    for group in groups.filter(|group| group.kinds.has(kind)) {
        let mut path = path.clone();
        path.push((group.typ, group.inst.number()));
        push_levels(levels, message, kind, path, &group.inside);
    }
}

fn is_group(typ: u8) -> bool {
    DOCUMENT.facts(typ).group
}

impl Figures {
    /// A message with these lines at every level, optional ones of that fit.
    fn draft(&mut self, kind: u32, message: &'static Message, which: Which, fit: Fit) -> Draft {
        let body = self.run(kind, &message.body, which, fit);
        Draft { message, body }
    }

    fn run(&mut self, kind: u32, listing: &'static [Listed], which: Which, fit: Fit) -> Run {
        let mut run = Run::default();
        for listed in listing.iter().filter(|listed| stands(listed, kind, which)) {
            run.elements.push(self.element(kind, listed, which, fit));
            if which == Which::Foreign {
                run.elements.extend(self.of_no_line(listing, listed.typ));
            }
        }
        run
    }

    /// The element of a line. A mandatory one is not made short.
    fn element(&mut self, kind: u32, listed: &'static Listed, which: Which, fit: Fit) -> Element {
        let mut element = self.plain(listed, fit);
        if is_group(listed.typ) {
            element.value = Value::Group(self.run(kind, &listed.inside, which, fit));
        }
        element
    }

    fn plain(&mut self, listed: &Listed, fit: Fit) -> Element {
        let fit = match fit {
            Fit::Short if listed.mandatory => Fit::Exact,
            fit => fit,
        };
        let inst = self.values.instance(&mut self.random, listed.inst);
        let value = self.values.next(&mut self.random, listed.typ, fit);
        Element {
            spare: self.random.octet() & 0xF0,
            ..Element::plain(listed.typ, inst, value)
        }
    }

    /// An element of that type with an instance that the listing has on no kind.
    fn of_no_line(&mut self, listing: &[Listed], typ: u8) -> Option<Element> {
        let is_free = |inst: &u8| !listing.iter().any(|listed| listed.is(typ, *inst));
        let free = (0..16).filter(is_free).collect::<Vec<_>>();
        if free.is_empty() {
            return None;
        }
        let inst = *self.random.pick(&free);
        let value = self.values.some(&mut self.random, 3);
        Some(Element::plain(typ, inst, value))
    }

    /// Puts a message down in which one level was edited; in every other round
    /// a good group stands before the edited one, and before each group around it,
    /// where it may.
    fn put_edited(&mut self, level: &Level, mut draft: Draft) {
        let around = if self.odd_round() {
            level.around()
        } else {
            Vec::new()
        };
        // From the innermost on, since a good one is then the first of its pair.
        for (depth, group) in around.iter().enumerate().rev() {
            if !group.many || !level.is_listed(group) {
                continue;
            }
            let good = self.element(level.kind, group, Which::Groups, Fit::Exact);
            if let Some(run) = draft.body.at(&level.path[..depth]) {
                run.elements.insert(0, good);
            }
        }
        self.put(level.kind, &draft);
    }

    fn odd_round(&self) -> bool {
        self.round % 2 == 1
    }

    /// Puts the message down as a case.
    fn put(&mut self, kind: u32, draft: &Draft) {
        let message = draft.octets(&mut self.random);
        self.cases.push(Case { kind, message });
    }
}

fn stands(listed: &Listed, kind: u32, which: Which) -> bool {
    let here = listed.kinds.has(kind);
    match which {
        Which::Mandatory => here && listed.mandatory,
        Which::Groups => here && (listed.mandatory || is_group(listed.typ)),
        Which::All => here,
        Which::Foreign => listed.kinds != Kinds(0),
    }
}
