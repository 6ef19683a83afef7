//! What the listings pin: lines, least lengths and standings.

use super::value::{beside, classes, first_octet, Fit, FITS};
use super::{is_group, levels, turns, Figures, Level, Which};
use crate::generate::draft::{Draft, Element, Value};
use crate::rules::{position, Least, Listed};
use crate::DOCUMENT;

impl Figures {
    pub fn listed(&mut self) {
        for message in &DOCUMENT.messages {
            for kind in turns(message) {
                for (which, fit) in WHOLE {
                    let mut draft = self.draft(kind, message, which, fit);
                    if self.odd_round() {
                        self.random.shuffle(&mut draft.body.elements);
                    }
                    self.put(kind, &draft);
                }
                for fits in TWICE {
                    let mut draft = self.draft(kind, message, Which::All, fits.0);
                    self.repeat(&mut draft.body.elements, &message.body, fits);
                    self.put(kind, &draft);
                }
            }
        }
        for level in levels() {
            self.missing(&level);
            self.short(&level);
            self.strangers(&level);
            self.by_first_octet(&level);
        }
    }

    /// Gives every element of a level and of its groups a second one, right
    /// after it or at the level's end.
    fn repeat(
        &mut self,
        elements: &mut Vec<Element>,
        listing: &'static [Listed],
        fits: (Fit, Fit),
    ) {
        let firsts = std::mem::take(elements);
        let mut later = Vec::new();
        for mut first in firsts {
            let mut lines = listing.iter();
            let listed = lines.find(|listed| listed.is(first.typ, first.inst));
            let listed = listed.expect("it was made from a line");
            let mut second = match &mut first.value {
                Value::Group(run) => {
                    self.repeat(&mut run.elements, &listed.inside, fits);
                    first.clone()
                }
                Value::Plain(_) => Element {
                    inst: first.inst,
                    ..self.freely(listed, fits.1)
                },
            };
            second.spare = self.random.octet() & 0xF0;
            elements.push(first);
            match self.odd_round() {
                true => later.push(second),
                false => elements.push(second),
            }
        }
        elements.extend(later);
    }

    /// The element of a line, short also where the line is mandatory.
    pub fn freely(&mut self, listed: &Listed, fit: Fit) -> Element {
        let inst = listed.inst.number();
        let value = self.values.next(&mut self.random, listed.typ, fit);
        Element::plain(listed.typ, inst, value)
    }

    /// Mandatory lines left out: one, two that follow each other, and all; in a
    /// group also with all of some level's around it left out.
    fn missing(&mut self, level: &Level) {
        let mandatory = mandatory_of(level.listing, level.kind);
        for at in 0..mandatory.len() {
            for until in at + 1..=mandatory.len().min(at + 2) {
                let draft = self.without(level, &mandatory[at..until]);
                self.put_edited(level, draft);
            }
        }
        let draft = self.without(level, &mandatory);
        self.put_edited(level, draft.clone());
        self.put_lacking_around(level, &draft);
    }

    /// The message with all that some level around this one demands left out, and
    /// where there are more of these, with that of all of them.
    fn put_lacking_around(&mut self, level: &Level, draft: &Draft) {
        let depths = level.path.len();
        let each = (0..depths).map(|depth| depth..depth + 1);
        let all = (depths > 1).then_some(0..depths);
        for lacking in each.chain(all) {
            let mut draft = draft.clone();
            for depth in lacking {
                leave_out(&mut draft, level, depth);
            }
            self.put_edited(level, draft);
        }
    }

    fn without(&mut self, level: &Level, lines: &[&Listed]) -> Draft {
        let mut draft = self.draft(level.kind, level.message, Which::Groups, Fit::Exact);
        if let Some(run) = draft.body.at(&level.path) {
            let is_left_out = |e: &Element| lines.iter().any(|listed| listed.is(e.typ, e.inst));
            run.elements.retain(|element| !is_left_out(element));
        }
        draft
    }

    /// Mandatory elements that are short: alone, with a good one after, and in a
    /// group with all of some level's around it left out.
    fn short(&mut self, level: &Level) {
        for listed in mandatory_of(level.listing, level.kind) {
            let classes = if is_group(listed.typ) {
                0
            } else {
                classes(listed.typ)
            };
            for class in 0..classes {
                let short = self.of_class(listed, class, Fit::Short);
                let good = self.of_class(listed, class, Fit::Over);
                let draft = self.with(level, listed, vec![short.clone()]);
                self.put_edited(level, draft.clone());
                self.put_lacking_around(level, &draft);
                let draft = self.with(level, listed, vec![short, good]);
                self.put_edited(level, draft);
            }
        }
    }

    /// Every pair that some other level lists, long enough to be kept there.
    fn strangers(&mut self, level: &Level) {
        let mut draft = self.draft(level.kind, level.message, Which::Groups, Fit::Exact);
        let is_strange = |listed: &&Listed| {
            let inst = listed.inst.number();
            position(level.listing, level.kind, listed.typ, inst).is_none()
        };
        let lines = DOCUMENT.lines().into_iter().map(|line| line.listed);
        let mut strangers = Vec::<Element>::new();
        for listed in lines.filter(is_strange) {
            if !strangers.iter().any(|e| listed.is(e.typ, e.inst)) {
                strangers.push(self.freely(listed, Fit::Over));
            }
        }
        if let Some(run) = draft.body.at(&level.path) {
            run.elements.extend(strangers);
        }
        self.put_edited(level, draft);
    }

    /// Each class of the first octet, around its least length.
    fn by_first_octet(&mut self, level: &Level) {
        let bears = |listed: &&Listed| {
            let least = &DOCUMENT.facts(listed.typ).least;
            matches!(least, Least::ByFirst(_)) && level.is_listed(listed)
        };
        for listed in level.listing.iter().filter(bears) {
            for first in self.first_octets(level, listed.typ) {
                for fit in FITS {
                    let element = self.of_first(listed, first, fit);
                    let draft = self.with(level, listed, vec![element]);
                    self.put_edited(level, draft);
                }
            }
            let empty = Element::plain(listed.typ, listed.inst.number(), Vec::new());
            let draft = self.with(level, listed, vec![empty]);
            self.put_edited(level, draft);
        }
    }

    /// The first octets to try: one of each class. Where there are many classes,
    /// a round has them on one kind alone, and twelve rounds have each with each
    /// value of the two top bits on each kind.
    fn first_octets(&mut self, level: &Level, typ: u8) -> Vec<u8> {
        let classes = 0..classes(typ);
        if classes.len() <= FEW_CLASSES {
            let random = &mut self.random;
            return classes
                .map(|class| first_octet(random, typ, class))
                .collect();
        }
        let mut on = level.message.kinds.each();
        let kinds = on.len();
        if on.nth(self.round % kinds) != Some(level.kind) {
            return Vec::new();
        }
        let other = ((self.round / kinds % 4) << 6) as u8;
        classes.map(|class| beside(typ, class, other)).collect()
    }

    fn of_first(&mut self, listed: &Listed, first: u8, fit: Fit) -> Element {
        let random = &mut self.random;
        let value = self.values.of_first(random, listed.typ, first, fit);
        Element::plain(listed.typ, listed.inst.number(), value)
    }

    fn of_class(&mut self, listed: &Listed, class: usize, fit: Fit) -> Element {
        let random = &mut self.random;
        let value = self.values.of_class(random, listed.typ, class, fit);
        Element::plain(listed.typ, listed.inst.number(), value)
    }

    /// A good message with these for the elements of one line.
    pub fn with(&mut self, level: &Level, listed: &Listed, elements: Vec<Element>) -> Draft {
        let mut draft = self.draft(level.kind, level.message, Which::Groups, Fit::Exact);
        if let Some(run) = draft.body.at(&level.path) {
            run.elements.retain(|e| !listed.is(e.typ, e.inst));
            let at = self.random.between(0, run.elements.len());
            run.elements.splice(at..at, elements);
        }
        draft
    }
}

/// Up to so many classes of a first octet are tried on every kind in each round.
const FEW_CLASSES: usize = 8;

/// The lines of a listing that the kind demands.
pub fn mandatory_of(listing: &'static [Listed], kind: u32) -> Vec<&'static Listed> {
    let mandatory = |listed: &&Listed| listed.mandatory && listed.kinds.has(kind);
    listing.iter().filter(mandatory).collect()
}

/// Takes out of the body, or of so deep a group around a level, what it demands,
/// groups excepted.
fn leave_out(draft: &mut Draft, level: &Level, depth: usize) {
    let listing = match depth.checked_sub(1) {
        None => &level.message.body,
        Some(group) => &level.around()[group].inside,
    };
    let mandatory = mandatory_of(listing, level.kind);
    let is_left_out = |e: &Element| mandatory.iter().any(|listed| listed.is(e.typ, e.inst));
    let stays = |e: &Element| is_group(e.typ) || !is_left_out(e);
    if let Some(run) = draft.body.at(&level.path[..depth]) {
        run.elements.retain(stays);
    }
}

const WHOLE: [(Which, Fit); 6] = [
    (Which::Mandatory, Fit::Exact),
    (Which::Groups, Fit::Exact),
    (Which::All, Fit::Exact),
    (Which::All, Fit::Over),
    (Which::All, Fit::Short),
    (Which::Foreign, Fit::Over),
];

/// The fits of an element and of its repeat; a mandatory first is never short.
const TWICE: [(Fit, Fit); 3] = [
    (Fit::Over, Fit::Over),
    (Fit::Over, Fit::Short),
    (Fit::Short, Fit::Over),
];
