//! What a limit pins: groups with about as many elements of its line as it lets
//! them, and with many of other lines, which void nothing.

use super::listed::mandatory_of;
use super::value::Fit;
use super::{is_group, levels, Figures, Level, Which};
use crate::generate::draft::{Draft, Element, Run, Value};
use crate::rules::{position, Listed};
use crate::DOCUMENT;

/// Types that a void group may hold and that are covered otherwise elsewhere.
const COVERED: [u8; 14] = [1, 74, 75, 76, 78, 79, 86, 103, 104, 105, 106, 107, 108, 255];

/// The line of a level that has a limit, and the limit.
fn limit_of(level: &Level) -> Option<(&'static Listed, usize)> {
    let mut lines = level.listing.iter();
    lines.find_map(|listed| Some((listed, listed.most?)))
}

impl Figures {
    pub fn overloads(&mut self) {
        for level in levels().iter().filter(|level| !level.path.is_empty()) {
            match limit_of(level) {
                Some((line, most)) => self.around_the_limit(level, line, most),
                None => self.no_limit(level),
            }
            for listed in level.listing.iter().filter(|listed| listed.most.is_none()) {
                self.many_of(level, listed);
            }
        }
    }

    fn around_the_limit(&mut self, level: &Level, line: &'static Listed, most: usize) {
        for count in most - 1..=most + 3 {
            self.counts(level, line, count);
            self.values_inside(level, line, count);
            self.broken_inside(level, line, count);
        }
        for count in [most, most + 1, most + 2] {
            self.mandatory_inside(level, line, count);
        }
        for count in [most, most + 1] {
            self.siblings(level, line, count);
            self.with_faults_outside(level, line, count);
            self.unlisted(level, line, count);
        }
    }

    /// So many elements of a line.
    fn times(&mut self, listed: &Listed, count: usize, fit: Fit) -> Vec<Element> {
        (0..count).map(|_| self.freely(listed, fit)).collect()
    }

    /// A message whose group has these beside its mandatory elements, each
    /// anywhere among them.
    fn filled_with(&mut self, level: &Level, elements: Vec<Element>) -> Draft {
        let mut draft = self.draft(level.kind, level.message, Which::Groups, Fit::Exact);
        if let Some(run) = draft.body.at(&level.path) {
            for element in elements {
                let at = self.random.between(0, run.elements.len());
                run.elements.insert(at, element);
            }
        }
        draft
    }

    /// All of them good, one of them short, all of them short; fewer of them and
    /// others that do not count.
    fn counts(&mut self, level: &Level, line: &'static Listed, count: usize) {
        for short in [0, 1, count] {
            let mut elements = self.times(line, count - short, Fit::Over);
            elements.extend(self.times(line, short, Fit::Short));
            self.random.shuffle(&mut elements);
            let draft = self.filled_with(level, elements);
            self.put_edited(level, draft);
        }
        let fewer = self.random.between(1, 4);
        let mut elements = self.times(line, count - fewer, Fit::Over);
        for _ in 0..fewer {
            elements.extend(self.of_no_line(level.listing, line.typ));
        }
        let draft = self.filled_with(level, elements);
        self.put_edited(level, draft);
        let mut elements = self.times(line, count - fewer, Fit::Over);
        elements.push(self.holding(line, fewer));
        let draft = self.filled_with(level, elements);
        self.put_edited(level, draft);
    }

    /// A group that holds so many elements of the line.
    fn holding(&mut self, line: &Listed, count: usize) -> Element {
        let run = Run {
            elements: self.times(line, count, Fit::Over),
            remnant: Vec::new(),
        };
        let typ = *self.random.pick(&[93, 109, 180]);
        Element {
            value: Value::Group(run),
            ..Element::plain(typ, 0, Vec::new())
        }
    }

    /// Values of covered types, of one octet and of more, and a group.
    fn values_inside(&mut self, level: &Level, line: &'static Listed, count: usize) {
        let mut elements = self.times(line, count, Fit::Over);
        for typ in COVERED {
            let length = *self.random.pick(&[0, 1, 1, 2, 6]);
            let value = self.values.some(&mut self.random, length);
            elements.push(Element::plain(typ, 0, value));
        }
        elements.push(self.holding(line, 2));
        let draft = self.filled_with(level, elements);
        self.put_edited(level, draft);
    }

    /// Octets left over, and elements that claim more than is left or fewer than
    /// they have; also behind a short mandatory one.
    fn broken_inside(&mut self, level: &Level, line: &'static Listed, count: usize) {
        for left in DOCUMENT.sizes.remnant.clone() {
            let elements = self.times(line, count, Fit::Over);
            let mut draft = self.filled_with(level, elements);
            if let Some(run) = draft.body.at(&level.path) {
                run.remnant = self.values.some(&mut self.random, left);
            }
            self.put_edited(level, draft);
        }
        let beyond = 2 + (self.round % 8) as i32;
        for off in [1, beyond, -1] {
            let elements = self.times(line, count, Fit::Over);
            let mut draft = self.filled_with(level, elements);
            if let Some(run) = draft.body.at(&level.path) {
                let last = run.elements.len() - 1;
                let any = self.random.between(0, last);
                let at = if self.odd_round() { last } else { any };
                run.elements[at].off = off;
            }
            self.put_edited(level, draft);
        }
    }

    /// Each mandatory line of the group left out, short, and short before a good
    /// one; and all of them.
    fn mandatory_inside(&mut self, level: &Level, line: &'static Listed, count: usize) {
        let mandatory = mandatory_of(level.listing, level.kind);
        let each = mandatory.chunks(1);
        for lines in each.chain([&mandatory[..]]) {
            for fits in [&[][..], &[Fit::Short], &[Fit::Short, Fit::Over]] {
                let mut draft = self.with_counted(level, line, count);
                for listed in lines {
                    self.put_in_place(&mut draft, level, listed, fits);
                }
                self.put_edited(level, draft);
            }
        }
    }

    fn with_counted(&mut self, level: &Level, line: &'static Listed, count: usize) -> Draft {
        let elements = self.times(line, count, Fit::Exact);
        self.filled_with(level, elements)
    }

    /// Elements of these fits in place of those of a line.
    fn put_in_place(&mut self, draft: &mut Draft, level: &Level, listed: &Listed, fits: &[Fit]) {
        let fits = fits.iter();
        let elements = fits.map(|&fit| self.freely(listed, fit));
        let elements = elements.collect::<Vec<_>>();
        if let Some(run) = draft.body.at(&level.path) {
            run.elements.retain(|e| !listed.is(e.typ, e.inst));
            let at = self.random.between(0, run.elements.len());
            run.elements.splice(at..at, elements);
        }
    }

    /// The group and a second one after it or before it: a good one, one as full,
    /// one that lacks something, one with something short; and as many elements in
    /// two groups together.
    fn siblings(&mut self, level: &Level, line: &'static Listed, count: usize) {
        let mandatory = mandatory_of(level.listing, level.kind);
        let listed = *self.random.pick(&mandatory);
        let good = self.with_counted(level, line, 2);
        let full = self.with_counted(level, line, count);
        let mut lacking = good.clone();
        self.put_in_place(&mut lacking, level, listed, &[]);
        let mut short = good.clone();
        self.put_in_place(&mut short, level, listed, &[Fit::Short]);
        for other in [good, full, lacking, short] {
            let draft = self.with_counted(level, line, count);
            self.put_both(level, draft.clone(), &other);
            self.put_both(level, other, &draft);
        }
        let [half, rest] = [count / 2, count - count / 2];
        let draft = self.with_counted(level, line, half);
        let other = self.with_counted(level, line, rest);
        self.put_both(level, draft, &other);
    }

    /// Puts the first message down with the group of the second after its own,
    /// somewhere or right behind.
    fn put_both(&mut self, level: &Level, mut draft: Draft, other: &Draft) {
        let (typ, inst) = level.path[0];
        let is_it = |element: &Element| (element.typ, element.inst) == (typ, inst);
        let mut of_other = other.body.elements.iter();
        let second = of_other.find(|element| is_it(element)).cloned();
        let elements = &mut draft.body.elements;
        let first = elements.iter().position(is_it).unwrap_or_default();
        let at = match self.odd_round() {
            true => first + 1,
            false => self.random.between(first + 1, elements.len()),
        };
        elements.splice(at..at, second);
        self.put(level.kind, &draft);
    }

    /// Something mandatory of the body is left out or short, before the group or
    /// behind it.
    fn with_faults_outside(&mut self, level: &Level, line: &'static Listed, count: usize) {
        for listed in mandatory_of(&level.message.body, level.kind) {
            let fits: &[Fit] = match is_group(listed.typ) {
                true => &[],
                false => &[Fit::Short],
            };
            for fits in [&[], fits] {
                let mut draft = self.with_counted(level, line, count);
                // What is mandatory inside is short as well.
                if self.odd_round() {
                    for inner in mandatory_of(level.listing, level.kind) {
                        self.put_in_place(&mut draft, level, inner, &[Fit::Short]);
                    }
                }
                let elements = &mut draft.body.elements;
                elements.retain(|e| !listed.is(e.typ, e.inst));
                for &fit in fits {
                    let short = self.freely(listed, fit);
                    let at = self.random.between(0, draft.body.elements.len());
                    draft.body.elements.insert(at, short);
                }
                self.put(level.kind, &draft);
            }
        }
    }

    /// The group with an instance that this kind does not list, as full.
    fn unlisted(&mut self, level: &Level, line: &'static Listed, count: usize) {
        let mut draft = self.with_counted(level, line, count);
        let (typ, inst) = level.path[0];
        let body = &level.message.body;
        let is_free = |inst: &u8| position(body, level.kind, typ, *inst).is_none();
        let free = (0..16).filter(is_free).collect::<Vec<_>>();
        let any = *self.random.pick(&free);
        let other = *self.random.pick(&[free[0], any]);
        let mut groups = draft.body.elements.iter_mut();
        if let Some(group) = groups.find(|e| (e.typ, e.inst) == (typ, inst)) {
            group.inst = other;
        }
        self.put(level.kind, &draft);
    }

    /// More elements of a line without a limit than any limit lets stand.
    fn many_of(&mut self, level: &Level, listed: &'static Listed) {
        let Some(most) = most() else {
            return;
        };
        let count = most + 1 + self.round % 3;
        let elements = match is_group(listed.typ) {
            true => {
                let kind = level.kind;
                let one = |_| self.element(kind, listed, Which::Mandatory, Fit::Exact);
                (0..count).map(one).collect()
            }
            false => self.times(listed, count, Fit::Over),
        };
        let draft = self.filled_with(level, elements);
        self.put_edited(level, draft);
    }

    /// The same of the line that has a limit elsewhere.
    fn no_limit(&mut self, level: &Level) {
        let lines = DOCUMENT.lines().into_iter().map(|line| line.listed);
        for listed in lines.filter(|listed| listed.most.is_some()) {
            self.many_of(level, listed);
        }
    }
}

/// The largest limit there is.
fn most() -> Option<usize> {
    let lines = DOCUMENT.lines().into_iter();
    lines.filter_map(|line| line.listed.most).max()
}
