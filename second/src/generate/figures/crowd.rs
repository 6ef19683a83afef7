//! What needs many elements or many octets: the types that are listed nowhere,
//! the table's rows and the longest message.

use super::value::Fit;
use super::{levels, Figures, Which};
use crate::generate::draft::{mend_length, Draft, Element, Run};
use crate::generate::Case;
use crate::DOCUMENT;

/// So many unexpected elements go into one message.
const CROWD: usize = 64;

impl Figures {
    pub fn crowds(&mut self) {
        for inner in [false, true] {
            for first in (0..256).step_by(CROWD) {
                self.unexpected(inner, first);
            }
        }
        for count in CROWD - 2..=CROWD + 2 {
            self.rows(count, 0);
        }
        let longest = DOCUMENT.sizes.longest;
        for length in [longest - 1, longest, longest + 1] {
            self.filled(length);
        }
        let most = DOCUMENT.sizes.most_rows;
        self.rows(most, 0);
        self.rows(most - 1, 1 + self.round % 4);
    }

    /// An element for each of so many types, none of them listed at the level.
    fn unexpected(&mut self, inner: bool, first: usize) {
        let levels = levels().into_iter();
        let levels = levels.filter(|level| level.path.is_empty() != inner);
        let levels = levels.collect::<Vec<_>>();
        let level = &levels[self.random.below(levels.len())];
        let mut draft = self.draft(level.kind, level.message, Which::Groups, Fit::Exact);
        let crowd = (first..first + CROWD)
            .filter_map(|typ| self.of_no_line(level.listing, typ as u8))
            .collect::<Vec<_>>();
        if let Some(run) = draft.body.at(&level.path) {
            let at = self.random.between(0, run.elements.len());
            run.elements.splice(at..at, crowd);
        }
        self.put(level.kind, &draft);
    }

    /// An echo of so many elements, the first with a value of `first` octets.
    fn rows(&mut self, count: usize, first: usize) {
        let message = self.random.pick(&DOCUMENT.messages[..2]);
        let typ = *self.random.pick(&[3, 93, 109, 152, 180, 200, 255]);
        let value = self.values.some(&mut self.random, first);
        let mut elements = vec![Element::plain(3, 0, value)];
        elements.resize(count, Element::plain(typ, 0, Vec::new()));
        let body = Run {
            elements,
            remnant: Vec::new(),
        };
        let kind = self.random.kind();
        self.put(kind, &Draft { message, body });
    }

    /// A good message with a private extension that makes it so long.
    fn filled(&mut self, length: usize) {
        let message = self.random.pick(&DOCUMENT.messages);
        let kind = self.random.kind_of(message);
        let draft = self.draft(kind, message, Which::All, Fit::Exact);
        let mut message = draft.octets(&mut self.random);
        let rest = length - message.len() - 4;
        message.extend([255, (rest / 256) as u8, (rest % 256) as u8, 0]);
        message.extend(self.values.some(&mut self.random, rest));
        mend_length(&mut message);
        self.cases.push(Case { kind, message });
    }
}
