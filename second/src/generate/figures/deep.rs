//! What levels inside levels inside the body pin: each line by itself at each level
//! of a message that goes so deep, and such a message cut anywhere.

use super::listed::mandatory_of;
use super::value::Fit;
use super::{is_group, levels, Figures, Level, Which};
use crate::generate::draft::{mend_length, Value};
use crate::generate::Case;
use crate::rules::{Listed, Message};
use crate::DOCUMENT;

/// Of so many places where a message can be cut, one in each round.
const APART: usize = 12;

/// Does the message list a group in a group?
fn is_deep(message: &Message) -> bool {
    let inner = message.body.iter().flat_map(|listed| &listed.inside);
    inner.into_iter().any(|listed| is_group(listed.typ))
}

impl Figures {
    pub fn deep(&mut self) {
        for level in levels().iter().filter(|level| is_deep(level.message)) {
            for listed in level.listing {
                self.by_itself(level, listed);
            }
            if level.path.len() > 1 {
                self.faults_at_two_depths(level);
            }
        }
        for message in DOCUMENT.messages.iter().filter(|message| is_deep(message)) {
            for kind in message.kinds.each() {
                self.cut_anywhere(kind, message);
            }
        }
    }

    /// A line short, twice, and its type with an instance that is not listed, in an
    /// otherwise good message.
    fn by_itself(&mut self, level: &Level, listed: &'static Listed) {
        let elements = match is_group(listed.typ) {
            true => {
                let kind = level.kind;
                let good = self.element(kind, listed, Which::Mandatory, Fit::Exact);
                vec![vec![good.clone(), good]]
            }
            false => vec![
                vec![self.freely(listed, Fit::Short)],
                vec![
                    self.freely(listed, Fit::Exact),
                    self.freely(listed, Fit::Over),
                ],
            ],
        };
        for elements in elements {
            let draft = self.with(level, listed, elements);
            self.put_edited(level, draft);
        }
        let mut draft = self.draft(level.kind, level.message, Which::Groups, Fit::Exact);
        let stranger = self.of_no_line(level.listing, listed.typ);
        if let Some(run) = draft.body.at(&level.path) {
            let at = self.random.between(0, run.elements.len());
            run.elements.splice(at..at, stranger);
        }
        self.put_edited(level, draft);
    }

    /// Something that the level must have is left out or short, and something that a
    /// level around it must have, or that group's next sibling, behind it or before.
    fn faults_at_two_depths(&mut self, level: &Level) {
        let kind = level.kind;
        let own = self.some_mandatory(level.listing, kind);
        let outermost = level.around()[0];
        let wanted = mandatory_of(&outermost.inside, kind);
        for is_behind in [true, false] {
            let missing = *self.random.pick(&wanted);
            let mut other = self.element(kind, outermost, Which::Mandatory, Fit::Exact);
            if let Value::Group(run) = &mut other.value {
                run.elements.retain(|e| !missing.is(e.typ, e.inst));
            }
            let mut draft = self.with(level, own, Vec::new());
            let at = if is_behind {
                draft.body.elements.len()
            } else {
                0
            };
            draft.body.elements.insert(at, other);
            self.put(kind, &draft);
        }
        let listings = level.around().into_iter().map(|group| &group.inside);
        let listings = [&level.message.body].into_iter().chain(listings);
        for (depth, listing) in listings.enumerate().take(level.path.len()) {
            let outer = self.some_mandatory(listing, kind);
            for is_behind in [true, false] {
                let short = self.freely(own, Fit::Short);
                let mut draft = self.with(level, own, vec![short]);
                let short = self.freely(outer, Fit::Short);
                if let Some(run) = draft.body.at(&level.path[..depth]) {
                    run.elements.retain(|e| !outer.is(e.typ, e.inst));
                    let at = if is_behind { run.elements.len() } else { 0 };
                    run.elements.insert(at, short);
                }
                self.put(kind, &draft);
            }
        }
    }

    /// A mandatory line that is no group's.
    fn some_mandatory(&mut self, listing: &'static [Listed], kind: u32) -> &'static Listed {
        let mut mandatory = mandatory_of(listing, kind);
        mandatory.retain(|listed| !is_group(listed.typ));
        mandatory[self.random.below(mandatory.len())]
    }

    /// A good message cut at some of its places, with a header that knows of it: what
    /// claims more than is left is the outermost that was cut.
    fn cut_anywhere(&mut self, kind: u32, message: &'static Message) {
        let draft = self.draft(kind, message, Which::All, Fit::Over);
        let octets = draft.octets(&mut self.random);
        let header = DOCUMENT.sizes.body[usize::from(message.teid)];
        for place in (header + self.round..octets.len()).step_by(APART) {
            let mut message = octets[..place].to_vec();
            mend_length(&mut message);
            self.cases.push(Case { kind, message });
        }
    }
}
