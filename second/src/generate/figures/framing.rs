//! What check 9 pins: octets left at a level, and elements that pass its end.

use super::listed::mandatory_of;
use super::value::Fit;
use super::{is_group, levels, Figures, Level, Which};
use crate::DOCUMENT;

impl Figures {
    pub fn framing(&mut self) {
        for level in levels() {
            for left in DOCUMENT.sizes.remnant.clone() {
                self.left_over(&level, left);
            }
            for more in [1, 2, self.beyond(), -1] {
                self.last_claims(&level, more);
            }
            self.short_before(&level);
        }
    }

    /// Some more octets than two, up to those of the autumn night.
    fn beyond(&self) -> i32 {
        3 + (self.round % 7) as i32
    }

    fn left_over(&mut self, level: &Level, left: usize) {
        let mut draft = self.draft(level.kind, level.message, Which::Groups, Fit::Exact);
        if let Some(run) = draft.body.at(&level.path) {
            run.remnant = self.values.some(&mut self.random, left);
        }
        self.put_edited(level, draft);
    }

    /// A mandatory element is short, and octets are left over after it.
    fn short_before(&mut self, level: &Level) {
        let mut mandatory = mandatory_of(level.listing, level.kind);
        mandatory.retain(|listed| !is_group(listed.typ));
        if mandatory.is_empty() {
            return;
        }
        let listed = *self.random.pick(&mandatory);
        let short = self.freely(listed, Fit::Short);
        let mut draft = self.with(level, listed, vec![short]);
        if let Some(run) = draft.body.at(&level.path) {
            run.remnant = self.values.some(&mut self.random, 1);
        }
        self.put_edited(level, draft);
    }

    /// The last element of the level claims so many octets more than it has.
    fn last_claims(&mut self, level: &Level, more: i32) {
        let mut draft = self.draft(level.kind, level.message, Which::Groups, Fit::Over);
        let run = draft.body.at(&level.path);
        if let Some(last) = run.and_then(|run| run.elements.last_mut()) {
            last.off = more;
        }
        self.put_edited(level, draft);
    }
}
