//! The listings as text, one line a listed pair.

use std::fmt;

use crate::rules::{Inst, Listed, Message, Rules};

/// One listed pair with the message and the level it is listed at.
#[derive(Debug, Clone, Copy)]
pub struct Line<'r> {
    pub message: u8,
    /// Type and instance of the group, or nothing for the body. Of groups in
    /// groups it is the innermost: no message lists one pair's inside twice.
    pub level: Option<(u8, Inst)>,
    pub listed: &'r Listed,
}

impl Rules {
    /// Every line of every listing: messages ascending, the body before its groups.
    pub fn lines(&self) -> Vec<Line<'_>> {
        self.messages.iter().flat_map(Message::lines).collect()
    }
}

impl Message {
    /// The lines of this message alone.
    pub fn lines(&self) -> Vec<Line<'_>> {
        let mut lines = Vec::new();
        push_lines(&mut lines, self.typ, None, &self.body);
        lines
    }
}

fn push_lines<'r>(
    lines: &mut Vec<Line<'r>>,
    message: u8,
    level: Option<(u8, Inst)>,
    listing: &'r [Listed],
) {
    lines.extend(listing.iter().map(|listed| Line {
        message,
        level,
        listed,
    }));
    for group in listing.iter().filter(|listed| !listed.inside.is_empty()) {
        push_lines(lines, message, Some((group.typ, group.inst)), &group.inside);
    }
}

impl fmt::Display for Message {
    /// `MESSAGE T 0|1 KINDS`.
    fn fmt(&self, f: &mut fmt::Formatter) -> fmt::Result {
        write!(f, "{} T {} {}", self.typ, u8::from(self.teid), self.kinds)
    }
}

impl fmt::Display for Line<'_> {
    /// `MESSAGE LEVEL TYPE/INSTANCE M|- *|- KINDS`, and ` most N` where more would void the group.
    fn fmt(&self, f: &mut fmt::Formatter) -> fmt::Result {
        match self.level {
            None => write!(f, "{} body", self.message)?,
            Some((typ, inst)) => write!(f, "{} {typ}/{inst}", self.message)?,
        }
        let Listed {
            typ, inst, kinds, ..
        } = self.listed;
        let mandatory = if self.listed.mandatory { 'M' } else { '-' };
        let many = if self.listed.many { '*' } else { '-' };
        write!(f, " {typ}/{inst} {mandatory} {many} {kinds}")?;
        match self.listed.most {
            None => Ok(()),
            Some(most) => write!(f, " most {most}"),
        }
    }
}
