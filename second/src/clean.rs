//! The cleaner: a copy without the elements set aside, at all levels.
//!
//! It does not go by the rows of the walk. It takes the octets of one level and
//! answers them anew, those of a kept group by asking the same of its value: so
//! each length is that of what came out.

use std::borrow::Cow;

use crate::checks::{fault, Header};
use crate::framing::{self, Broken};
use crate::rules::{Check, Listed, Rules};
use crate::verdict::Answer;
use crate::walk::{Level, Walk};

impl Rules {
    /// Writes the cleaned copy of a message. Nothing is written on a refusal, and
    /// octets past the copy stay.
    pub fn clean(&self, kind: u32, message: &[u8], clean: &mut [u8]) -> Answer {
        let mut cleaned = Vec::new();
        let lent = |_: &Walk| {
            cleaned = self.cleaned(kind, message).unwrap_or_default();
            fault(Check::CopyRoom, clean.len() < cleaned.len())
        };
        let checked = self.checked(&self.checks.clean, kind, message, lent);
        if let Err(refusal) = checked.accepted() {
            return Answer::refused(refusal);
        }
        clean[..cleaned.len()].copy_from_slice(&cleaned);
        Answer::written(&cleaned)
    }

    /// The message without what is set aside, also where 11 or 12 refuse it;
    /// nothing where its framing is broken.
    pub fn cleaned(&self, kind: u32, message: &[u8]) -> Option<Vec<u8>> {
        let header = Header::new(self, kind, message);
        let (head, body) = message.split_at_checked(header.body)?;
        let body = self.rewritten(kind, header.listing(), body).ok()?;
        let mut cleaned = [head, &body].concat();
        let following = cleaned.len() - self.sizes.uncounted;
        put_length(cleaned.get_mut(2..4)?, following);
        Some(cleaned)
    }

    /// The octets of a level anew.
    fn rewritten(&self, kind: u32, listing: &[Listed], octets: &[u8]) -> Result<Vec<u8>, Broken> {
        let mut level = Level::new(0, listing);
        let mut anew = Vec::with_capacity(octets.len());
        let mut at = 0;
        while let Some(element) = framing::element(self, octets, at, octets.len())? {
            let value = &octets[element.place..element.end()];
            let stand = level.stand(self, kind, &element, value);
            if self.cleaned[stand.standing as usize] {
                let value = match stand.inside(self) {
                    Some(inside) => Cow::Owned(self.rewritten(kind, inside, value)?),
                    None => Cow::Borrowed(value),
                };
                put_element(&mut anew, &octets[at..element.place], &value);
            }
            at = element.end();
        }
        Ok(anew)
    }
}

/// The element with that header, its length that of this value.
fn put_element(octets: &mut Vec<u8>, header: &[u8], value: &[u8]) {
    let at = octets.len();
    octets.extend(header);
    put_length(&mut octets[at + 1..at + 3], value.len());
    octets.extend(value);
}

fn put_length(field: &mut [u8], length: usize) {
    field.copy_from_slice(&(length as u16).to_be_bytes());
}
