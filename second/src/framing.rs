//! Framing of the elements at one level.

use crate::rules::Rules;

pub const ELEMENT_HEADER: usize = 4;

/// One element as its header describes it.
#[derive(Debug, Clone, Copy)]
pub struct Element {
    pub typ: u8,
    pub inst: u8,
    /// Where the value stands in the message.
    pub place: usize,
    pub length: usize,
}

impl Element {
    pub fn end(&self) -> usize {
        self.place + self.length
    }
}

/// The framing of a level is broken here.
#[derive(Debug, Clone, Copy)]
pub struct Broken(pub usize);

/// The element at `at` of a level that ends at `end`, or none if the level is
/// over. An element is measured against its own level's end alone.
pub fn element(
    rules: &Rules,
    message: &[u8],
    at: usize,
    end: usize,
) -> Result<Option<Element>, Broken> {
    let left = message.get(at..end).unwrap_or_default();
    let (fewest, most) = (*rules.sizes.remnant.start(), *rules.sizes.remnant.end());
    if left.len() <= most && left.len() >= fewest {
        return Err(Broken(at));
    }
    let &[typ, high, low, inst, ref value @ ..] = left else {
        return Ok(None);
    };
    let length = usize::from(u16::from_be_bytes([high, low]));
    if length > value.len() {
        return Err(Broken(at));
    }
    Ok(Some(Element {
        typ,
        inst: inst & rules.bits.instance,
        place: at + ELEMENT_HEADER,
        length,
    }))
}

/// All elements of a level that is these octets; places count from its first.
pub fn elements(rules: &Rules, level: &[u8]) -> Result<Vec<Element>, Broken> {
    let mut elements = Vec::new();
    let mut at = 0;
    while let Some(element) = element(rules, level, at, level.len())? {
        at = element.end();
        elements.push(element);
    }
    Ok(elements)
}
