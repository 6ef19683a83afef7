//! Standing of an element: one walk over a message in octet order.

use crate::framing::{self, Broken, Element, ELEMENT_HEADER};
use crate::rules::{position, Listed, Rules, Standing};

/// One element met.
#[derive(Debug, Clone, Copy, PartialEq, Eq)]
pub struct Row {
    /// 0 for the message, else the parent's row number counted from 1.
    pub parent: u16,
    pub typ: u8,
    pub inst: u8,
    pub place: u16,
    pub length: u16,
    /// A mandatory short element, which is refusal 11, stands here as short.
    pub standing: Standing,
    /// Is the pair mandatory at this level?
    pub mandatory: bool,
}

impl Row {
    /// The first octet of the element.
    pub fn first_octet(&self) -> u16 {
        self.place - ELEMENT_HEADER as u16
    }
}

/// One occurrence of a level: the message, or one kept group.
#[derive(Debug)]
pub struct Level<'r> {
    /// The group's first octet, or 0 for the message.
    pub place: u16,
    pub listing: &'r [Listed],
    /// The positions in the listing that were met, one bit each.
    seen: u32,
    kept: u32,
}

/// How an element stands at its level.
pub struct Stand<'r> {
    pub standing: Standing,
    /// Its line, if it is listed.
    pub listed: Option<&'r Listed>,
}

impl<'r> Stand<'r> {
    /// What is listed inside the element, if it is entered: a kept group is.
    pub fn inside(&self, rules: &Rules) -> Option<&'r [Listed]> {
        let listed = self.listed?;
        let entered = self.standing == Standing::Kept && rules.facts(listed.typ).group;
        entered.then_some(&listed.inside)
    }
}

impl<'r> Level<'r> {
    pub fn new(place: u16, listing: &'r [Listed]) -> Self {
        Self {
            place,
            listing,
            seen: 0,
            kept: 0,
        }
    }

    /// The first mandatory pair in listing order that has no kept row here.
    pub fn first_missing(&self, kind: u32) -> Option<&'r Listed> {
        let mut listed = self.listing.iter().enumerate();
        let (_, missing) = listed.find(|(position, listed)| {
            listed.mandatory && listed.kinds.has(kind) && self.kept & 1 << position == 0
        })?;
        Some(missing)
    }

    /// How the next element here stands.
    pub fn stand(
        &mut self,
        rules: &Rules,
        kind: u32,
        element: &Element,
        value: &[u8],
    ) -> Stand<'r> {
        let Some(position) = position(self.listing, kind, element.typ, element.inst) else {
            return Stand {
                standing: Standing::Unexpected,
                listed: None,
            };
        };
        let listed = &self.listing[position];
        let bit = 1 << position;
        let earlier = self.seen & bit != 0;
        self.seen |= bit;
        let standing = if earlier && !listed.many {
            Standing::Repeated
        } else if value.len() < rules.facts(element.typ).least(value) {
            Standing::Short
        } else if is_void(rules, kind, listed, value) {
            Standing::Void
        } else {
            self.kept |= bit;
            Standing::Kept
        };
        Stand {
            standing,
            listed: Some(listed),
        }
    }
}

/// Does the value of a group hold more elements of some line than the line lets
/// it? Only what stands directly inside counts, however short. A group whose
/// framing is broken is never void: it is entered, and the break is found.
fn is_void(rules: &Rules, kind: u32, group: &Listed, value: &[u8]) -> bool {
    let mut limits = group.limits().peekable();
    if !rules.facts(group.typ).group || limits.peek().is_none() {
        return false;
    }
    let Ok(elements) = framing::elements(rules, value) else {
        return false;
    };
    limits.any(|(line, most)| {
        let is_of_line = |element: &&Element| {
            position(&group.inside, kind, element.typ, element.inst) == Some(line)
        };
        elements.iter().filter(is_of_line).count() > most
    })
}

/// Room that is made for rows and for levels at first.
const A_FEW: usize = 8;

/// One walk over a message and what it has met: all rows in octet order, and
/// all levels by their first octet, up to where the framing is broken.
#[derive(Debug)]
pub struct Walk<'r, 'm> {
    rules: &'r Rules,
    kind: u32,
    message: &'m [u8],
    pub rows: Vec<Row>,
    pub levels: Vec<Level<'r>>,
    /// Where the framing is broken, if it is.
    pub broken: Option<u16>,
}

impl<'r, 'm> Walk<'r, 'm> {
    /// Goes over all elements, by the listing of the body that begins at `at`.
    pub fn new(
        rules: &'r Rules,
        kind: u32,
        message: &'m [u8],
        body: &'r [Listed],
        at: usize,
    ) -> Self {
        let mut walk = Self {
            rules,
            kind,
            message,
            rows: Vec::with_capacity(A_FEW),
            levels: Vec::with_capacity(A_FEW),
            broken: None,
        };
        let whole = walk.run(Level::new(0, body), 0, at, message.len());
        // A message of the longest length has no place over 16 bits.
        walk.broken = whole.err().map(|Broken(place)| place as u16);
        walk
    }

    /// The first mandatory element that is short. A repeat of a mandatory pair
    /// is not short but repeated.
    pub fn first_short(&self) -> Option<&Row> {
        let mut rows = self.rows.iter();
        rows.find(|row| row.mandatory && row.standing == Standing::Short)
    }

    /// The first mandatory pair without a kept row, and the level that wants it.
    pub fn first_missing(&self) -> Option<(&Level<'r>, &'r Listed)> {
        let mut levels = self.levels.iter();
        levels.find_map(|level| Some((level, level.first_missing(self.kind)?)))
    }

    /// Reads the run of elements of one level from `at` to `end`.
    fn run(
        &mut self,
        level: Level<'r>,
        parent: u16,
        mut at: usize,
        end: usize,
    ) -> Result<(), Broken> {
        let number = self.levels.len();
        self.levels.push(level);
        while let Some(element) = framing::element(self.rules, self.message, at, end)? {
            self.take(number, parent, &element)?;
            at = element.end();
        }
        Ok(())
    }

    /// Takes one element, and a kept group's inside after it.
    fn take(&mut self, level: usize, parent: u16, element: &Element) -> Result<(), Broken> {
        let value = &self.message[element.place..element.end()];
        let stand = self.levels[level].stand(self.rules, self.kind, element, value);
        let row = Row {
            parent,
            typ: element.typ,
            inst: element.inst,
            place: element.place as u16,
            length: element.length as u16,
            standing: stand.standing,
            mandatory: stand.listed.is_some_and(|listed| listed.mandatory),
        };
        self.rows.push(row);
        match stand.inside(self.rules) {
            Some(listing) => {
                let inside = Level::new(row.first_octet(), listing);
                let number = self.rows.len() as u16;
                self.run(inside, number, element.place, element.end())
            }
            None => Ok(()),
        }
    }
}
