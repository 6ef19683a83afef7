//! How a message is cut into parts.

use super::random::Random;
use crate::framing::ELEMENT_HEADER;
use crate::DOCUMENT;

#[derive(Debug, Clone, Copy, PartialEq, Eq)]
pub enum Cut {
    /// One part, which is empty if the message is.
    Whole,
    /// One octet a part.
    Each,
    /// So many octets a part, and what is left.
    By(usize),
    /// Anywhere, with empty parts among them.
    Chance,
    /// So many octets into each element, and as many into each half of the
    /// message's header; with `ELEMENT_HEADER` between an element and its value.
    Into(usize),
    /// Once, there.
    At(usize),
}

/// Octets of half the longest header: `Into` cuts both halves.
const HALF_HEADER: usize = 6;

/// The cuts that trials go through, the dear one octet a part as one of many.
pub const CUTS: [Cut; 16] = [
    Cut::Whole,
    Cut::Into(0),
    Cut::Into(1),
    Cut::Into(2),
    Cut::Into(3),
    Cut::Into(4),
    Cut::Into(5),
    Cut::Chance,
    Cut::Each,
    Cut::Chance,
    Cut::By(2),
    Cut::By(3),
    Cut::By(7),
    Cut::By(64),
    Cut::Chance,
    Cut::By(4095),
];

/// The parts of a message, in their order. Only where and how many empty ones
/// stand, and where chance cuts, is drawn.
pub fn parts<'m>(message: &'m [u8], cut: Cut, random: &mut Random) -> Vec<&'m [u8]> {
    let mut places = match cut {
        Cut::Whole => Vec::new(),
        Cut::Each => (1..message.len()).collect(),
        Cut::By(octets) => (octets..message.len()).step_by(octets).collect(),
        Cut::Chance => chance(message.len(), random),
        Cut::Into(octets) => into_each(message, octets),
        Cut::At(place) => vec![place],
    };
    places.retain(|&place| place <= message.len());
    if cut != Cut::Chance {
        places.dedup();
    }
    let ends = places.iter().copied().chain([message.len()]);
    let starts = [0].into_iter().chain(places.iter().copied());
    starts
        .zip(ends)
        .map(|(start, end)| &message[start..end])
        .collect()
}

/// Places in their order; one that is there twice makes an empty part.
fn chance(length: usize, random: &mut Random) -> Vec<usize> {
    let most = *random.pick(&[1, 3, 8, 40]);
    let count = random.between(1, most);
    let mut places = (0..count)
        .map(|_| random.below(length + 1))
        .collect::<Vec<_>>();
    let again = *random.pick(&places);
    if random.percent(70) {
        places.push(again);
    }
    places.extend([0, length].into_iter().filter(|_| random.percent(15)));
    places.sort_unstable();
    places
}

fn into_each(message: &[u8], octets: usize) -> Vec<usize> {
    let halves = [octets, octets + HALF_HEADER].into_iter();
    let elements = beginnings(message).into_iter().map(|place| place + octets);
    let mut places = halves.chain(elements).collect::<Vec<_>>();
    places.sort_unstable();
    places.dedup();
    places
}

/// Where elements would begin, each group taken as entered. A broken message has
/// some of them too.
fn beginnings(message: &[u8]) -> Vec<usize> {
    let has_teid = message
        .first()
        .is_some_and(|first| first & DOCUMENT.bits.teid != 0);
    let mut at = DOCUMENT.sizes.body[usize::from(has_teid)];
    let mut places = Vec::new();
    while let Some(&[typ, high, low, _, ..]) = message.get(at..) {
        places.push(at);
        let length = usize::from(u16::from_be_bytes([high, low]));
        let value = if DOCUMENT.facts(typ).group { 0 } else { length };
        at += ELEMENT_HEADER + value;
    }
    places
}
