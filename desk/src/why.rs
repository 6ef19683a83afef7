//! Why the builder refuses with 16, in sentences: it names no element. The octets that are laid here are judged for that and go nowhere else: what
//! is written comes from the builder alone.

use crate::library::{Library, VOID};
use crate::text::{Element, Fault, Text};

/// The octets of a text, and where each element's value begins.
struct Laid {
    octets: Vec<u8>,
    places: Vec<usize>,
}

fn laid(text: &Text) -> Laid {
    let two = |n: usize| (n as u16).to_be_bytes();
    // the body's length, then each element's; what is in a group comes after it
    let mut lengths = vec![0; text.elements.len() + 1];
    for (i, e) in text.elements.iter().enumerate().rev() {
        lengths[i + 1] += e.value.as_ref().map_or(0, Vec::len);
        lengths[e.parent] += 4 + lengths[i + 1];
    }
    let mut octets = vec![0x40, text.typ.1, 0, 0];
    if let Some((_, teid)) = text.teid {
        octets[0] |= 8;
        octets.extend(teid.to_be_bytes());
    }
    octets.extend((text.sequence.1 << 8).to_be_bytes());
    let following = octets.len() - 4 + lengths[0];
    octets[2..4].copy_from_slice(&two(following));
    let mut places = vec![];
    for (e, length) in text.elements.iter().zip(&lengths[1..]) {
        let [high, low] = two(*length);
        octets.extend([e.typ, high, low, e.instance]);
        places.push(octets.len());
        octets.extend(e.value.iter().flatten());
    }
    Laid { octets, places }
}

/// All that keeps a message from being accepted with each row kept, by its line.
pub fn faults(library: &mut Library, text: &Text) -> Vec<Fault> {
    let laid = laid(text);
    let Some(judged) = library.read(&laid.octets) else { return vec![] };
    let at = |place: usize| laid.places.iter().position(|p| *p == place);
    let mut faults = vec![];
    for row in judged.rows.iter().filter(|row| row[5] != 0) {
        let Some(i) = at(row[3].into()) else { continue };
        faults.push(Fault { line: text.elements[i].line, why: set_aside(library, text, i, row[5]) });
    }
    let [code, _, place, typ, instance] = judged.five;
    if code == 12 {
        let group = at(usize::from(place) + 4).filter(|_| place > 0);
        let line = group.map_or(text.typ.0, |i| text.elements[i].line);
        let pair = library.pair(typ as u8, instance as u8);
        faults.push(Fault { line, why: format!("{} lacks {pair}, which is mandatory", level(library, text, group)) });
    }
    faults.sort_by_key(|f| f.line);
    faults
}

/// The message, or a group in it.
fn level(library: &Library, text: &Text, group: Option<usize>) -> String {
    match group {
        Some(i) => library.pair(text.elements[i].typ, text.elements[i].instance),
        None => library.message_name(text.typ.1),
    }
}

/// Why an element has another standing than kept.
fn set_aside(library: &mut Library, text: &Text, i: usize, standing: u16) -> String {
    let e = &text.elements[i];
    let pair = library.pair(e.typ, e.instance);
    let same = |o: &&Element| (o.parent, o.typ, o.instance) == (e.parent, e.typ, e.instance);
    match standing {
        1 => format!("{pair} is not listed in {} on {}", level(library, text, e.parent.checked_sub(1)), text.kind.1 .1),
        2 => format!("{pair} stands twice: it stood on line {}", text.elements.iter().find(same).map_or(0, |o| o.line)),
        VOID => {
            let inside = text.elements.iter().filter(|o| (o.parent, o.typ, o.instance) == (i + 1, 71, 0)).count();
            format!("{pair} holds {inside} elements {}: ten are the most", library.pair(71, 0))
        }
        _ => {
            let has = e.value.as_ref().map_or(0, Vec::len);
            let needs = least(library, text, i).map_or(String::new(), |n| format!(", and needs {n} or more"));
            format!("{pair} is short: it has {has} octet{}{needs}", if has == 1 { "" } else { "s" })
        }
    }
}

/// How many octets a short value needs, which its first octet bears on; found by judging longer ones.
fn least(library: &mut Library, text: &Text, i: usize) -> Option<usize> {
    let has = text.elements[i].value.as_ref()?.len();
    (has + 1..has + 64).find(|n| {
        let mut longer = text.clone();
        longer.elements[i].value.as_mut().unwrap().resize(*n, 0);
        let laid = laid(&longer);
        let place = laid.places[i];
        library.read(&laid.octets).is_some_and(|judged| judged.rows.iter().any(|row| usize::from(row[3]) == place && row[5] != 3))
    })
}
