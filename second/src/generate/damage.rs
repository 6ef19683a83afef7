//! Faults put into messages: some into the tree of elements, some into the
//! finished octets.

use super::compose::short_value;
use super::draft::{mend_length, Draft, Element, Value};
use super::random::Random;
use super::Case;
use crate::DOCUMENT;

/// Damages a draft, its octets, or both, with at least one fault.
pub fn damage(random: &mut Random, kind: u32, mut draft: Draft) -> Case {
    let (inner, outer) = match random.below(100) {
        0..=49 => (1, 0),
        50..=79 => (0, 1),
        80..=87 => (2, 0),
        88..=93 => (0, 2),
        _ => (1, 1),
    };
    for _ in 0..inner {
        random.weighted(&INNER)(random, &mut draft);
    }
    let message = draft.octets(random);
    let mut case = Case { kind, message };
    for _ in 0..outer {
        random.weighted(&OUTER)(random, &mut case);
    }
    case
}

type Inner = fn(&mut Random, &mut Draft);
type Outer = fn(&mut Random, &mut Case);

/// Each fault with its weight.
const INNER: [(usize, Inner); 5] = [
    (2, remnant),
    (2, element_length),
    (2, pair_missing),
    (1, group_emptied),
    (2, short),
];

/// Oversize messages are rare, since one weighs as much as thirty others.
const OUTER: [(usize, Outer); 14] = [
    (2, wrong_kind),
    (2, emptied),
    (1, oversize),
    (2, wrong_version),
    (2, header_cut),
    (2, piggybacked),
    (2, header_length),
    (2, unlisted_message),
    (2, off_kind),
    (2, wrong_t),
    (2, cut),
    (4, cut_and_mended),
    (6, flipped),
    (3, flipped_in_header),
];

/// 1 to 3 octets left at some level.
fn remnant(random: &mut Random, draft: &mut Draft) {
    let length = random.between(1, 3);
    draft.body.some_run(random).remnant = random.octets(length);
}

/// An element's length field is off by a few.
fn element_length(random: &mut Random, draft: &mut Draft) {
    let run = draft.body.some_run(random);
    if run.elements.is_empty() {
        return;
    }
    let off = random.between(1, 9) as i32;
    let chosen = random.below(run.elements.len());
    run.elements[chosen].off = if random.percent(60) { off } else { -off };
}

/// All elements of some pair are taken out of a level.
fn pair_missing(random: &mut Random, draft: &mut Draft) {
    let run = draft.body.some_run(random);
    if run.elements.is_empty() {
        return;
    }
    let Element { typ, inst, .. } = run.elements[random.below(run.elements.len())];
    let is_other = |element: &Element| element.typ != typ || element.inst != inst;
    run.elements.retain(is_other);
}

fn group_emptied(random: &mut Random, draft: &mut Draft) {
    draft.body.some_run(random).elements.clear();
}

/// An element is made shorter than its least length.
fn short(random: &mut Random, draft: &mut Draft) {
    let run = draft.body.some_run(random);
    if run.elements.is_empty() {
        return;
    }
    let chosen = random.below(run.elements.len());
    let element = &mut run.elements[chosen];
    if let Value::Plain(value) = &mut element.value {
        *value = short_value(random, element.typ);
    }
}

fn wrong_kind(random: &mut Random, case: &mut Case) {
    let any = random.number() as u32;
    case.kind = *random.pick(&[0, 5, 255, 257, 0x0001_0002, u32::MAX, any]);
}

fn emptied(_: &mut Random, case: &mut Case) {
    case.message.clear();
}

/// Past the longest message, rarely also past what a length field can say.
fn oversize(random: &mut Random, case: &mut Case) {
    let longest = if random.percent(2) {
        65_539
    } else {
        DOCUMENT.sizes.longest
    };
    let length = longest + random.between(1, 40);
    case.message.resize(length, 0);
    mend_length(&mut case.message);
}

fn wrong_version(random: &mut Random, case: &mut Case) {
    if let Some(first) = case.message.first_mut() {
        let others = [0, 1, 3, 4, 5, 6, 7];
        *first = *first & 0x1F | random.pick(&others) << 5;
    }
}

/// Cut within the longest header there is.
fn header_cut(random: &mut Random, case: &mut Case) {
    case.message.truncate(random.between(1, 12));
    if case.message.len() >= 4 && random.percent(50) {
        mend_length(&mut case.message);
    }
}

fn piggybacked(_: &mut Random, case: &mut Case) {
    if let Some(first) = case.message.first_mut() {
        *first |= 0x10;
    }
}

/// The header's length field is off, mostly by a few.
fn header_length(random: &mut Random, case: &mut Case) {
    let Some(field) = case.message.get_mut(2..4) else {
        return;
    };
    let length = u16::from_be_bytes([field[0], field[1]]);
    let off = random.between(1, 12) as u16;
    let wrong = match random.below(10) {
        0..=4 => length.wrapping_sub(off),
        5..=8 => length.wrapping_add(off),
        _ => random.number() as u16,
    };
    field.copy_from_slice(&wrong.to_be_bytes());
}

fn unlisted_message(random: &mut Random, case: &mut Case) {
    if let Some(typ) = case.message.get_mut(1) {
        *typ = random.octet();
        while DOCUMENT.message_of(*typ).is_some() {
            *typ = typ.wrapping_add(1);
        }
    }
}

/// A kind that the message is not on; one that is on all of them gets another type.
fn off_kind(random: &mut Random, case: &mut Case) {
    let Some(typ) = case.message.get_mut(1) else {
        return;
    };
    let listed = DOCUMENT.message_of(*typ);
    match listed.and_then(|listed| random.kind_off(listed)) {
        Some(kind) => case.kind = kind,
        None => {
            case.kind = random.kind();
            *typ = random.type_off(case.kind);
        }
    }
}

fn wrong_t(_: &mut Random, case: &mut Case) {
    if let Some(first) = case.message.first_mut() {
        *first ^= 0x08;
    }
}

fn cut(random: &mut Random, case: &mut Case) {
    case.message.truncate(random.below(case.message.len() + 1));
}

/// Cut after the header, with a length field that fits the rest.
fn cut_and_mended(random: &mut Random, case: &mut Case) {
    let length = case.message.len();
    if length > 12 {
        case.message.truncate(random.between(12, length));
        mend_length(&mut case.message);
    }
}

/// One to four octets after the header are changed.
fn flipped(random: &mut Random, case: &mut Case) {
    let length = case.message.len();
    if length > 12 {
        for _ in 0..random.between(1, 4) {
            case.message[random.between(12, length - 1)] ^= random.octet();
        }
    }
}

fn flipped_in_header(random: &mut Random, case: &mut Case) {
    let length = case.message.len().min(12);
    if length > 0 {
        case.message[random.below(length)] ^= random.octet();
    }
}
