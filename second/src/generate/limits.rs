//! Messages at the exact limits: 4,096 octets and 1,022 elements.

use super::compose::{compose, good_value};
use super::draft::{mend_length, Draft, Element, Run, Value};
use super::random::Random;
use super::Case;
use crate::framing::ELEMENT_HEADER;
use crate::rules::{Listed, Message};
use crate::DOCUMENT;

pub fn at_limit(random: &mut Random) -> Case {
    let shapes = [
        filled,
        one_too_long,
        all_empty,
        most_kept,
        most_groups,
        most_connections,
        remnant,
    ];
    random.pick(&shapes)(random)
}

/// The limits that the judge program has, one after the other.
pub fn in_turn(random: &mut Random, turn: usize) -> Case {
    let shapes = [filled, one_too_long, all_empty];
    shapes[turn % shapes.len()](random)
}

fn some_message(random: &mut Random) -> &'static Message {
    random.pick(&DOCUMENT.messages)
}

/// A good message filled to `length` octets by one long private extension.
fn filled_to(random: &mut Random, length: usize) -> Case {
    let message = some_message(random);
    let kind = random.kind_of(message);
    let mut octets = compose(random, kind, message).octets(random);
    let value = length - octets.len() - ELEMENT_HEADER;
    let inst = random.below(16) as u8;
    let last = Element::plain(255, inst, random.octets(value));
    let run = Run {
        elements: vec![last],
        remnant: Vec::new(),
    };
    run.put(&mut octets);
    mend_length(&mut octets);
    Case {
        kind,
        message: octets,
    }
}

fn filled(random: &mut Random) -> Case {
    filled_to(random, DOCUMENT.sizes.longest)
}

fn one_too_long(random: &mut Random) -> Case {
    filled_to(random, DOCUMENT.sizes.longest + 1)
}

/// 4,096 octets and then one to three of them cut from the last element's
/// claim, so that they are left over at the message's level.
fn remnant(random: &mut Random) -> Case {
    let left = random.between(1, 3);
    let mut case = filled_to(random, DOCUMENT.sizes.longest - left);
    case.message.extend(random.octets(left));
    mend_length(&mut case.message);
    case
}

fn echo(random: &mut Random, elements: Vec<Element>) -> Case {
    let message = DOCUMENT
        .message_of(random.between(1, 2) as u8)
        .expect("echo is listed");
    let body = Run {
        elements,
        remnant: Vec::new(),
    };
    on_its_kind(random, Draft { message, body })
}

fn on_its_kind(random: &mut Random, draft: Draft) -> Case {
    Case {
        kind: random.kind_of(draft.message),
        message: draft.octets(random),
    }
}

fn empty_elements(random: &mut Random, count: usize) -> Vec<Element> {
    let typ = *random.pick(&[3, 93, 109, 152, 180, 200, 255]);
    (0..count)
        .map(|_| Element::plain(typ, 0, Vec::new()))
        .collect()
}

/// The 1,022 elements that a message can hold at most, all empty.
fn all_empty(random: &mut Random) -> Case {
    let elements = empty_elements(random, 1022);
    echo(random, elements)
}

/// The most elements of an accepted message: one value is needed.
fn most_kept(random: &mut Random) -> Case {
    let mut elements = vec![Element::plain(3, 0, random.octets(4))];
    elements.extend(empty_elements(random, 1020));
    echo(random, elements)
}

/// As many bearer contexts as a message holds.
fn most_groups(random: &mut Random) -> Case {
    let message = DOCUMENT.message_of(66).expect("66 is listed");
    let mut elements = Vec::new();
    for _ in 0..(DOCUMENT.sizes.longest - 12) / 9 {
        let inside = Run {
            elements: vec![Element::plain(73, 0, good_value(random, 73, 0))],
            remnant: Vec::new(),
        };
        elements.push(Element {
            value: Value::Group(inside),
            ..Element::plain(93, 0, Vec::new())
        });
    }
    let body = Run {
        elements,
        remnant: Vec::new(),
    };
    on_its_kind(random, Draft { message, body })
}

/// As many PDN connections with a bearer each as a message holds, of each no more
/// than it must have.
fn most_connections(random: &mut Random) -> Case {
    let message = DOCUMENT.message_of(131).expect("131 is listed");
    let mut body = least(random, &message.body);
    let connection = message.body.iter().find(|listed| listed.typ == 109);
    let connection = connection.expect("131 lists 109");
    loop {
        let one = Element {
            value: Value::Group(least(random, &connection.inside)),
            ..Element::plain(109, 0, Vec::new())
        };
        body.elements.push(one);
        if body.octets() + 12 > DOCUMENT.sizes.longest {
            body.elements.pop();
            return on_its_kind(random, Draft { message, body });
        }
    }
}

/// What a level must have, each at its least length.
fn least(random: &mut Random, listing: &[Listed]) -> Run {
    let mut run = Run::default();
    for listed in listing.iter().filter(|listed| listed.mandatory) {
        let mut element = Element::plain(listed.typ, listed.inst.number(), Vec::new());
        element.value = match DOCUMENT.facts(listed.typ).group {
            true => Value::Group(least(random, &listed.inside)),
            false => Value::Plain(good_value(random, listed.typ, 0)),
        };
        run.elements.push(element);
    }
    run
}
