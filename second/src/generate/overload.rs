//! Groups that hold about as many elements of a line as they may, and messages
//! with such groups.

use super::compose::{compose, good_value, nested, short_value};
use super::damage::damage;
use super::draft::{Draft, Element, Run, Value};
use super::random::Random;
use super::Case;
use crate::rules::{Listed, Message};
use crate::DOCUMENT;

/// Types that such a group does not list: covered ones, those whose first octet
/// is read elsewhere, groups, and some others.
const STRANGE: [u8; 14] = [1, 74, 75, 76, 78, 79, 79, 86, 86, 87, 103, 200, 255, 2];

/// The inside of a group that has a limit. Where it is not too full, all that is
/// mandatory is there and long enough; where it is, anything may be, well framed.
pub fn crowded(random: &mut Random, group: &Listed) -> Run {
    let (line, most) = group.limits().next().expect("a group with a limit");
    let count = random.between(most - 1, most + 3);
    let mut run = Run::default();
    for listed in group.inside.iter().filter(|listed| listed.mandatory) {
        add_mandatory(random, &mut run, listed, count > most);
    }
    let counted = &group.inside[line];
    let short = *random.pick(&[0, 0, 20, 60, 100]);
    for _ in 0..count {
        let value = match random.percent(short) {
            true => short_value(random, counted.typ),
            false => some_value(random, counted.typ),
        };
        run.elements.push(of_line(counted, value));
    }
    for _ in 0..random.below(4) {
        let neighbour = neighbour(random, counted);
        run.elements.push(neighbour);
    }
    if random.percent(75) {
        random.shuffle(&mut run.elements);
    }
    run
}

fn of_line(listed: &Listed, value: Vec<u8>) -> Element {
    Element::plain(listed.typ, listed.inst.number(), value)
}

fn some_value(random: &mut Random, typ: u8) -> Vec<u8> {
    let extra = *random.pick(&[0, 0, 1, 2, 7]);
    good_value(random, typ, extra)
}

/// One, or two where the second is a repeat; of a group that is too full also
/// none or a short one.
fn add_mandatory(random: &mut Random, run: &mut Run, listed: &Listed, is_too_full: bool) {
    let count = match random.below(10) {
        0 => 2,
        1..=3 if is_too_full => 0,
        _ => 1,
    };
    for _ in 0..count {
        let value = match is_too_full && random.percent(25) {
            true => short_value(random, listed.typ),
            false => some_value(random, listed.typ),
        };
        run.elements.push(of_line(listed, value));
    }
}

/// Something that does not count: the same type with another instance, a group
/// that may hold some that would count, or a type that is not listed.
fn neighbour(random: &mut Random, counted: &Listed) -> Element {
    let inst = random.between(1, 15) as u8;
    let length = random.below(9);
    let any = random.octets(length);
    match random.below(4) {
        0 => Element::plain(counted.typ, inst, any),
        1 => holding(random, counted),
        _ => {
            let typ = *random.pick(&STRANGE);
            let inst = *random.pick(&[0, 0, inst]);
            Element::plain(typ, inst, any)
        }
    }
}

/// A group inside, with elements of the line or with rubbish.
fn holding(random: &mut Random, counted: &Listed) -> Element {
    let value = match random.percent(70) {
        true => {
            let length = random.below(3);
            let one = of_line(counted, random.octets(length));
            let elements = vec![one; random.between(1, 12)];
            let left = random.below(3);
            let remnant = random.octets(left);
            Value::Group(Run { elements, remnant })
        }
        false => nested(random),
    };
    let typ = *random.pick(&[93, 109, 180]);
    Element {
        value,
        ..Element::plain(typ, 0, Vec::new())
    }
}

/// The message that lists a group with a limit, and the line of that group.
fn limited() -> (&'static Message, &'static Listed) {
    let mut lines = DOCUMENT.messages.iter().flat_map(|message| {
        let groups = message.body.iter();
        let groups = groups.filter(|listed| listed.limits().next().is_some());
        groups.map(move |group| (message, group))
    });
    lines.next().expect("some group has a limit")
}

/// A message with one to three such groups, good or with a fault in them or
/// beside them.
pub fn overload(random: &mut Random) -> Case {
    let (message, group) = limited();
    // 66 lists the group without a limit.
    let message = match random.percent(10) {
        true => DOCUMENT.message_of(66).expect("66 is listed"),
        false => message,
    };
    let kind = random.kind_of(message);
    let mut draft = compose(random, kind, message);
    let is_group = |element: &Element| group.is(element.typ, element.inst);
    draft.body.elements.retain(|element| !is_group(element));
    for _ in 0..random.between(1, 3) {
        let inst = *random.pick(&[0, 0, 0, 0, 0, 0, 0, 1, 2]);
        let run = match random.percent(75) {
            true => crowded(random, group),
            false => sparse(random, group),
        };
        let at = *random.pick(&[0, 2, usize::MAX, usize::MAX, usize::MAX]);
        let at = at.min(draft.body.elements.len());
        let element = Element {
            value: Value::Group(run),
            ..Element::plain(group.typ, inst, Vec::new())
        };
        draft.body.elements.insert(at, element);
    }
    match random.below(100) {
        0..=49 => {}
        50..=59 => remnant(random, &mut draft, group),
        60..=69 => wrong_claim(random, &mut draft, group),
        70..=84 => lacking(random, &mut draft),
        _ => return damage(random, kind, draft),
    }
    let message = draft.octets(random);
    Case { kind, message }
}

/// The inside of such a group with few of the elements that count.
fn sparse(random: &mut Random, group: &Listed) -> Run {
    let mut run = Run::default();
    for listed in &group.inside {
        let count = if listed.mandatory { 1 } else { random.below(4) };
        for _ in 0..count {
            let value = some_value(random, listed.typ);
            run.elements.push(of_line(listed, value));
        }
    }
    run
}

/// The inside of some such group.
fn some_inside<'d>(
    random: &mut Random,
    draft: &'d mut Draft,
    group: &Listed,
) -> Option<&'d mut Run> {
    let elements = draft.body.elements.iter_mut();
    let mut insides = elements
        .filter(|element| group.is(element.typ, element.inst))
        .filter_map(|element| match &mut element.value {
            Value::Group(run) => Some(run),
            Value::Plain(_) => None,
        })
        .collect::<Vec<_>>();
    if insides.is_empty() {
        return None;
    }
    let chosen = random.below(insides.len());
    Some(insides.swap_remove(chosen))
}

/// Octets left over inside.
fn remnant(random: &mut Random, draft: &mut Draft, group: &Listed) {
    let left = random.between(1, 3);
    let octets = random.octets(left);
    if let Some(run) = some_inside(random, draft, group) {
        run.remnant = octets;
    }
}

/// An element inside claims more or fewer octets than it has, mostly the last.
fn wrong_claim(random: &mut Random, draft: &mut Draft, group: &Listed) {
    let off = *random.pick(&[1, 1, 2, 5, 9, -1]);
    let (is_last, any) = (random.percent(60), random.below(16));
    if let Some(run) = some_inside(random, draft, group) {
        let last = run.elements.len().saturating_sub(1);
        let chosen = if is_last { last } else { any.min(last) };
        if let Some(element) = run.elements.get_mut(chosen) {
            element.off = off;
        }
    }
}

/// Something at some level of the message is taken out, or has no value.
fn lacking(random: &mut Random, draft: &mut Draft) {
    let is_out = random.percent(50);
    let run = draft.body.some_run(random);
    if run.elements.is_empty() {
        return;
    }
    let chosen = random.below(run.elements.len());
    match &mut run.elements[chosen].value {
        Value::Plain(value) if !is_out => value.clear(),
        _ => {
            run.elements.remove(chosen);
        }
    }
}
