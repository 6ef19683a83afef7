//! Changes of what is known by an element's type: least length, group, cover.

use super::{on_type, Change, Changes};
use second::rules::{ByFirst, Cover, Facts, Least, Listed};
use second::DOCUMENT;

const NOWHERE: &str =
    "the type is listed nowhere, so that its rows are unexpected and nothing else";

fn lines_of(typ: u8) -> Vec<&'static Listed> {
    let lines = DOCUMENT.lines().into_iter().map(|line| line.listed);
    lines.filter(|listed| listed.typ == typ).collect()
}

impl Changes {
    pub fn of_types(&mut self) {
        for typ in 0..=255 {
            match &DOCUMENT.facts(typ).least {
                Least::Fixed(least) => self.of_least(typ, *least),
                Least::ByFirst(by_first) => self.of_first_octet(typ, by_first),
            }
            self.facts("group", typ, format!("{typ}"), |facts| facts.group ^= true);
            self.of_cover(typ);
        }
    }

    /// One change of what is known of one type.
    fn facts(
        &mut self,
        class: &'static str,
        typ: u8,
        name: String,
        change: impl FnOnce(&mut Facts),
    ) -> &mut Change {
        let nowhere = lines_of(typ).is_empty();
        let change = self.push(class, name, on_type(typ), |rules| {
            change(&mut rules.types[usize::from(typ)]);
        });
        change.silent_where(nowhere, NOWHERE)
    }

    fn of_least(&mut self, typ: u8, least: usize) {
        for other in around(least) {
            let name = format!("{typ}: {other} for {least}");
            self.facts("least length", typ, name, |facts| {
                facts.least = Least::Fixed(other);
            });
        }
    }

    /// Each class of the first octet by one, other bits of it, and none of it.
    fn of_first_octet(&mut self, typ: u8, own: &ByFirst) {
        let class = "least length by first octet";
        for (bits, &least) in own.least.iter().enumerate() {
            for other in around(least) {
                let name = format!("{typ} with {bits}: {other} for {least}");
                let mut changed = own.clone();
                changed.least[bits] = other;
                let change = self.facts(class, typ, name, |facts| {
                    facts.least = Least::ByFirst(Box::new(changed));
                });
                let why = "a value with a first octet has that octet at least";
                change.silent_where(other == 0, why);
            }
        }
        let other_bits = [1, 255].map(|by| ByFirst {
            shift: own.shift.wrapping_add(by) % 8,
            ..own.clone()
        });
        let empty_is_long_enough = ByFirst {
            empty: 0,
            ..own.clone()
        };
        for changed in other_bits.into_iter().chain([empty_is_long_enough]) {
            let name = format!("{typ}: {changed:?}");
            self.facts(class, typ, name, |facts| {
                facts.least = Least::ByFirst(Box::new(changed));
            });
        }
        for bit in (0..8).filter(|bit| !bears(own, *bit)) {
            let name = format!("{typ}: one more for bit {bit}");
            self.facts(class, typ, name, |facts| {
                facts.least = Least::ByFirst(Box::new(with_bit(own, bit)));
            });
        }
    }

    fn of_cover(&mut self, typ: u8) {
        for (standing, own) in DOCUMENT.facts(typ).cover.into_iter().enumerate() {
            let mut covers = vec![Cover::Nothing, Cover::Rest, Cover::Whole];
            // A value that is no group's has no values inside.
            if DOCUMENT.facts(typ).group {
                covers.push(Cover::Values);
            }
            covers.retain(|cover| *cover != own);
            for cover in covers {
                let name = format!("{typ} of standing {standing}: {cover:?}");
                let change = self.facts("cover by type and standing", typ, name, |facts| {
                    facts.cover[standing] = cover;
                });
                change.bears = on_type(typ).of_standing(standing);
                change.silent = why_silent(typ, standing, [cover, own]);
            }
        }
    }
}

/// Does that bit of the first octet bear on the length?
fn bears(by_first: &ByFirst, bit: u8) -> bool {
    let bits = by_first.least.len().ilog2() as u8;
    (by_first.shift..by_first.shift + bits).contains(&bit)
}

/// The same lengths for each of the 256 first octets, one more where that bit is
/// set.
fn with_bit(own: &ByFirst, bit: u8) -> ByFirst {
    let least = (0..256).map(|first| {
        let class = first >> own.shift & (own.least.len() - 1);
        own.least[class] + (first >> bit & 1)
    });
    ByFirst {
        shift: 0,
        least: least.collect(),
        empty: own.empty,
    }
}

/// One less and one more, where there is one less.
fn around(figure: usize) -> Vec<usize> {
    let less = figure.checked_sub(1);
    less.into_iter().chain([figure + 1]).collect()
}

/// Why the two covers of that type and standing are the same, if they are.
fn why_silent(typ: u8, standing: usize, covers: [Cover; 2]) -> Option<&'static str> {
    let lines = lines_of(typ);
    let longest_short = match &DOCUMENT.facts(typ).least {
        Least::Fixed(least) => least.saturating_sub(1),
        Least::ByFirst(by_first) => by_first.least.iter().max().map_or(0, |least| least - 1),
    };
    let can_be_void = lines.iter().any(|listed| listed.limits().next().is_some());
    match standing {
        0 | 2 | 3 if lines.is_empty() => Some(NOWHERE),
        4 if !can_be_void => Some("no element of the type has a limit inside"),
        2 if lines.iter().all(|listed| listed.many) => Some("every line of the type may repeat"),
        3 if longest_short == 0 => Some("a short value of the type has no octet"),
        3 if longest_short == 1 && !covers.contains(&Cover::Whole) => {
            Some("a short value of the type has one octet, and all but the first is none")
        }
        _ => None,
    }
}
