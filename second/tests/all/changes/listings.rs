//! Changes of messages and of the lines of their listings.

use super::Shown::{Builds, Octets, Pieces, Rows};
use super::{on_message, Bears, Change, Changes, ALL};
use second::rules::{Inst, Kinds, Listed, Message};
use second::{Rules, DOCUMENT};

/// Where a line stands: the number of its message, and its positions from the
/// body inwards.
#[derive(Debug, Clone)]
struct Place {
    message: usize,
    path: Vec<usize>,
}

impl Place {
    fn message(&self) -> &'static Message {
        &DOCUMENT.messages[self.message]
    }

    fn at(&self) -> usize {
        self.path[self.path.len() - 1]
    }

    /// The lines of the groups around it, from the outermost on.
    fn around(&self) -> Vec<&'static Listed> {
        let mut listing = &self.message().body;
        let mut around = Vec::new();
        for &position in &self.path[..self.path.len() - 1] {
            around.push(&listing[position]);
            listing = &listing[position].inside;
        }
        around
    }

    /// The listing that has the line.
    fn listing(&self) -> &'static [Listed] {
        let around = self.around();
        around
            .last()
            .map_or(&self.message().body, |group| &group.inside)
    }

    fn line(&self) -> &'static Listed {
        &self.listing()[self.at()]
    }

    fn listing_in<'r>(&self, rules: &'r mut Rules) -> &'r mut Vec<Listed> {
        let mut listing = &mut rules.messages[self.message].body;
        for &position in &self.path[..self.path.len() - 1] {
            listing = &mut listing[position].inside;
        }
        listing
    }

    fn line_in<'r>(&self, rules: &'r mut Rules) -> &'r mut Listed {
        &mut self.listing_in(rules)[self.at()]
    }

    /// Is the line's level entered on that kind?
    fn is_entered(&self, kind: u32) -> bool {
        let mut around = self.around().into_iter();
        self.message().kinds.has(kind) && around.all(|group| group.kinds.has(kind))
    }

    fn bears(&self) -> Bears {
        on_message(self.message().typ)
    }

    fn name(&self) -> String {
        let pair = |listed: &Listed| format!("{}/{}", listed.typ, listed.inst);
        let around = self.around().into_iter().map(pair).collect::<Vec<_>>();
        let (message, line) = (self.message().typ, pair(self.line()));
        format!("{message} {}: {line}", around.join(" "))
    }
}

/// The places of all lines of a listing and of those inside it.
fn places(message: usize, listing: &[Listed], outer: &[usize]) -> Vec<Place> {
    let mut all = Vec::new();
    for (position, listed) in listing.iter().enumerate() {
        let path = [outer, &[position]].concat();
        let inside = places(message, &listed.inside, &path);
        all.push(Place { message, path });
        all.extend(inside);
    }
    all
}

impl Changes {
    pub fn of_listings(&mut self) {
        for (number, message) in DOCUMENT.messages.iter().enumerate() {
            self.of_message(number, message);
            for place in places(number, &message.body, &[]) {
                self.of_marks(&place);
                self.of_pair(&place);
                self.of_kinds_of(&place);
                self.of_order_of(&place);
                self.of_inside(&place);
                self.of_limit(&place);
                if place.at() == 0 {
                    self.of_added_lines(&place);
                }
            }
        }
        self.of_added_messages();
    }

    fn of_message(&mut self, number: usize, message: &Message) {
        let bears = on_message(message.typ);
        let name = |what: &str| format!("{}: {what}", message.typ);
        self.push("T of a message", name("T"), bears, |rules| {
            rules.messages[number].teid ^= true;
        });
        for by in [1, 255] {
            self.push("type of a message", name("by one"), bears, |rules| {
                let typ = &mut rules.messages[number].typ;
                *typ = typ.wrapping_add(by);
            });
        }
        self.push("type of a message", name("not listed"), bears, |rules| {
            rules.messages.remove(number);
        });
        for kind in DOCUMENT.kinds.clone() {
            let name = format!("{}: kind {kind}", message.typ);
            let change = self.push("kinds of a message", name, bears, |rules| {
                rules.messages[number].kinds.0 ^= 1 << kind;
            });
            change.shown_by(&[Octets, Builds, Pieces, Rows]);
        }
    }

    fn of_added_messages(&mut self) {
        for typ in (0..=255).filter(|&typ| DOCUMENT.message_of(typ).is_none()) {
            for teid in [false, true] {
                let name = format!("{typ} listed, T {teid}");
                let bears = on_message(typ);
                self.push("message too many", name, bears, |rules| {
                    let body = rules.messages[0].body.clone();
                    rules.messages.push(Message {
                        typ,
                        teid,
                        kinds: ALL,
                        body,
                    });
                });
            }
        }
    }

    /// One change of one line that messages with its type show.
    fn line(
        &mut self,
        class: &'static str,
        place: &Place,
        change: impl FnOnce(&mut Listed),
    ) -> &mut Change {
        let bears = place.bears().with_row(place.line().typ);
        self.push(class, place.name(), bears, |rules| {
            change(place.line_in(rules));
        })
    }

    fn of_marks(&mut self, place: &Place) {
        let mandatory = self.line("mandatory", place, |listed| listed.mandatory ^= true);
        // It shows where no element of the type stands.
        mandatory.bears = place.bears();
        self.line("may repeat", place, |listed| listed.many ^= true);
        self.line("line too few", place, |listed| listed.kinds = Kinds(0));
    }

    fn of_pair(&mut self, place: &Place) {
        for by in [1, 255] {
            self.line("type of a line", place, |listed| {
                listed.typ = listed.typ.wrapping_add(by);
            });
            self.line("instance of a line", place, |listed| {
                listed.inst = match listed.inst {
                    Inst::Is(inst) => Inst::Is(inst.wrapping_add(by) & 0x0F),
                    Inst::Any => Inst::Is(by & 0x0F),
                };
            });
        }
        self.line("instance of a line", place, |listed| {
            listed.inst = match listed.inst {
                Inst::Is(_) => Inst::Any,
                Inst::Any => Inst::Is(0),
            };
        });
    }

    fn of_kinds_of(&mut self, place: &Place) {
        for kind in DOCUMENT.kinds.clone() {
            let change = self.line("kinds of a line", place, |listed| {
                listed.kinds.0 ^= 1 << kind;
            });
            let why = "the message is not on that kind, or the group around the line not entered";
            change.silent_where(!place.is_entered(kind), why);
        }
    }

    /// Exchanged with the next line, and with the next mandatory one.
    fn of_order_of(&mut self, place: &Place) {
        let (at, listing) = (place.at(), place.listing());
        let mandatory = |other: &usize| listing[*other].mandatory;
        let next = (at + 1 < listing.len()).then_some(at + 1);
        let next_mandatory = (at + 1..listing.len()).find(mandatory);
        let next_mandatory = next_mandatory.filter(|other| mandatory(&at) && Some(*other) != next);
        for other in next.into_iter().chain(next_mandatory) {
            let name = format!("{} and the {other}th", place.name());
            let change = self.push("order of lines", name, place.bears(), |rules| {
                place.listing_in(rules).swap(at, other);
            });
            let why = "one of the two is optional, and only mandatory lines are told in order";
            change.silent_where(!mandatory(&at) || !mandatory(&other), why);
        }
    }

    /// A limit by one and none, and one where there is none.
    fn of_limit(&mut self, place: &Place) {
        match place.line().most {
            Some(most) => {
                for other in [Some(most - 1), Some(most + 1), None] {
                    let change = self.line("limit of a line", place, |listed| listed.most = other);
                    // A group that is not void has no row of another standing.
                    change.bears = place.bears();
                    change.shown_by(&[Octets, Builds, Pieces, Rows]);
                }
            }
            None => {
                let change = self.line("limit too many", place, |listed| listed.most = Some(10));
                let why = "a body is no group, and is never void";
                change.silent_where(place.path.len() == 1, why);
            }
        }
    }

    /// A group with the inside of another.
    fn of_inside(&mut self, place: &Place) {
        let own = place.line();
        let lines = DOCUMENT.lines().into_iter().map(|line| line.listed);
        let others = lines.filter(|other| !other.inside.is_empty() && other.inside != own.inside);
        if own.inside.is_empty() {
            return;
        }
        for other in others {
            self.line("inside of a line", place, |listed| {
                listed.inside = other.inside.clone();
            });
        }
    }

    /// A pair of some other level, added to this one as optional.
    fn of_added_lines(&mut self, place: &Place) {
        let mut known = place.listing().to_vec();
        for line in DOCUMENT.lines() {
            let Listed { typ, inst, .. } = *line.listed;
            if known.iter().any(|other| other.is(typ, inst.number())) {
                continue;
            }
            known.push(line.listed.clone());
            let name = format!("{typ}/{inst} beside {}", place.name());
            let bears = place.bears().with_row(typ).unexpected();
            self.push("line too many", name, bears, |rules| {
                place.listing_in(rules).push(Listed {
                    mandatory: false,
                    kinds: ALL,
                    ..line.listed.clone()
                });
            });
        }
    }
}
