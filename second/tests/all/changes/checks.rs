//! Changes of the checks' order, of causes, of what is set aside and of what the
//! builder takes and the lookups want.

use std::cmp::Ordering;

use super::{Changes, Shown, ON_ALL};
use second::rules::{Check, Order, STANDINGS};
use second::{Rules, DOCUMENT};

/// Why it does not matter which of 7 and 21 is tested first.
const EXCLUSIVE: &str = "a type that is not listed is off no kind, so that one of the two applies";

impl Changes {
    pub fn of_checks(&mut self) {
        self.of_judge();
        self.of_written();
        let octets = &[Shown::Octets];
        self.of_order("order of the cleaner's checks", octets, |rules| {
            &mut rules.checks.clean
        });
        let rows = &[Shown::Rows];
        self.of_order("order of the row count's checks", rows, |rules| {
            &mut rules.checks.count
        });
        self.of_count();
        let builds = &[Shown::Builds];
        self.of_order("order of the builder's checks", builds, |rules| {
            &mut rules.checks.build
        });
        self.of_causes();
        self.of_cleaned();
        self.of_builds();
        self.of_lookups();
    }

    /// Those of judge and copy in one call, and of the pieces form.
    fn of_judge(&mut self) {
        const CLASS: &str = "order of the judge's checks";
        let checks = DOCUMENT.checks.judge.checks();
        for at in 0..checks.len() - 1 {
            let pair = [checks[at], checks[at + 1]];
            // The lends have one fault beside what is lent.
            let is_lent = pair.contains(&Check::CopyRoom) || pair.contains(&Check::TableRoom);
            let name = format!("{:?} and {:?}", pair[0], pair[1]);
            let mut other = checks.to_vec();
            other.swap(at, at + 1);
            let change = self.push(CLASS, name.clone(), ON_ALL, |rules| {
                rules.checks.judge = Order::new(&other)
            });
            let is_exclusive = pair == [Check::Type, Check::OffKind];
            change
                .shown_by(match is_lent {
                    true => &[Shown::Octets, Shown::Lends],
                    false => &[Shown::Octets],
                })
                .silent_where(is_exclusive, EXCLUSIVE);
            let change = self.push(CLASS, name, ON_ALL, |rules| {
                rules.checks.judge = Order::new(&other)
            });
            let why = "the pieces form has no copy";
            let is_silent = pair.contains(&Check::CopyRoom);
            change
                .shown_by(&[Shown::Pieces])
                .silent_where(is_silent, why)
                .silent_where(is_exclusive, EXCLUSIVE);
        }
        // A wrong kind of the message at every other place up to the walk, and
        // right after it.
        let others = checks.iter().copied();
        let others = others.filter(|&check| check != Check::OffKind);
        let others = others.collect::<Vec<_>>();
        for at in 0..=9 {
            let mut other = others.clone();
            other.insert(at, Check::OffKind);
            if other != checks {
                let name = format!("OffKind at {at}");
                let change = self.push(CLASS, name, ON_ALL, |rules| {
                    rules.checks.judge = Order::new(&other)
                });
                let is_before_type = other[at + 1] == Check::Type;
                change
                    .shown_by(&[Shown::Octets, Shown::Pieces])
                    .silent_where(is_before_type, EXCLUSIVE);
            }
        }
        // Each of the two checks of what is lent at every other place after 8.
        for moved in [Check::CopyRoom, Check::TableRoom] {
            let others = checks.iter().copied().filter(|&check| check != moved);
            let others = others.collect::<Vec<_>>();
            for at in 9..=others.len() {
                let mut other = others.clone();
                other.insert(at, moved);
                if other != checks {
                    let name = format!("{moved:?} at {at}");
                    let change = self.push(CLASS, name, ON_ALL, |rules| {
                        rules.checks.judge = Order::new(&other)
                    });
                    change.shown_by(&[Shown::Octets, Shown::Lends]);
                }
            }
        }
    }

    /// Each check of the row count left out. That 11 and 12 are none of them,
    /// `rows.rs` shows.
    fn of_count(&mut self) {
        const CLASS: &str = "checks of the row count";
        let checks = DOCUMENT.checks.count.checks();
        for at in 0..checks.len() {
            let mut fewer = checks.to_vec();
            let left_out = fewer.remove(at);
            // Without 9 it answers no rows where the framing is broken.
            let change = self.push(CLASS, format!("without {left_out:?}"), ON_ALL, |rules| {
                rules.checks.count = Order::new(&fewer)
            });
            change.shown_by(&[Shown::Rows]);
        }
    }

    /// Which refusals of the one call write what.
    fn of_written(&mut self) {
        use Check::*;
        const CLASS: &str = "what a refusal writes";
        let shown = &[Shown::Octets, Shown::Lends];
        for check in [Framing, TableRoom, Short, Missing] {
            let name = format!("copy with {check:?}");
            let change = self.push(CLASS, name, ON_ALL, |rules| {
                toggle(&mut rules.checks.with_copy, check);
            });
            change.shown_by(shown);
            let name = format!("table with {check:?}");
            let change = self.push(CLASS, name, ON_ALL, |rules| {
                toggle(&mut rules.checks.with_table, check);
            });
            change.shown_by(shown);
        }
        self.push(CLASS, "table with CopyRoom".into(), ON_ALL, |rules| {
            toggle(&mut rules.checks.with_table, CopyRoom);
        })
        .shown_by(shown);
    }

    /// Each check exchanged with the next.
    fn of_order(
        &mut self,
        class: &'static str,
        shown: &'static [Shown],
        order: impl Fn(&mut Rules) -> &mut Order,
    ) {
        let checks = order(&mut DOCUMENT.clone()).checks().to_vec();
        for at in 0..checks.len() - 1 {
            let name = format!("{:?} and {:?}", checks[at], checks[at + 1]);
            let mut other = checks.clone();
            other.swap(at, at + 1);
            let change = self.push(class, name, ON_ALL, |rules| {
                *order(rules) = Order::new(&other)
            });
            let is_exclusive = checks[at..at + 2] == [Check::Type, Check::OffKind];
            change.shown_by(shown).silent_where(is_exclusive, EXCLUSIVE);
        }
    }

    fn of_causes(&mut self) {
        for code in (1..=17).chain([Check::OffKind as usize]) {
            for by in [1, u16::MAX] {
                let change = self.push("causes", format!("of {code}"), ON_ALL, |rules| {
                    let cause = &mut rules.checks.causes[code];
                    *cause = cause.wrapping_add(by);
                });
                change.shown_by(match code {
                    1 | 7 | 21 => &[Shown::Octets, Shown::Builds, Shown::Pieces, Shown::Rows],
                    2..=6 | 8..=9 => &[Shown::Octets, Shown::Pieces, Shown::Rows],
                    13 => &[Shown::Octets, Shown::Lends],
                    14..=16 => &[Shown::Builds],
                    17 => &[Shown::Pieces],
                    _ => &[Shown::Octets, Shown::Pieces],
                });
            }
        }
    }

    fn of_cleaned(&mut self) {
        for standing in 0..STANDINGS {
            let name = format!("standing {standing}");
            self.push("set aside", name, ON_ALL, |rules| {
                rules.cleaned[standing] ^= true;
            });
        }
    }

    fn of_builds(&mut self) {
        for by in [-1, 1] {
            self.build(format!("sequence by {by}"), |rules| {
                let figure = &mut rules.builds.sequence;
                *figure = figure.saturating_add_signed(by);
            });
            self.build(format!("type by {by}"), |rules| {
                let figure = &mut rules.builds.typ;
                *figure = figure.saturating_add_signed(by as i16);
            });
            self.build(format!("instance by {by}"), |rules| {
                let figure = &mut rules.builds.inst;
                *figure = figure.saturating_add_signed(by as i16);
            });
        }
        for standing in 1..STANDINGS {
            self.build(format!("standing {standing}"), |rules| {
                rules.builds.standing = standing as u16;
            });
        }
    }

    fn build(&mut self, name: String, change: impl FnOnce(&mut Rules)) {
        let change = self.push("builder", name, ON_ALL, change);
        change.shown_by(&[Shown::Builds]);
    }

    fn of_lookups(&mut self) {
        self.lookup("parent 1".into(), |rules| rules.lookups.parent = 1);
        for standing in 1..STANDINGS {
            self.lookup(format!("standing {standing}"), |rules| {
                rules.lookups.standing = standing as u16;
            });
        }
        for other in [Ordering::Less, Ordering::Greater] {
            let name = format!("message's length also {other:?} than the copy's");
            self.lookup(name, |rules| rules.lookups.lengths.push(other));
        }
        self.lookup("no lengths".into(), |rules| rules.lookups.lengths.clear());
    }

    fn lookup(&mut self, name: String, change: impl FnOnce(&mut Rules)) {
        let change = self.push("lookups", name, ON_ALL, change);
        change.shown_by(&[Shown::Lookups]);
    }
}

/// Takes it out where it is, and puts it in where it is not.
fn toggle(checks: &mut Vec<Check>, check: Check) {
    match checks.iter().position(|&other| other == check) {
        Some(at) => drop(checks.remove(at)),
        None => checks.push(check),
    }
}
