//! Changes of kinds, of bits and of sizes.

use std::ops::RangeInclusive;

use super::Shown::{self, Builds, Lookups, Octets, Pieces, Program, Rows};
use super::{Changes, ON_ALL};
use second::rules::{Told, STANDINGS};
use second::{Rules, DOCUMENT};

/// The range with one of its ends moved by one.
fn around(first: usize, last: usize) -> [RangeInclusive<usize>; 4] {
    [
        first - 1..=last,
        first + 1..=last,
        first..=last - 1,
        first..=last + 1,
    ]
}

/// The same with its figures by one, and as they were with a header of four.
fn figures_beside(told: Told) -> Vec<Told> {
    match told {
        Told::First(place) => [place - 1, place + 1, 4].map(Told::First).to_vec(),
        Told::Used { beside, row } => {
            let used = |(beside, row)| Told::Used { beside, row };
            let others = [(beside - 1, row), (beside + 1, row), (4, row)];
            let others = others
                .into_iter()
                .chain([(beside, row - 1), (beside, row + 1)]);
            others.map(used).collect()
        }
        _ => Vec::new(),
    }
}

impl Changes {
    pub fn of_sizes(&mut self) {
        self.of_kinds();
        self.of_bits();
        self.of_octets();
        self.of_table();
        self.of_header();
    }

    fn of_kinds(&mut self) {
        let (first, last) = (*DOCUMENT.kinds.start(), *DOCUMENT.kinds.end());
        for kinds in around(first as usize, last as usize) {
            self.push("kinds", format!("{kinds:?}"), ON_ALL, |rules| {
                rules.kinds = *kinds.start() as u32..=*kinds.end() as u32;
            })
            .shown_by(&[Octets, Rows]);
        }
    }

    /// The version by one, and every other part of an octet by one bit.
    fn of_bits(&mut self) {
        for version in [1, 3] {
            let name = format!("version {version}");
            self.push("bits", name, ON_ALL, |rules| rules.bits.version = version);
        }
        for bit in (0..8).map(|shift| 1 << shift) {
            let name = format!("instance, bit {bit}");
            self.push("bits", name, ON_ALL, |rules| rules.bits.instance ^= bit);
            if bit != DOCUMENT.bits.piggyback {
                let name = format!("P at {bit}");
                self.push("bits", name, ON_ALL, |rules| rules.bits.piggyback = bit);
            }
            if bit != DOCUMENT.bits.teid {
                let name = format!("T at {bit}");
                self.push("bits", name, ON_ALL, |rules| rules.bits.teid = bit);
            }
        }
    }

    fn of_octets(&mut self) {
        let (first, last) = (DOCUMENT.sizes.remnant.start(), DOCUMENT.sizes.remnant.end());
        for remnant in around(*first, *last) {
            let name = format!("remnant {remnant:?}");
            self.push("sizes", name, ON_ALL, |rules| rules.sizes.remnant = remnant)
                .shown_by(&[Octets, Pieces, Rows]);
        }
        for t in 0..2 {
            self.size("header", &[Octets, Pieces, Rows], |rules| {
                &mut rules.sizes.header[t]
            });
            self.size("body", &[Octets, Pieces, Rows], |rules| {
                &mut rules.sizes.body[t]
            });
        }
        self.size("uncounted", &[Octets, Builds, Pieces, Rows], |rules| {
            &mut rules.sizes.uncounted
        });
        self.size("type octet", &[Octets, Lookups, Pieces, Rows], |rules| {
            &mut rules.sizes.type_octet
        });
        self.size(
            "longest",
            &[Octets, Program, Builds, Pieces, Rows],
            |rules| &mut rules.sizes.longest,
        );
        self.size("count", &[Rows], |rules| &mut rules.sizes.count);
        self.size("five", &[Octets, Pieces], |rules| &mut rules.sizes.five);
        self.size("state", &[Pieces], |rules| &mut rules.sizes.state);
        self.size("answer", &[Octets, Builds], |rules| &mut rules.sizes.answer);
    }

    fn of_table(&mut self) {
        self.size(
            "header numbers",
            &[Octets, Lookups, Builds, Pieces],
            |rules| &mut rules.sizes.table_header,
        );
        self.size("first row", &[Octets, Lookups, Builds, Pieces], |rules| {
            &mut rules.sizes.first_row
        });
        self.push("sizes", "header numbers 4".into(), ON_ALL, |rules| {
            rules.sizes.table_header = 4;
        })
        .shown_by(&[Octets, Lookups, Builds, Pieces]);
        self.size(
            "numbers a row",
            &[Octets, Lookups, Builds, Pieces],
            |rules| &mut rules.sizes.row,
        );
        let most_rows = |rules: &mut Rules, by| {
            let rows = &mut rules.sizes.most_rows;
            *rows = rows.saturating_add_signed(by);
        };
        self.push("sizes", "most rows less".into(), ON_ALL, |rules| {
            most_rows(rules, -1)
        })
        .shown_by(&[Program]);
        self.push("sizes", "most rows more".into(), ON_ALL, |rules| {
            most_rows(rules, 1)
        })
        .shown_by(&[Program])
        .silent_where(true, "no message has more elements than that");
        let copy = |rules: &mut Rules, by| {
            let octets = &mut rules.sizes.program_copy;
            *octets = octets.saturating_add_signed(by);
        };
        self.push("sizes", "program's copy less".into(), ON_ALL, |rules| {
            copy(rules, -1)
        })
        .shown_by(&[Program]);
        self.push("sizes", "program's copy more".into(), ON_ALL, |rules| {
            copy(rules, 1)
        })
        .shown_by(&[Program])
        .silent_where(true, "no message is longer than that");
    }

    /// What each number of the header tells, and what is counted as kept.
    fn of_header(&mut self) {
        let header = &DOCUMENT.table.header;
        for (at, &own) in header.iter().enumerate() {
            for &other in header.iter().filter(|&&other| other != own) {
                self.told(at, other);
            }
            for other in figures_beside(own) {
                self.told(at, other);
            }
            for (later, other) in header.iter().enumerate().skip(at + 1) {
                let name = format!("{own:?} and {other:?} exchanged");
                self.header(name, |rules| rules.table.header.swap(at, later));
            }
        }
        for standing in 1..STANDINGS as u16 {
            let name = format!("standing {standing} counted as kept");
            self.header(name, |rules| rules.table.kept = standing);
        }
    }

    fn told(&mut self, at: usize, other: Told) {
        let name = format!("{other:?} for {:?}", DOCUMENT.table.header[at]);
        self.header(name, |rules| rules.table.header[at] = other);
    }

    /// Judge and lookups have to show it each, and so has the builder, unless it
    /// takes rows for kept rows and nothing else is wrong.
    fn header(&mut self, name: String, change: impl Fn(&mut Rules)) {
        let class = "header of a table";
        let read = self.push(class, name.clone(), ON_ALL, &change);
        read.shown_by(&[Octets, Lookups, Pieces]);
        let rows_for_kept = [[Told::Rows, Told::Rows], [Told::Kept, Told::Rows]];
        let (counts, others) = read.rules.table.header.split_at(2);
        let silent = rows_for_kept.iter().any(|header| header == counts)
            && others == &DOCUMENT.table.header[2..];
        let built = self.push(class, name, ON_ALL, change);
        let why = "what is built has every row kept, so that rows and kept rows are one number";
        built.shown_by(&[Builds]).silent_where(silent, why);
    }

    /// A figure by one either way.
    fn size(
        &mut self,
        name: &str,
        shown: &'static [Shown],
        figure: impl Fn(&mut Rules) -> &mut usize,
    ) {
        for by in [-1, 1] {
            let name = format!("{name} by {by}");
            let change = self.push("sizes", name, ON_ALL, |rules| {
                let figure = figure(rules);
                *figure = figure.saturating_add_signed(by);
            });
            change.shown_by(shown);
        }
    }
}
