//! Every single change of the rules' figures that a wrong program could have,
//! and which of them no answer can show.

mod checks;
mod listings;
mod sizes;
mod types;

use second::rules::{Kinds, Standing};
use second::{Rules, DOCUMENT};

#[derive(Debug, Clone)]
pub struct Change {
    pub class: &'static str,
    pub name: String,
    pub rules: Rules,
    pub bears: Bears,
    /// The comparisons that have to show it, each by itself.
    pub shown: &'static [Shown],
    /// Why no answer can differ, if none can.
    pub silent: Option<&'static str>,
}

/// Which messages can show a change: those of a message type, those with a row
/// of an element type and of a standing. What is not said may be any.
#[derive(Debug, Clone, Copy, Default, PartialEq, Eq)]
pub struct Bears {
    pub message: Option<u8>,
    pub typ: Option<u8>,
    pub standing: Option<usize>,
}

/// The comparisons: of judge and copy with the cleaner, of the first alone with
/// buffers of every length, of the judge program, of the lookups, of the builder,
/// of the pieces form, and of the number of rows.
#[derive(Debug, Clone, Copy, PartialEq, Eq)]
pub enum Shown {
    Octets,
    Lends,
    Program,
    Lookups,
    Builds,
    Pieces,
    Rows,
}

/// All of them.
pub fn changes() -> Vec<Change> {
    let mut changes = Changes(Vec::new());
    changes.of_listings();
    changes.of_types();
    changes.of_sizes();
    changes.of_checks();
    changes.0
}

struct Changes(Vec<Change>);

const ALL: Kinds = Kinds(0b1_1110);

const ON_ALL: Bears = Bears {
    message: None,
    typ: None,
    standing: None,
};

fn on_message(message: u8) -> Bears {
    Bears {
        message: Some(message),
        ..ON_ALL
    }
}

fn on_type(typ: u8) -> Bears {
    Bears {
        typ: Some(typ),
        ..ON_ALL
    }
}

impl Bears {
    fn with_row(self, typ: u8) -> Self {
        Self {
            typ: Some(typ),
            ..self
        }
    }

    fn of_standing(self, standing: usize) -> Self {
        Self {
            standing: Some(standing),
            ..self
        }
    }

    fn unexpected(self) -> Self {
        self.of_standing(Standing::Unexpected as usize)
    }
}

impl Changes {
    /// Takes note of a change that messages show, if it is one.
    fn push(
        &mut self,
        class: &'static str,
        name: String,
        bears: Bears,
        change: impl FnOnce(&mut Rules),
    ) -> &mut Change {
        let mut rules = DOCUMENT.clone();
        change(&mut rules);
        assert_ne!(rules, *DOCUMENT, "{class}: {name}: nothing is changed");
        self.0.push(Change {
            class,
            name,
            rules,
            bears,
            shown: &[Shown::Octets],
            silent: None,
        });
        self.0.last_mut().expect("it was just pushed")
    }
}

impl Change {
    /// Where the condition holds, no answer can differ.
    fn silent_where(&mut self, condition: bool, why: &'static str) -> &mut Self {
        if condition {
            self.silent = Some(why);
        }
        self
    }

    fn shown_by(&mut self, shown: &'static [Shown]) -> &mut Self {
        self.shown = shown;
        self
    }
}
