//! Checks of what the program prints, from the printed text alone. What is true is asked of the
//! second checker, and what a tick does of the library; nothing here was made with the explanations.
//! A check answers with what it has seen, or with a complaint.

pub mod formulas;
pub mod notes;
pub mod pages;
pub mod rules;
pub mod runs;
pub mod sets;
pub mod unmatched;
pub mod waits;

use std::collections::BTreeMap;

use checker::bytes::{read_design, Design, Record, SIDES};
use checker::ctl::Model;
use checker::judge;
use checker::page::{self, Names, Read};

/// What a check comes to.
pub type Checked<T> = Result<T, String>;

/// How often each kind of thing was seen.
pub type Seen = BTreeMap<&'static str, usize>;

/// Adds up what was seen.
pub fn add(all: &mut Seen, more: Seen) {
    for (kind, count) in more {
        *all.entry(kind).or_default() += count;
    }
}

/// A complaint unless it is so.
pub fn demand(so: bool, complaint: impl FnOnce() -> String) -> Checked<()> {
    if so {
        Ok(())
    } else {
        Err(complaint())
    }
}

/// A page as the second checker reads it.
pub struct Page {
    pub text: String,
    pub read: Read,
    pub design: Design,
    /// The sides alone, on a page of their own: formulas are read behind it.
    sides: String,
}

impl Page {
    pub fn new(text: String) -> Page {
        let read = page::read(text.as_bytes()).unwrap_or_else(|at| panic!("{at:?} in\n{text}"));
        let design = read_design(&read.design).expect("the page's design is read");
        let sides = pages::sides(&design, &read.names);
        Page { text, read, design, sides }
    }

    pub fn names(&self) -> &Names {
        &self.read.names
    }

    /// How many sides the page has.
    pub fn sides(&self) -> usize {
        self.read.names.states.len()
    }

    /// The name of a state, or its number where the side has no such state.
    pub fn state(&self, side: usize, state: u8) -> String {
        let name = self.names().states[side].get(usize::from(state));
        name.map_or(state.to_string(), String::clone)
    }

    /// The states that a record names, as a sentence has them.
    pub fn named(&self, states: [u8; SIDES]) -> String {
        let names: Vec<String> =
            (0..self.sides()).map(|side| self.state(side, states[side])).collect();
        names.join(", ")
    }

    /// The number of a signal by its name. One that no side has is called by its number.
    pub fn signal(&self, name: &str) -> Checked<i8> {
        let known = self.names().signals.iter().position(|signal| signal == name);
        let number = known.map(|at| at as i8 + 1).or_else(|| name.parse().ok());
        number.ok_or_else(|| format!("no signal '{name}'"))
    }
}

/// A page and a converter for it.
pub struct Case {
    pub page: Page,
    pub converter: Vec<Record>,
    /// The sides under the converter, where it is matched.
    pub model: Option<Model>,
}

impl Case {
    pub fn new(page: Page, converter: Vec<Record>) -> Case {
        let fits = judge::matched(&page.design, &converter);
        let model = fits.then(|| judge::model(&page.design, &converter));
        Case { page, converter, model }
    }
}

/// The number that a text is.
pub fn number(text: &str) -> Checked<usize> {
    text.parse().map_err(|_| format!("'{text}' is no number"))
}

/// The items of "a", "a and b" or "a, b and c".
pub fn listed(text: &str) -> Vec<&str> {
    let mut items: Vec<&str> = text.split(", ").collect();
    if let Some((before, last)) = items.last().and_then(|last| last.rsplit_once(" and ")) {
        items.pop();
        items.extend([before, last]);
    }
    items
}
