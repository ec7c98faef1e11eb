//! The designs of two sides in tests/data/two_sided.txt, and what was said of each.
//! Their third side is one ticking state without labels, and their converters have zeros
//! for it.

use std::str::FromStr;

use checker::bytes::{Design, Formula, Link, Record, State, Transition, SIDES};

use crate::samples::{self, with_zeros};

/// One design of the file.
pub struct Kept {
    /// The design.
    pub design: Design,
    /// Its positions.
    pub positions: u128,
    /// Whether the search found a converter.
    pub found: bool,
    /// A converter that was judged.
    pub converter: Vec<Record>,
    /// What the judge said of it.
    pub judged: Result<(), u8>,
}

/// Every design of the file.
pub fn kept() -> Vec<Kept> {
    let text = include_str!("../data/two_sided.txt");
    text.split("\n\n").skip(1).map(read).collect()
}

/// One design from its lines.
fn read(text: &str) -> Kept {
    let line = |name: &str| -> &str {
        let found = text.lines().find_map(|line| line.strip_prefix(name));
        found.unwrap_or_else(|| panic!("no {name} in {text}")).trim()
    };
    let formulas = line("formulas").split_whitespace().map(formula).collect();
    let rules = line("rules").split_whitespace().map(number).collect();
    let sides = [side(line("kernel")), side(line("host"))];
    Kept {
        design: samples::design(sides, formulas, rules),
        positions: number(line("positions")),
        found: match line("search") {
            "found" => true,
            "none" => false,
            other => panic!("the search says {other}"),
        },
        converter: line("converter").split(';').map(record).collect(),
        judged: match line("judge") {
            "yes" => Ok(()),
            refusal => Err(number(refusal)),
        },
    }
}

/// A number.
fn number<T: FromStr>(text: &str) -> T {
    text.trim().parse().unwrap_or_else(|_| panic!("{text} is no number"))
}

/// What stands before and behind a sign.
fn apart<'a>(text: &'a str, sign: &str) -> (&'a str, &'a str) {
    text.split_once(sign).unwrap_or_else(|| panic!("no {sign} in {text}"))
}

/// The states of a side.
fn side(text: &str) -> Vec<State> {
    let transition = |text: &str| {
        let (event, target) = apart(text, ">");
        Transition { event: number(event), target: number(target) }
    };
    let state = |text: &str| {
        let (label, transitions) = apart(text, ":");
        let transitions = transitions.split_whitespace().map(transition).collect();
        State { label: number(label), transitions }
    };
    text.split(';').map(state).collect()
}

/// A formula: its sign, with the operands around it.
fn formula(text: &str) -> Formula {
    let signed = text.trim_start_matches(|letter: char| letter.is_ascii_digit());
    let sign = signed.trim_end_matches(|letter: char| letter.is_ascii_digit());
    let (before, behind) = apart(text, sign);
    match sign {
        "true" => Formula::True,
        "false" => Formula::False,
        "p" => Formula::Proposition(number(behind)),
        "!p" => Formula::NotProposition(number(behind)),
        "&" => Formula::And(number(before), number(behind)),
        "|" => Formula::Or(number(before), number(behind)),
        "X" => Formula::Next(number(behind)),
        "U" => Formula::Until(number(before), number(behind)),
        "G" => Formula::Always(number(behind)),
        _ => panic!("{text} is no formula"),
    }
}

/// A converter record.
fn record(text: &str) -> Record {
    let link = |text: &str| {
        let (events, next) = apart(text, ">");
        Link { events: of_sides(events), next: number(next) }
    };
    let (states, links) = apart(text, ":");
    Record { states: of_sides(states), links: links.split_whitespace().map(link).collect() }
}

/// A number for each side.
fn of_sides<T: FromStr + Copy + Default>(text: &str) -> [T; SIDES] {
    let (kernel, host) = apart(text, ",");
    with_zeros([number(kernel), number(host)])
}
