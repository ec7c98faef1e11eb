//! Parts of formulas, and what is said of them.

use std::collections::HashSet;

use crate::columns::listed;
use crate::formulas::{Formula, Formulas};

/// The parts of a chain of `|`, each once, in their order.
pub fn alternatives(formulas: &Formulas, formula: usize) -> Vec<usize> {
    once(formulas, formula, |part| matches!(part, Formula::Or(..)))
}

/// The labels of a formula, each once, in their order.
pub fn labels(formulas: &Formulas, formula: usize) -> Vec<usize> {
    let mut named = HashSet::new();
    let mut closest = once(formulas, formula, |part| !part.parts().is_empty());
    closest.retain(|&part| match formulas.at(part) {
        Formula::Label(label) => named.insert(label),
        _ => false,
    });
    closest
}

/// What is left of a formula when parts that are to be opened are opened. Shared parts are looked at once.
fn once(formulas: &Formulas, formula: usize, opened: impl Fn(Formula) -> bool) -> Vec<usize> {
    let (mut found, mut seen, mut open) = (Vec::new(), HashSet::new(), vec![formula]);
    while let Some(part) = open.pop() {
        if !seen.insert(part) {
            continue;
        }
        if opened(formulas.at(part)) {
            open.extend(formulas.at(part).parts().into_iter().rev());
        } else {
            found.push(part);
        }
    }
    found
}

/// "a and b hold, c doesn't".
pub fn truths(hold: &[String], others: &[String]) -> String {
    let verb = |names: &[String], one: &str, more: &str| match names.len() {
        1 => format!("{} {one}", names[0]),
        _ => format!("{} {more}", listed(names)),
    };
    match (hold, others) {
        (hold, []) => verb(hold, "holds", "hold"),
        ([], others) => verb(others, "doesn't hold", "don't hold"),
        _ => format!("{}, {}", verb(hold, "holds", "hold"), verb(others, "doesn't", "don't")),
    }
}

/// "a fails here", "a and b fail here".
pub fn fail_here(parts: &[String]) -> String {
    let verb = if parts.len() == 1 { "fails" } else { "fail" };
    format!("{} {verb} here", listed(parts))
}

/// That ticks repeat, the first and the last of them.
pub fn repeat(first: usize, last: usize) -> String {
    match first == last {
        true => format!("tick {first} repeats for ever"),
        false => format!("ticks {first} to {last} repeat for ever"),
    }
}
