//! Designs with some of their formulas rewritten, and so the paper's Definition 2,
//! under which a proposition holds of a joint state where it holds of some side.

// Each test file uses some of these.
#![allow(dead_code)]

use checker::bytes::{Design, Formula, SIDES, SIDE_LABELS};
use checker::joined::proposition;

/// The design with other formulas. `write` is handed each formula, with its operands
/// numbered anew, and puts one or more behind those before, of which the last stands for
/// it.
pub fn rewritten(design: &Design, mut write: impl FnMut(&mut Vec<Formula>, Formula)) -> Design {
    let mut formulas = Vec::new();
    let mut moved: Vec<usize> = Vec::new();
    for &formula in &design.formulas {
        let renumbered = match formula {
            Formula::And(a, b) => Formula::And(moved[a], moved[b]),
            Formula::Or(a, b) => Formula::Or(moved[a], moved[b]),
            Formula::Next(a) => Formula::Next(moved[a]),
            Formula::Until(a, b) => Formula::Until(moved[a], moved[b]),
            Formula::Always(a) => Formula::Always(moved[a]),
            plain => plain,
        };
        write(&mut formulas, renumbered);
        moved.push(formulas.len() - 1);
    }
    let moved_rule = |&rule: &u8| u8::try_from(moved[usize::from(rule)]).unwrap();
    let rules = design.rules.iter().map(moved_rule).collect();
    Design { sides: design.sides.clone(), formulas, rules }
}

/// The design as Definition 2 has it: a literal says of a label's bit that some side
/// has it, or that none has.
pub fn of_some_side(design: &Design) -> Design {
    rewritten(design, |formulas, formula| match formula {
        Formula::Proposition(p) => of_each_side(formulas, p, Formula::Proposition, Formula::Or),
        Formula::NotProposition(p) => {
            of_each_side(formulas, p, Formula::NotProposition, Formula::And)
        }
        other => formulas.push(other),
    })
}

/// Puts a literal about each side's bit behind the formulas, and joins them.
fn of_each_side(
    formulas: &mut Vec<Formula>,
    named: u8,
    literal: fn(u8) -> Formula,
    join: fn(usize, usize) -> Formula,
) {
    let of_side = |side: usize| literal(proposition(side, usize::from(named) % SIDE_LABELS));
    formulas.push(of_side(0));
    for side in 1..SIDES {
        let before = formulas.len() - 1;
        formulas.extend([of_side(side), join(before, before + 1)]);
    }
}
