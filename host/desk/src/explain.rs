//! Why a rule fails: the run that breaks it, tick by tick, with remarks.
//!
//! The desk labels the records and finds the paths itself; that a formula holds or fails at a record is printed only where the library has said so ([`holds_at`]), and ticks are done by the
//! library's tick ([`crate::runs`]). The converter is one that the library has found matched to the design.
//!
//! - `labels`: the records at which each part of a formula holds.
//! - `paths`: shortest paths, and paths into loops.
//! - `asked`: what the library says of a formula at a record.
//! - `inwards`: a formula that fails, from the outside to the label that is to blame.
//! - `words`: parts of formulas in words.

mod asked;
mod inwards;
mod labels;
mod paths;
mod words;

use gorzhani::Refused;

use crate::design::Design;
use crate::library;
use crate::records::Record;

pub use asked::holds_at;

/// What is printed in the place of a claim to which the library says otherwise.
pub const UNCONFIRMED: &str = "the library doesn't confirm this: please report it";

/// The first rule that fails, counted from 0: each is put to the library's judge alone.
pub fn first_failing(design: &Design, records: &[Record]) -> Option<usize> {
    let fails = |formula: usize| {
        let alone = design.with_rules(&[formula]);
        alone.and_then(|bytes| library::judge(&bytes, records)) == Err(Refused::RULE)
    };
    design.rules.iter().position(|rule| fails(rule.formula))
}

/// That a rule fails, counted from 0, and the run that breaks it.
pub fn rule_fails(design: &Design, records: &[Record], rule: usize) -> String {
    let (number, rule) = (rule + 1, &design.rules[rule]);
    if holds_at(design, records, rule.formula, 0) != Ok(false) {
        return format!("Rule {number}: {UNCONFIRMED}\n");
    }
    let run = inwards::run(design, records, rule.formula);
    format!(
        "Rule {number} fails: {}\n    {}\n{}",
        rule.sentence,
        design.text(rule.formula),
        run.text(2)
    )
}
