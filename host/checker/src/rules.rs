//! Rules as people type them: text in, the blocks of the formulas and of the rules out.
//!
//! A line is a rule and ends with a newline. [`rules`](fn@rules) goes over the whole text once for
//! each of its refusals. What a line says is a [`Typed`] rule: its parts in a list, operands in
//! front of what joins them. So `!`, prefixes and `->` may be repeated as often as one likes:
//! reading is a loop, and so is each pass over a rule, with a list of what is still to be done.
//!
//! - `words`: lines, words and signs, and how many brackets are open together.
//! - `split`: a rule from its tokens. Brackets go first, from the inside out; what is left has no
//!   brackets and is split at `->`, each piece at `|`, each piece of these at `&`.
//! - `typed`: what says "some path", `!` pushed down into a new rule, records.
//! - [`chart`]: every way in which the lines of the grammar, which stand there as data, read some
//!   tokens.
//! - [`meaning`]: the states of a small structure in which a rule holds as it was typed.
//!
//! # Two ways to read
//!
//! `split` is for texts of every length. It knows what binds closer than what, and not the
//! grammar. [`chart`] knows the grammar alone and finds all readings, so that it tells whether
//! there is one and only one; it is for short lines. The two have in common the words and what a
//! typed rule is.
//!
//! # Two ways to a meaning
//!
//! [`Model::holding`](crate::ctl::Model::holding) says where the records hold that were made of a
//! text. [`meaning`] knows neither records nor how `!` is pushed down: it takes `!` and `->` as
//! they stand, and the temporal parts as fixpoints. They have in common what a proposition means.

pub mod chart;
pub mod meaning;
mod split;
mod typed;
mod words;

pub use split::read_rule;
pub use typed::{Part, Typed};
pub use words::{depth, spelled, tokens, Token, TOKENS};

use crate::bytes::{rule_blocks, Formula, MOST_FORMULAS, MOST_RULES, RULE_BLOCKS};
use crate::refusal::{self, demand};

/// The most brackets, round and square ones together, that may be open.
pub const MOST_DEPTH: usize = 32;

/// Reads a text: the number of its rules, with their blocks at the front of `blocks`, or 19, 20,
/// 21 and 12 with nothing changed. No other byte changes.
pub fn rules(text: &[u8], blocks: &mut [u8]) -> Result<usize, u8> {
    let lines = read_text(text).ok_or(refusal::TEXT)?;
    demand(lines.iter().all(Typed::says_all_paths), refusal::SOME_PATH)?;
    let (formulas, rules) = records(&lines);
    let fit = formulas.len() <= MOST_FORMULAS && rules.len() <= MOST_RULES;
    demand(fit, refusal::TOO_MANY_FORMULAS)?;
    demand(blocks.len() >= RULE_BLOCKS, refusal::RESULT)?;
    let rules: Vec<u8> = rules.into_iter().map(|rule| rule as u8).collect();
    blocks[..RULE_BLOCKS].copy_from_slice(&rule_blocks(&formulas, &rules));
    Ok(lines.len())
}

/// The rules of a text, line by line, unless something in it is 19.
pub fn read_text(text: &[u8]) -> Option<Vec<Typed>> {
    let mut lines = text.split(|&byte| byte == b'\n');
    // What stands behind the last newline is no line.
    if !lines.next_back()?.is_empty() {
        return None;
    }
    lines.map(read_line).collect()
}

/// The rule of a line, unless it is too deep or not of the grammar.
fn read_line(line: &[u8]) -> Option<Typed> {
    let tokens = tokens(line)?;
    if depth(&tokens) > MOST_DEPTH {
        return None;
    }
    read_rule(&tokens)
}

/// The records of some rules that speak of all paths alone: the formulas, and the number of each
/// rule's.
pub fn records(lines: &[Typed]) -> (Vec<Formula>, Vec<usize>) {
    let mut formulas = Vec::new();
    let rules = lines.iter().map(|line| line.pushed_down().put(&mut formulas)).collect();
    (formulas, rules)
}
