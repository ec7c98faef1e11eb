//! The states of a small structure in which a rule holds as it was typed.
//!
//! `!` and `->` are taken as they stand, and each temporal part as a fixpoint of what it says of a
//! state and of the next ones: nothing is known here of records, of what is pushed down, or
//! of paths.

use std::collections::BTreeSet;

use super::typed::{Part, Typed};
use crate::ctl::{Model, States};
use crate::joined::{holds, Labels};

/// A Kripke structure. Each state has a next one.
#[derive(Clone, Debug)]
pub struct Structure {
    /// The label words of each state.
    pub labels: Vec<Labels>,
    /// The states that may come next.
    pub next: Vec<Vec<usize>>,
}

impl Structure {
    /// The same as a model in which records have a meaning.
    pub fn model(&self) -> Model {
        Model::new(self.labels.clone(), self.next.clone())
    }

    /// The states in which a rule holds.
    pub fn holding(&self, rule: &Typed) -> States {
        // The states of each rule that isn't joined yet.
        let mut holding: Vec<States> = Vec::new();
        for part in rule.parts() {
            let operands = holding.split_off(holding.len() - part.operands());
            let states = match (part, &operands[..]) {
                (Part::Name(number), _) => self.filter(|s| holds(self.labels[s], *number)),
                (Part::True, _) => self.filter(|_| true),
                (Part::False, _) => States::new(),
                (Part::Not, [a]) => self.filter(|s| !a.contains(&s)),
                (Part::And, [a, b]) => a & b,
                (Part::Or, [a, b]) => a | b,
                (Part::Implies, [a, b]) => self.filter(|s| !a.contains(&s) || b.contains(&s)),
                (Part::AX, [a]) => self.all_next(a),
                (Part::EX, [a]) => self.some_next(a),
                (Part::AG, [a]) => self.greatest(|z| a & &self.all_next(z)),
                (Part::EG, [a]) => self.greatest(|z| a & &self.some_next(z)),
                (Part::AF, [a]) => least(|z| a | &self.all_next(z)),
                (Part::EF, [a]) => least(|z| a | &self.some_next(z)),
                (Part::AU, [a, b]) => least(|z| b | &(a & &self.all_next(z))),
                (Part::EU, [a, b]) => least(|z| b | &(a & &self.some_next(z))),
                _ => unreachable!("{part:?} has as many operands as it has"),
            };
            holding.push(states);
        }
        holding.pop().expect("a rule has a part")
    }

    /// The states of which something is so.
    fn filter(&self, is_so: impl Fn(usize) -> bool) -> States {
        (0..self.next.len()).filter(|&state| is_so(state)).collect()
    }

    /// The states of which every next one is among these.
    fn all_next(&self, states: &States) -> States {
        self.filter(|state| self.next[state].iter().all(|next| states.contains(next)))
    }

    /// The states of which some next one is among these.
    fn some_next(&self, states: &States) -> States {
        self.filter(|state| self.next[state].iter().any(|next| states.contains(next)))
    }

    /// The greatest set that a step leaves as it is: from all states downwards.
    fn greatest(&self, step: impl Fn(&States) -> States) -> States {
        settled(self.filter(|_| true), step)
    }
}

/// The least set that a step leaves as it is: from no state upwards.
fn least(step: impl Fn(&States) -> States) -> States {
    settled(BTreeSet::new(), step)
}

/// What becomes of a set when a step is made again and again until nothing changes.
fn settled(mut states: States, step: impl Fn(&States) -> States) -> States {
    loop {
        let after = step(&states);
        if after == states {
            return states;
        }
        states = after;
    }
}
