//! Formulas as they are printed: read by the second checker's reader of pages, and where they hold.

use std::collections::{BTreeMap, BTreeSet};

use checker::page;
use checker::rules::{read_text, records, Part, Typed};

use super::{Case, Checked, Page};

/// A formula as a tree. `AF f` is `A [ TRUE U f ]`, and two negations are none.
#[derive(Clone, Debug, PartialEq)]
pub enum Tree {
    Name(u8),
    True,
    False,
    Not(Box<Tree>),
    And(Box<Tree>, Box<Tree>),
    Or(Box<Tree>, Box<Tree>),
    Implies(Box<Tree>, Box<Tree>),
    Next(Box<Tree>),
    Always(Box<Tree>),
    Until(Box<Tree>, Box<Tree>),
}

impl Tree {
    pub fn of(typed: &Typed) -> Tree {
        let mut trees: Vec<Tree> = Vec::new();
        for part in typed.parts() {
            let mut operands = trees.split_off(trees.len() - part.operands()).into_iter();
            let mut next = || Box::new(operands.next().expect("it has its operands"));
            trees.push(match part {
                Part::Name(name) => Tree::Name(*name),
                Part::True => Tree::True,
                Part::False => Tree::False,
                Part::Not => next().denied(),
                Part::And => Tree::And(next(), next()),
                Part::Or => Tree::Or(next(), next()),
                Part::Implies => Tree::Implies(next(), next()),
                Part::AX => Tree::Next(next()),
                Part::AG => Tree::Always(next()),
                Part::AF => Tree::Until(Box::new(Tree::True), next()),
                Part::AU => Tree::Until(next(), next()),
                some => panic!("{some:?} speaks of some path"),
            });
        }
        trees.pop().expect("a formula has a part")
    }

    pub fn operands(&self) -> Vec<&Tree> {
        match self {
            Tree::Name(_) | Tree::True | Tree::False => vec![],
            Tree::Not(f) | Tree::Next(f) | Tree::Always(f) => vec![f],
            Tree::And(f, g) | Tree::Or(f, g) | Tree::Implies(f, g) | Tree::Until(f, g) => {
                vec![f, g]
            }
        }
    }

    /// Its negation.
    pub fn denied(&self) -> Tree {
        match self {
            Tree::Not(formula) => *formula.clone(),
            formula => Tree::Not(Box::new(formula.clone())),
        }
    }

    pub fn temporal(&self) -> bool {
        matches!(self, Tree::Next(_) | Tree::Always(_) | Tree::Until(..))
            || self.operands().iter().any(|operand| operand.temporal())
    }

    /// What is left of a disjunction when brackets are left out.
    pub fn disjuncts(&self) -> Vec<&Tree> {
        match self {
            Tree::Or(f, g) => [f.disjuncts(), g.disjuncts()].concat(),
            other => vec![other],
        }
    }

    /// Whether a formula of one state holds where this is known of labels, if that is enough.
    pub fn told_by(&self, known: &BTreeMap<u8, bool>) -> Option<bool> {
        let or = |f: Option<bool>, g: Option<bool>| match (f, g) {
            (Some(true), _) | (_, Some(true)) => Some(true),
            (Some(false), Some(false)) => Some(false),
            _ => None,
        };
        let not = |f: Option<bool>| f.map(|f| !f);
        match self {
            Tree::Name(name) => known.get(name).copied(),
            Tree::True => Some(true),
            Tree::False => Some(false),
            Tree::Not(f) => not(f.told_by(known)),
            Tree::And(f, g) => not(or(not(f.told_by(known)), not(g.told_by(known)))),
            Tree::Or(f, g) => or(f.told_by(known), g.told_by(known)),
            Tree::Implies(f, g) => or(not(f.told_by(known)), g.told_by(known)),
            Tree::Next(_) | Tree::Always(_) | Tree::Until(..) => None,
        }
    }
}

/// A formula that is spoken of, and the records at which it holds.
#[derive(Clone, Debug)]
pub struct Said {
    pub tree: Tree,
    pub holding: BTreeSet<usize>,
}

impl Page {
    /// A formula with the names of the page, as typed rules have it.
    pub fn formula(&self, text: &str) -> Checked<Typed> {
        let page = format!("{}\n## Rules\n\n1. It.\n\n       {text}\n", self.sides);
        let no_formula = || format!("'{text}' is no formula");
        let read = page::read(page.as_bytes()).map_err(|_| no_formula())?;
        let mut rules = read_text(read.typed.as_bytes()).ok_or_else(no_formula)?;
        rules.pop().filter(|_| rules.is_empty()).ok_or_else(no_formula)
    }

    /// The rules of the page.
    pub fn rules(&self) -> Vec<Tree> {
        let rules = read_text(self.read.typed.as_bytes()).expect("the rules are read");
        rules.iter().map(Tree::of).collect()
    }
}

impl Case {
    /// A formula that is spoken of.
    pub fn said(&self, text: &str) -> Checked<Said> {
        let typed = self.page.formula(text)?;
        let (formulas, rules) = records(std::slice::from_ref(&typed));
        let model = self.model.as_ref().ok_or("the converter isn't matched")?;
        let holding = model.holding(&formulas).swap_remove(rules[0]);
        Ok(Said { tree: Tree::of(&typed), holding })
    }
}
