//! The size of a design, as the specification counts it ("Kept formulas and positions"), and what each rule adds to it.

use std::cmp::Reverse;

use gorzhani::{BLOCK, MOST};

use crate::columns::{grouped, listed};
use crate::design::Design;

/// What a design's size is made of.
#[derive(Clone, Debug, PartialEq, Eq)]
pub struct Size {
    /// How many states each side has.
    pub states: Vec<usize>,
    /// How many formula records there are.
    pub formulas: usize,
    /// How many of them are kept.
    pub kept: usize,
    /// How many of them are untils, kind 8.
    pub untils: usize,
    /// How many positions that makes; the library searches up to 65,536.
    pub positions: u128,
    /// The share of each rule.
    pub rules: Vec<Share>,
}

/// A rule's share: counted are the records that it reaches. On a page these are its own.
#[derive(Clone, Copy, Debug, PartialEq, Eq)]
pub struct Share {
    /// How many formulas it keeps.
    pub kept: usize,
    /// How many untils it has.
    pub untils: usize,
}

/// The size of a design.
pub fn of(design: &Design) -> Size {
    let Records { formulas, rules } = &Records::of(design);
    let states: Vec<usize> = design.sides.iter().map(|side| side.states.len()).collect();
    let joint_states: usize = states.iter().product();
    let all = share(formulas, !0, rules);
    let own = |rule: &usize| share(formulas, reached(formulas, *rule), &[*rule]);
    Size {
        states,
        formulas: formulas.len(),
        kept: all.kept,
        untils: all.untils,
        positions: match gorzhani::positions(&design.bytes()) {
            Ok(positions) => positions as u128,
            // More than the library counts.
            Err(_) => ((joint_states * all.untils.max(1)) as u128) << all.kept,
        },
        rules: rules.iter().map(own).collect(),
    }
}

impl Size {
    /// The size in a line.
    pub fn line(&self) -> String {
        format!(
            "{} states, {}, {} kept, {} of kind 8: {}.",
            self.states_in_words(),
            counting(self.formulas as u128, "formula"),
            self.kept,
            self.untils,
            counting(self.positions, "position")
        )
    }

    /// Of a design that is too large to be searched: how its size comes about, what each rule adds
    /// to it, and what helps.
    pub fn too_large(&self, design: &Design) -> String {
        let states = self.states.iter().map(usize::to_string);
        let untils = (self.untils > 1).then(|| self.untils.to_string());
        let factors = states.chain([format!("2^{}", self.kept)]).chain(untils);
        let mut out = format!(
            "The design has {}, and {} are the most that the library searches (9).\n\
             {} states, {} and {} make {}. The rules, the dearest first:\n",
            counting(self.positions, "position"),
            grouped(MOST as u128),
            self.states_in_words(),
            counting(self.kept as u128, "kept formula"),
            counting(self.untils as u128, "until"),
            factors.collect::<Vec<String>>().join(" × ")
        );
        let mut dearest: Vec<usize> = (0..self.rules.len()).collect();
        dearest.sort_by_key(|&rule| Reverse((self.rules[rule].kept, self.rules[rule].untils)));
        for rule in dearest {
            out += &self.adds(&format!("rule {}", rule + 1), self.rules[rule]);
        }
        let unused = unused(&Records::of(design));
        if unused.kept > 0 {
            out += &self.adds("what no rule uses", unused);
        }
        out + "Fewer states help, and fewer kept formulas: these are untils (AF is one), AG, what AX \
               speaks of, and rules.\n\
               Two rules AG f and AG g keep one formula more than the one rule AG (f & g).\n\
               `judge` takes a design of any size.\n"
    }

    /// A line: what a share adds to the size.
    fn adds(&self, whose: &str, share: Share) -> String {
        let kept = counting(share.kept as u128, "formula");
        let times = match share.kept {
            1 => "twice".to_string(),
            kept => format!("{} times", grouped(1 << kept)),
        };
        let untils = match (share.untils, self.untils) {
            (0, _) => String::new(),
            (_, 1) => ", and has the only until".to_string(),
            (own, all) => format!(", and has {own} of the {all} untils"),
        };
        format!("    {whose} keeps {kept}, which is {times} as many positions{untils}\n")
    }

    /// How many states the sides have.
    fn states_in_words(&self) -> String {
        listed(&self.states.iter().map(usize::to_string).collect::<Vec<String>>())
    }
}

/// A number of things.
fn counting(number: u128, thing: &str) -> String {
    format!("{} {thing}{}", grouped(number), if number == 1 { "" } else { "s" })
}

/// The records of a design's last two blocks.
struct Records<'a> {
    /// Kind and operands of each formula.
    formulas: Vec<&'a [u8]>,
    /// The number of each rule's formula.
    rules: Vec<usize>,
}

impl Records<'_> {
    fn of(design: &Design) -> Records<'_> {
        let (formulas, rules) = design.blocks.split_at(BLOCK);
        let records = formulas[4..].chunks_exact(4).take(usize::from(formulas[1]));
        let rules = rules[4..].iter().take(usize::from(rules[1]));
        Records { formulas: records.collect(), rules: rules.copied().map(usize::from).collect() }
    }
}

/// A set of formulas: bit n is formula n, of 64 at most.
type Set = u64;

/// The set of an operand of a formula.
fn operand(record: &[u8], at: usize) -> Set {
    1 << record[at]
}

/// What these of the formulas, with these rules, have of kept formulas and of untils.
fn share(formulas: &[&[u8]], among: Set, rules: &[usize]) -> Share {
    let mut kept: Set = rules.iter().fold(0, |kept, rule| kept | 1 << rule);
    let mut untils = 0;
    for (formula, record) in formulas.iter().enumerate() {
        if among >> formula & 1 == 0 {
            continue;
        }
        untils += usize::from(record[0] == 8);
        kept |= match record[0] {
            7 => operand(record, 1),
            8 | 9 => 1 << formula,
            _ => 0,
        };
    }
    Share { kept: kept.count_ones() as usize, untils }
}

/// The formulas of which a rule is made, its own among them. Operands have lower numbers.
fn reached(formulas: &[&[u8]], rule: usize) -> Set {
    let mut reached = 1 << rule;
    for (formula, record) in formulas.iter().enumerate().rev() {
        if reached >> formula & 1 == 0 {
            continue;
        }
        reached |= match record[0] {
            5 | 6 | 8 => operand(record, 1) | operand(record, 2),
            7 | 9 => operand(record, 1),
            _ => 0,
        };
    }
    reached
}

/// The share of what no rule reaches; only a design from a file has such formulas.
fn unused(Records { formulas, rules }: &Records) -> Share {
    let used = rules.iter().fold(0, |used, &rule| used | reached(formulas, rule));
    share(formulas, !used, &[])
}
