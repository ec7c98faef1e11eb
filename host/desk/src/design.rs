//! A design with its names, and its bytes.

use gorzhani::{Refused, BLOCK, FIVE_BLOCKS, RULE_BLOCKS};

use crate::formulas::{Formula, Formulas};
use crate::library;

/// The sides that a converter record names.
pub const SIDES: usize = 3;
/// The sides as rules, tables and messages call them.
pub const SIDE_WORDS: [&str; SIDES] = ["kernel", "host", "third"];
/// The sides as sentences call them.
pub const SIDE_NAMES: [&str; SIDES] = ["the kernel", "the host", "the third side"];
/// The sides as headings call them.
pub const SIDE_HEADINGS: [&str; SIDES] = ["Kernel", "Host", "Third"];
/// The most labels of a side: label k of side s is proposition 16 s + k.
pub const SIDE_LABELS: usize = 16;
/// The most states of a side.
pub const MOST_STATES: usize = 16;
/// The most transitions of a state.
pub const MOST_TRANSITIONS: usize = 8;
/// The most signals of a design.
pub const MOST_SIGNALS: usize = 63;

/// A transition: an event (0 the tick, n read, -n sent) and the state to which it leads.
#[derive(Clone, Copy, Debug, PartialEq, Eq)]
pub struct Transition {
    /// The event.
    pub event: i8,
    /// The number of the state.
    pub target: usize,
}

/// A state.
#[derive(Clone, Debug, Default, PartialEq, Eq)]
pub struct State {
    /// Its name.
    pub name: String,
    /// Which labels of its side hold: bit k is label k.
    pub label_word: u16,
    /// Its transitions.
    pub transitions: Vec<Transition>,
}

/// What a state's transitions make of it.
#[derive(Clone, Copy, Debug, PartialEq, Eq)]
pub enum Kind {
    /// It sends nothing.
    Input,
    /// It has one transition, a send.
    OutputOnly,
    /// It has a send and a tick.
    Delayed,
}

impl State {
    /// Its kind, or none where it is of none of the three.
    pub fn kind(&self) -> Option<Kind> {
        let sends = self.transitions.iter().filter(|transition| transition.event < 0).count();
        let ticks = self.transitions.iter().filter(|transition| transition.event == 0).count();
        match (self.transitions.len(), sends, ticks) {
            (_, 0, _) => Some(Kind::Input),
            (1, 1, _) => Some(Kind::OutputOnly),
            (2, 1, 1) => Some(Kind::Delayed),
            _ => None,
        }
    }
}

/// A side.
#[derive(Clone, Debug, Default, PartialEq, Eq)]
pub struct Side {
    /// What stands behind its heading's colon.
    pub title: String,
    /// Its states, the start first.
    pub states: Vec<State>,
    /// Its labels by their numbers.
    pub labels: Vec<String>,
}

/// A rule.
#[derive(Clone, Debug, PartialEq, Eq)]
pub struct Rule {
    /// What it says in words, on one line.
    pub sentence: String,
    /// The number of its formula.
    pub formula: usize,
}

/// A design with its names.
#[derive(Clone, Debug, Default, PartialEq, Eq)]
pub struct Design {
    /// What it is called.
    pub title: String,
    /// Kernel, host and perhaps a third side.
    pub sides: Vec<Side>,
    /// The signals: number n is at n - 1.
    pub signals: Vec<String>,
    /// The formulas of the rules.
    pub formulas: Formulas,
    /// For a design that was read from bytes, the record of each formula that has one; else empty.
    pub numbers: Vec<Option<u8>>,
    /// The rules.
    pub rules: Vec<Rule>,
    /// Its last two blocks: formulas and rules.
    pub blocks: Vec<u8>,
}

impl Design {
    /// The bytes that the library takes.
    pub fn bytes(&self) -> Vec<u8> {
        [side_blocks(&self.sides), self.blocks.clone()].concat()
    }

    /// The last two blocks of a design with the same sides, whose rules are these formulas.
    pub fn blocks_of(&self, formulas: &[usize]) -> Result<Vec<u8>, Refused> {
        let numbers: Option<Vec<u8>> =
            formulas.iter().map(|&formula| self.numbers.get(formula).copied().flatten()).collect();
        match numbers {
            // A design from bytes keeps its formulas.
            Some(numbers) if !self.numbers.is_empty() => {
                let mut blocks = self.blocks[..BLOCK].to_vec();
                blocks.extend(sealed(4, numbers.len(), &numbers));
                Ok(blocks)
            }
            _ => {
                let lines = formulas.iter().map(|&formula| self.formulas.typed(formula) + "\n");
                library::rules(&lines.collect::<String>()).map(|(blocks, _)| blocks)
            }
        }
    }

    /// The bytes of a design with the same sides, whose rules are these formulas.
    pub fn with_rules(&self, formulas: &[usize]) -> Result<Vec<u8>, Refused> {
        Ok([side_blocks(&self.sides), self.blocks_of(formulas)?].concat())
    }

    /// What a side does, in words.
    pub fn event(&self, event: i8) -> String {
        match event {
            0 => "tick".to_string(),
            1.. => format!("read {}", self.signal(event)),
            _ => format!("send {}", self.signal(event)),
        }
    }

    /// The name of an event's signal, or its number where there is no such signal.
    pub fn signal(&self, event: i8) -> String {
        let number = usize::from(event.unsigned_abs());
        self.signals.get(number - 1).map_or(format!("{number}"), String::clone)
    }

    /// The name of a side's state, or its number where there is no such state.
    pub fn state(&self, side: usize, state: u8) -> String {
        let states = &self.sides[side].states;
        states.get(usize::from(state)).map_or(format!("{state}"), |state| state.name.clone())
    }

    /// The states that a record names, by name.
    pub fn names(&self, states: [u8; SIDES]) -> String {
        let names: Vec<String> =
            (0..self.sides.len()).map(|side| self.state(side, states[side])).collect();
        names.join(", ")
    }

    /// A proposition by its name: the label, with its side in front where another side has it too.
    /// One that no state holds is called by its number.
    pub fn label(&self, proposition: u8) -> String {
        let (side, bit) =
            (usize::from(proposition) / SIDE_LABELS, usize::from(proposition) % SIDE_LABELS);
        let held = self
            .sides
            .get(side)
            .is_some_and(|side| side.states.iter().any(|state| state.label_word >> bit & 1 == 1));
        if !held {
            return format!("p{proposition}");
        }
        let name = &self.sides[side].labels[bit];
        let others = self.sides.iter().enumerate().filter(|(other, _)| *other != side);
        if others.into_iter().any(|(_, other)| other.labels.contains(name)) {
            return format!("{}.{name}", SIDE_WORDS[side]);
        }
        name.clone()
    }

    /// Whether a proposition holds where the sides are in these states.
    pub fn holds(&self, states: [u8; SIDES], proposition: u8) -> bool {
        let (side, bit) =
            (usize::from(proposition) / SIDE_LABELS, usize::from(proposition) % SIDE_LABELS);
        self.sides.get(side).is_some_and(|own| {
            let state = own.states.get(usize::from(states[side]));
            state.is_some_and(|state| state.label_word >> bit & 1 == 1)
        })
    }

    /// The labels that hold where the sides are in these states, by name.
    pub fn holding(&self, states: [u8; SIDES]) -> Vec<String> {
        let all = 0..(SIDES * SIDE_LABELS) as u8;
        all.filter(|&label| self.holds(states, label)).map(|label| self.label(label)).collect()
    }

    /// The text of a formula, by the names of its labels.
    pub fn text(&self, formula: usize) -> String {
        self.formulas.text(formula, &|label| self.label(label))
    }

    /// The rules as the library reads them, a line each.
    pub fn typed(&self) -> String {
        self.rules.iter().map(|rule| self.formulas.typed(rule.formula) + "\n").collect()
    }
}

/// A block: its records stand behind one another in `bytes`.
pub fn sealed(kind: u8, records: usize, bytes: &[u8]) -> Vec<u8> {
    let mut block = vec![kind, records as u8, 0, 0];
    block.extend(bytes);
    block.resize(BLOCK - 2, 0);
    let check = block.iter().fold(0u16, |sum, &byte| sum.wrapping_add(u16::from(byte)));
    block.extend(check.to_le_bytes());
    block
}

/// The blocks of the sides. Each has 1 to 16 states, and each state at most 8 transitions.
pub fn side_blocks(sides: &[Side]) -> Vec<u8> {
    let mut blocks = Vec::with_capacity(FIVE_BLOCKS - RULE_BLOCKS);
    for (side, kind) in sides.iter().zip([1, 2, 6]) {
        let mut bytes = Vec::new();
        for state in &side.states {
            let end = bytes.len() + 20;
            bytes.extend(state.label_word.to_le_bytes());
            bytes.extend([state.transitions.len() as u8, 0]);
            for transition in &state.transitions {
                bytes.extend([transition.event as u8, transition.target as u8]);
            }
            bytes.resize(end, 0);
        }
        blocks.extend(sealed(kind, side.states.len(), &bytes));
    }
    blocks
}

/// A design from the bytes of a file, with numbers for names: state `s0`, signal `x1`, label `l16`.
/// The library has said that it refuses nothing of 1 to 8.
pub fn from_bytes(bytes: &[u8], title: &str) -> Design {
    let blocks: Vec<&[u8]> = bytes.chunks_exact(BLOCK).collect();
    let (own, last) = blocks.split_at(blocks.len() - 2);
    let sides = own.iter().enumerate().map(|(side, block)| Side {
        title: String::new(),
        states: block[4..]
            .chunks_exact(20)
            .take(usize::from(block[1]))
            .enumerate()
            .map(state_from)
            .collect(),
        labels: (0..SIDE_LABELS).map(|bit| format!("l{}", SIDE_LABELS * side + bit)).collect(),
    });
    let mut design = Design {
        title: title.to_string(),
        sides: sides.collect(),
        signals: (1..=MOST_SIGNALS).map(|signal| format!("x{signal}")).collect(),
        blocks: last.concat(),
        ..Design::default()
    };
    let mut formula_of = Vec::new();
    for (number, record) in last[0][4..].chunks_exact(4).take(usize::from(last[0][1])).enumerate() {
        let part = |operand: usize| -> usize { formula_of[usize::from(record[operand])] };
        let formula = match record[0] {
            1 => Formula::True,
            2 => Formula::False,
            3 => Formula::Label(record[1]),
            4 => {
                design.numbers.push(None);
                Formula::Not(design.formulas.add(Formula::Label(record[1])))
            }
            5 => Formula::And(part(1), part(2)),
            6 => Formula::Or(part(1), part(2)),
            7 => Formula::Next(part(1)),
            8 => Formula::Until(part(1), part(2)),
            _ => Formula::Always(part(1)),
        };
        design.numbers.push(Some(number as u8));
        formula_of.push(design.formulas.add(formula));
    }
    let rules = last[1][4..].iter().take(usize::from(last[1][1]));
    design.rules = rules
        .map(|&rule| Rule {
            sentence: format!("Formula {rule} of the file."),
            formula: formula_of[usize::from(rule)],
        })
        .collect();
    design
}

fn state_from((number, record): (usize, &[u8])) -> State {
    State {
        name: format!("s{number}"),
        label_word: u16::from_le_bytes([record[0], record[1]]),
        transitions: record[4..]
            .chunks_exact(2)
            .take(usize::from(record[2]))
            .map(|place| Transition { event: place[0] as i8, target: usize::from(place[1]) })
            .collect(),
    }
}
