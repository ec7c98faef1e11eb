//! Designs: the sides, the formulas and the rules, in five blocks, or in four where the
//! third side has none.

use std::collections::BTreeSet;
use std::ops::RangeInclusive;

use super::{
    headed, in_range, seal, sealed, word, BLOCK_BYTES, CHECKED_BYTES, FIVE_BLOCKS, FORMULA_BYTES,
    FOUR_BLOCKS, HEADER_BYTES, MOST_FORMULAS, MOST_RULES, MOST_STATES, PLACES, PROPOSITIONS, SIDES,
    STATE_BYTES,
};
use crate::refusal::{self, demand};

/// The kind of the third side's block.
pub const THIRD_KIND: u8 = 6;
/// The kinds of the sides' blocks, in their order.
const SIDE_KINDS: [u8; SIDES] = [1, 2, THIRD_KIND];
/// The kind of the block that holds the formulas, behind those of the sides.
const FORMULA_KIND: u8 = 3;
/// The kind of the block that holds the rules, behind that of the formulas.
const RULE_KIND: u8 = 4;

/// One transition of a side.
#[derive(Clone, Copy, Debug, PartialEq, Eq, PartialOrd, Ord)]
pub struct Transition {
    /// 0 is the tick, above 0 is read, below 0 is sent.
    pub event: i8,
    /// The state it leads to.
    pub target: u8,
}

/// One state of a side.
#[derive(Clone, Debug, PartialEq, Eq)]
pub struct State {
    /// Bit k set means that label k of this side holds.
    pub label: u16,
    /// The used transition places, in order.
    pub transitions: Vec<Transition>,
}

/// The three kinds of states that a side may have.
#[derive(Clone, Copy, Debug, PartialEq, Eq)]
pub enum StateKind {
    /// No sent event.
    Input,
    /// A single transition, sent.
    OutputOnly,
    /// Two transitions: one sent, one a tick.
    Delayed,
}

impl State {
    /// The kind of this state, or none of the three. Where a tick leads has no part in it.
    pub fn kind(&self) -> Option<StateKind> {
        let sent = self.transitions.iter().filter(|t| t.event < 0).count();
        let ticks = self.transitions.iter().filter(|t| t.event == 0).count();
        match (sent, ticks, self.transitions.len()) {
            (0, _, _) => Some(StateKind::Input),
            (1, 0, 1) => Some(StateKind::OutputOnly),
            (1, 1, 2) => Some(StateKind::Delayed),
            _ => None,
        }
    }

    /// The target that this state has for an event.
    pub fn target(&self, event: i8) -> Option<usize> {
        self.transitions.iter().find(|t| t.event == event).map(|t| usize::from(t.target))
    }
}

/// A formula. Operands other than propositions are numbers of lower formulas.
#[derive(Clone, Copy, Debug, PartialEq, Eq)]
pub enum Formula {
    /// Kind 1.
    True,
    /// Kind 2.
    False,
    /// Kind 3, a proposition holds.
    Proposition(u8),
    /// Kind 4, a proposition doesn't hold.
    NotProposition(u8),
    /// Kind 5.
    And(usize, usize),
    /// Kind 6.
    Or(usize, usize),
    /// Kind 7, AX a.
    Next(usize),
    /// Kind 8, A(a U b).
    Until(usize, usize),
    /// Kind 9, AG a.
    Always(usize),
}

/// A design: the sides, the formulas, and the numbers of those that are rules.
#[derive(Clone, Debug, PartialEq, Eq)]
pub struct Design {
    /// The states of each side: the kernel's, the host's, then the third side's.
    pub sides: [Vec<State>; SIDES],
    /// The formulas by number.
    pub formulas: Vec<Formula>,
    /// The rules, each a formula number.
    pub rules: Vec<u8>,
}

impl Design {
    /// The formulas that the specification calls kept: kind 8, kind 9, the
    /// operand of some kind 7, or a rule.
    pub fn kept(&self) -> BTreeSet<usize> {
        let mut kept: BTreeSet<usize> = self.rules.iter().map(|&r| usize::from(r)).collect();
        for (number, formula) in self.formulas.iter().enumerate() {
            match *formula {
                Formula::Until(..) | Formula::Always(_) => kept.insert(number),
                Formula::Next(operand) => kept.insert(operand),
                _ => false,
            };
        }
        kept
    }

    /// The numbers of the kind 8 formulas.
    pub fn untils(&self) -> BTreeSet<usize> {
        (0..self.formulas.len())
            .filter(|&number| matches!(self.formulas[number], Formula::Until(..)))
            .collect()
    }

    /// The design as sealed blocks: four where its third side is idle, else five.
    ///
    /// Nothing is checked beyond what the places hold, so that designs which a
    /// reader must refuse can be written too.
    pub fn to_bytes(&self) -> Vec<u8> {
        let idle = self.sides[SIDES - 1] == idle_side();
        self.with_side_blocks(if idle { SIDES - 1 } else { SIDES })
    }

    /// The design as five sealed blocks, whatever its third side is.
    pub fn to_five_blocks(&self) -> Vec<u8> {
        self.with_side_blocks(SIDES)
    }

    /// The design as sealed blocks, of which so many are sides'.
    fn with_side_blocks(&self, sides: usize) -> Vec<u8> {
        let mut bytes = Vec::new();
        for (kind, states) in SIDE_KINDS.into_iter().zip(&self.sides).take(sides) {
            bytes.extend(state_block(kind, states));
        }
        seal(&mut bytes);
        bytes.extend(rule_blocks(&self.formulas, &self.rules));
        bytes
    }
}

/// The side that has no block where a design has four: one ticking state without labels.
pub fn idle_side() -> Vec<State> {
    vec![State { label: 0, transitions: vec![Transition { event: 0, target: 0 }] }]
}

/// The number of positions of a design.
pub fn positions(design: &Design) -> u128 {
    let states = design.sides.iter().map(|side| side.len() as u128).product::<u128>();
    let untils = design.untils().len().max(1) as u128;
    (states * untils) << design.kept().len()
}

/// Reads a design, or declines with 1 to 8.
pub fn read_design(bytes: &[u8]) -> Result<Design, u8> {
    let blocks = design_blocks(bytes)?;
    let (side_blocks, others) = blocks.split_at(blocks.len() - 2);
    let sides: Option<Vec<Vec<State>>> =
        side_blocks.iter().map(|block| read_states(block)).collect();
    let mut sides = sides.ok_or(refusal::TRANSITIONS)?;
    let of_a_kind = |side: &Vec<State>| side.iter().all(|state| state.kind().is_some());
    demand(sides.iter().all(of_a_kind), refusal::STATE_KIND)?;

    let formulas = read_formulas(others[0]).ok_or(refusal::FORMULA)?;
    let rules = others[1][HEADER_BYTES..][..usize::from(others[1][1])].to_vec();
    let named = rules.iter().all(|&rule| usize::from(rule) < formulas.len());
    demand(named, refusal::FORMULA)?;

    let spare = used_bytes(&sides, &formulas, &rules)
        .iter()
        .zip(&blocks)
        .all(|(used, block)| (0..BLOCK_BYTES).all(|at| used.contains(&at) || block[at] == 0));
    demand(spare, refusal::UNUSED)?;

    // Where the third side has no block, it is idle.
    sides.resize_with(SIDES, idle_side);
    let sides = sides.try_into().expect("there are as many as sides");
    Ok(Design { sides, formulas, rules })
}

/// The blocks of a design: those of the sides, then the formulas' and the rules'; or it
/// declines with 1 to 4.
fn design_blocks(bytes: &[u8]) -> Result<Vec<&[u8]>, u8> {
    let side_kinds = match bytes.len() {
        FOUR_BLOCKS => &SIDE_KINDS[..SIDES - 1],
        FIVE_BLOCKS => &SIDE_KINDS[..],
        _ => return Err(refusal::LENGTH),
    };
    let blocks: Vec<&[u8]> = bytes.chunks(BLOCK_BYTES).collect();
    demand(blocks.iter().all(|block| sealed(block)), refusal::CHECK)?;
    let kinds = side_kinds.iter().copied().chain([FORMULA_KIND, RULE_KIND]);
    let headers = kinds.clone().zip(&blocks).all(|(kind, block)| headed_right(kind, block));
    demand(headers, refusal::HEADER)?;
    let counts = kinds.zip(&blocks).all(|(kind, block)| limits(kind).contains(&block[1]));
    demand(counts, refusal::COUNT)?;
    Ok(blocks)
}

/// Whether a block has this kind, and 0 as its first record.
fn headed_right(kind: u8, block: &[u8]) -> bool {
    block[0] == kind && word(block, 2) == 0
}

/// How many records a block of this kind may have.
fn limits(kind: u8) -> RangeInclusive<u8> {
    match kind {
        FORMULA_KIND => 0..=MOST_FORMULAS as u8,
        RULE_KIND => 0..=MOST_RULES as u8,
        _ => 1..=MOST_STATES as u8,
    }
}

/// The states of a side block, unless one has a wrong count, event or target.
fn read_states(block: &[u8]) -> Option<Vec<State>> {
    let states = usize::from(block[1]);
    let records = block[HEADER_BYTES..].chunks(STATE_BYTES).take(states);
    records.map(|record| read_state(record, states)).collect()
}

/// One state of a side that has `states` states.
fn read_state(record: &[u8], states: usize) -> Option<State> {
    let count = usize::from(record[2]);
    if !(1..=PLACES).contains(&count) {
        return None;
    }
    let transitions: Vec<Transition> = record[4..]
        .chunks(2)
        .take(count)
        .map(|place| Transition { event: place[0] as i8, target: place[1] })
        .collect();
    let events: BTreeSet<i8> = transitions.iter().map(|t| t.event).collect();
    let right = events.len() == count
        && events.iter().all(|&event| in_range(event))
        && transitions.iter().all(|t| usize::from(t.target) < states);
    right.then(|| State { label: word(record, 0), transitions })
}

/// The formulas of a formula block, unless one is wrong.
fn read_formulas(block: &[u8]) -> Option<Vec<Formula>> {
    let records = block[HEADER_BYTES..].chunks(FORMULA_BYTES).take(usize::from(block[1]));
    records.enumerate().map(|(number, record)| read_formula(number, record)).collect()
}

/// Formula `number`, unless its kind is unknown or an operand is wrong.
/// Absent operands aren't looked at here: they are unused bytes.
fn read_formula(number: usize, record: &[u8]) -> Option<Formula> {
    let proposition =
        |at: usize| Some(record[at]).filter(|&named| usize::from(named) < PROPOSITIONS);
    let lower = |at: usize| Some(usize::from(record[at])).filter(|&operand| operand < number);
    Some(match record[0] {
        1 => Formula::True,
        2 => Formula::False,
        3 => Formula::Proposition(proposition(1)?),
        4 => Formula::NotProposition(proposition(1)?),
        5 => Formula::And(lower(1)?, lower(2)?),
        6 => Formula::Or(lower(1)?, lower(2)?),
        7 => Formula::Next(lower(1)?),
        8 => Formula::Until(lower(1)?, lower(2)?),
        9 => Formula::Always(lower(1)?),
        _ => return None,
    })
}

/// For each block, the places of the bytes that are used.
fn used_bytes(sides: &[Vec<State>], formulas: &[Formula], rules: &[u8]) -> Vec<BTreeSet<usize>> {
    let frame = || (0..HEADER_BYTES).chain(CHECKED_BYTES..BLOCK_BYTES);
    let of_side = |states: &Vec<State>| {
        let records = states.iter().enumerate().flat_map(|(number, state)| {
            let at = HEADER_BYTES + STATE_BYTES * number;
            (at..at + 3).chain(at + 4..at + 4 + 2 * state.transitions.len())
        });
        frame().chain(records).collect()
    };
    let formulas = formulas.iter().enumerate().flat_map(|(number, &formula)| {
        let at = HEADER_BYTES + FORMULA_BYTES * number;
        at..at + 1 + operands(formula)
    });
    let rules = HEADER_BYTES..HEADER_BYTES + rules.len();
    let others = [frame().chain(formulas).collect(), frame().chain(rules).collect()];
    sides.iter().map(of_side).chain(others).collect()
}

/// How many operands a formula has.
fn operands(formula: Formula) -> usize {
    match formula {
        Formula::True | Formula::False => 0,
        Formula::Proposition(_) | Formula::NotProposition(_) => 1,
        Formula::Next(_) | Formula::Always(_) => 1,
        Formula::And(..) | Formula::Or(..) | Formula::Until(..) => 2,
    }
}

/// A side as a block, not yet sealed.
fn state_block(kind: u8, states: &[State]) -> [u8; BLOCK_BYTES] {
    assert!(states.len() <= MOST_STATES, "a side has at most 16 states");
    let mut block = headed(kind, states.len(), 0);
    for (record, state) in block[HEADER_BYTES..].chunks_mut(STATE_BYTES).zip(states) {
        assert!(state.transitions.len() <= PLACES, "a state has eight transition places");
        record[..2].copy_from_slice(&state.label.to_le_bytes());
        record[2] = state.transitions.len() as u8;
        for (place, transition) in record[4..].chunks_mut(2).zip(&state.transitions) {
            place.copy_from_slice(&[transition.event as u8, transition.target]);
        }
    }
    block
}

/// The formulas and the rules as two sealed blocks. Nothing is checked beyond what the places
/// hold.
pub fn rule_blocks(formulas: &[Formula], rules: &[u8]) -> Vec<u8> {
    let mut bytes = [formula_block(formulas), rule_block(rules)].concat();
    seal(&mut bytes);
    bytes
}

/// The formulas as a block, not yet sealed.
fn formula_block(formulas: &[Formula]) -> [u8; BLOCK_BYTES] {
    assert!(formulas.len() <= MOST_FORMULAS, "a design has at most 64 formulas");
    let mut block = headed(FORMULA_KIND, formulas.len(), 0);
    for (record, &formula) in block[HEADER_BYTES..].chunks_mut(FORMULA_BYTES).zip(formulas) {
        let (kind, a, b) = match formula {
            Formula::True => (1, 0, 0),
            Formula::False => (2, 0, 0),
            Formula::Proposition(a) => (3, a, 0),
            Formula::NotProposition(a) => (4, a, 0),
            Formula::And(a, b) => (5, a as u8, b as u8),
            Formula::Or(a, b) => (6, a as u8, b as u8),
            Formula::Next(a) => (7, a as u8, 0),
            Formula::Until(a, b) => (8, a as u8, b as u8),
            Formula::Always(a) => (9, a as u8, 0),
        };
        record[..3].copy_from_slice(&[kind, a, b]);
    }
    block
}

/// The rules as a block, not yet sealed.
fn rule_block(rules: &[u8]) -> [u8; BLOCK_BYTES] {
    assert!(rules.len() <= MOST_RULES, "a design has at most 16 rules");
    let mut block = headed(RULE_KIND, rules.len(), 0);
    block[HEADER_BYTES..][..rules.len()].copy_from_slice(rules);
    block
}
