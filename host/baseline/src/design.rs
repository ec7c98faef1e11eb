//! A design in flat arrays.

use std::array::from_fn;

use crate::converter::RECORD;
use crate::joints;
use crate::{blank, check, demand, in_range, word};

/// How many sides there are: the kernel, the host and the third side.
pub const SIDES: usize = 3;
/// The most states of a side.
pub const STATES: usize = 16;
/// The transition places of a state, and of a converter record.
pub const PLACES: usize = 8;
/// The labels of a side: the bits of a label word.
pub const LABELS: usize = 16;
/// How many propositions there are: the labels of each side.
const PROPOSITIONS: usize = LABELS * SIDES;

/// The kinds of the blocks of sides, at least so many of which there are, and
/// of the two behind them: the formulas and the rules.
const SIDE_KINDS: [u8; SIDES] = [1, 2, 6];
const LEAST_SIDES: usize = 2;
const OTHER_KINDS: [u8; 2] = [3, 4];

/// An input state: no sent event.
pub const INPUT: u8 = 0;
/// An output-only state: a single transition, sent.
pub const OUTPUT: u8 = 1;
/// A delayed state: one sent, one tick.
pub const DELAYED: u8 = 2;

/// No target.
pub const NOWHERE: u8 = 255;

/// A state of a side.
#[derive(Clone, Copy)]
pub struct State {
    /// The label word.
    pub label: u16,
    /// One of the three kinds.
    pub kind: u8,
    /// How many transitions are used.
    pub count: usize,
    /// Their events.
    pub events: [i8; PLACES],
    /// Their targets.
    pub targets: [u8; PLACES],
}

const EMPTY: State =
    State { label: 0, kind: INPUT, count: 0, events: [0; PLACES], targets: [0; PLACES] };

/// The one state of a side that has no block: it ticks and stays.
const RESTING: State = State { count: 1, ..EMPTY };

/// A design.
pub struct Design {
    /// How many states each side has.
    pub states: [usize; SIDES],
    /// The states of each side.
    pub sides: [[State; STATES]; SIDES],
    /// Kind, first and second operand of each formula.
    pub formulas: Vec<[u8; 3]>,
    /// The rules.
    pub rules: Vec<u8>,
}

impl Design {
    /// Reads a design, or declines with 1 to 8.
    pub fn read(bytes: &[u8]) -> Result<Design, u8> {
        let blocks: Vec<&[u8]> = bytes.chunks_exact(512).collect();
        let held = blocks.len().saturating_sub(OTHER_KINDS.len());
        let whole = 512 * blocks.len() == bytes.len();
        demand(whole && (LEAST_SIDES..=SIDES).contains(&held), 1)?;
        let (formulas_at, rules_at) = (held, held + 1);
        demand(blocks.iter().all(|block| check(block) == word(block, 510)), 2)?;
        let kinds = SIDE_KINDS[..held].iter().chain(&OTHER_KINDS);
        let headed = |(&kind, block): (&u8, &&[u8])| block[0] == kind && word(block, 2) == 0;
        demand(kinds.zip(&blocks).all(headed), 3)?;
        let count = |at: usize| usize::from(blocks[at][1]);
        let states: [usize; SIDES] = from_fn(|side| if side < held { count(side) } else { 1 });
        let counted = states.iter().all(|count| (1..=STATES).contains(count));
        demand(counted && count(formulas_at) <= 64 && count(rules_at) <= 16, 4)?;
        // The records of each block, and what is behind them.
        let size = |at: usize| [20, 4, 1][(at + 1).saturating_sub(held)];
        let parts: Vec<(&[u8], &[u8])> =
            (0..blocks.len()).map(|at| blocks[at][4..510].split_at(size(at) * count(at))).collect();
        let records = |at: usize| parts[at].0.chunks_exact(size(at));
        let mut sides = [[EMPTY; STATES]; SIDES];
        for (side, states_of) in sides.iter_mut().enumerate() {
            if side >= held {
                states_of[0] = RESTING;
                continue;
            }
            for (state, record) in states_of.iter_mut().zip(records(side)) {
                *state = read_state(record, states[side]).ok_or(5)?;
            }
        }
        for (side, &count) in sides.iter_mut().zip(&states) {
            for state in &mut side[..count] {
                state.kind = kind(state).ok_or(6)?;
            }
        }
        let formulas: Vec<[u8; 3]> =
            records(formulas_at).map(|record| [record[0], record[1], record[2]]).collect();
        let right = |(number, formula): (usize, &[u8; 3])| operands_right(number, formula);
        demand(formulas.iter().enumerate().all(right), 7)?;
        let rules = parts[rules_at].0.to_vec();
        demand(rules.iter().all(|&rule| usize::from(rule) < formulas.len()), 7)?;
        let tails = parts.iter().all(|(_, behind)| blank(behind));
        let unused = |state: &[u8]| state[3] == 0 && blank(&state[4 + 2 * usize::from(state[2])..]);
        let state_records = (0..held).all(|side| records(side).all(unused));
        let absent = |record: &[u8]| {
            let operands = match record[0] {
                1 | 2 => 0,
                3 | 4 | 7 | 9 => 1,
                _ => 2,
            };
            blank(&record[1 + operands..])
        };
        let formula_records = records(formulas_at).all(absent);
        demand(tails && state_records && formula_records, 8)?;
        Ok(Design { states, sides, formulas, rules })
    }

    /// Which formulas are kept, as bits.
    pub fn kept(&self) -> u64 {
        let mut kept = 0;
        for (number, formula) in self.formulas.iter().enumerate() {
            match formula[0] {
                7 => kept |= 1 << formula[1],
                8 | 9 => kept |= 1 << number,
                _ => {}
            }
        }
        self.rules.iter().fold(kept, |kept, rule| kept | 1 << rule)
    }

    /// How many formulas are of kind 8.
    pub fn untils(&self) -> usize {
        self.formulas.iter().filter(|formula| formula[0] == 8).count()
    }

    /// The positions, for which the lent table and work must do; or 9, 12 and 13.
    pub fn room(&self, table: &[u8], work: &[u8]) -> Result<usize, u8> {
        let kept = self.kept().count_ones();
        let joints = joints::count(self.states);
        let positions = (joints * self.untils().max(1)).checked_shl(kept).filter(|_| kept <= 16);
        let positions = positions.filter(|&positions| positions <= 65_536).ok_or(9)?;
        demand(table.len() >= RECORD * positions, 12)?;
        demand(work.len() >= 16 * positions, 13)?;
        Ok(positions)
    }
}

/// A state whose transitions are right, of a side with so many states.
fn read_state(record: &[u8], states: usize) -> Option<State> {
    let count = usize::from(record[2]);
    if !(1..=PLACES).contains(&count) {
        return None;
    }
    let mut state = State { label: word(record, 0), count, ..EMPTY };
    let mut seen = 0_u128;
    for place in 0..count {
        let (event, target) = (record[4 + 2 * place], record[5 + 2 * place]);
        let bit = 1 << (event & 127);
        if !in_range(event) || usize::from(target) >= states || seen & bit != 0 {
            return None;
        }
        seen |= bit;
        state.events[place] = event as i8;
        state.targets[place] = target;
    }
    Some(state)
}

/// The kind of a state.
fn kind(state: &State) -> Option<u8> {
    let events = &state.events[..state.count];
    match (events.iter().filter(|&&event| event < 0).count(), state.count) {
        (0, _) => Some(INPUT),
        (1, 1) => Some(OUTPUT),
        (1, 2) => events.contains(&0).then_some(DELAYED),
        _ => None,
    }
}

/// Whether a formula has a known kind and operands that its kind may have.
fn operands_right(number: usize, formula: &[u8; 3]) -> bool {
    let lower = |at: usize| usize::from(formula[at]) < number;
    match formula[0] {
        1 | 2 => true,
        3 | 4 => usize::from(formula[1]) < PROPOSITIONS,
        5 | 6 | 8 => lower(1) && lower(2),
        7 | 9 => lower(1),
        _ => false,
    }
}
