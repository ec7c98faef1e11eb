//! What the library says of a formula at a record.

use std::collections::HashMap;

use gorzhani::Refused;

use crate::design::{side_blocks, Design, Side, State, Transition, SIDES};
use crate::library;
use crate::records::{Link, Record};

/// Whether a formula holds at a record of a matched converter, by the library's judge. A rule is
/// asked for at the start alone, so the judge is handed the same design and converter with other
/// numbers: the record is record 0, and the states that it names are the states 0 of their sides.
/// Without a temporal part a formula says something of these states alone, so that they are enough.
pub fn holds_at(
    design: &Design,
    records: &[Record],
    formula: usize,
    record: usize,
) -> Result<bool, Refused> {
    let first = records[record].states;
    let at = |(side, state): (&Side, u8)| match design.formulas.temporal(formula) {
        true => begun_at(side, state),
        false => resting_at(side, state),
    };
    let sides: Vec<Side> = design.sides.iter().zip(first).map(at).collect();
    let records = match design.formulas.temporal(formula) {
        true => renumbered(records, record),
        false => {
            vec![Record { states: [0; SIDES], links: vec![Link { events: [0; SIDES], next: 0 }] }]
        }
    };
    let bytes = [side_blocks(&sides), design.blocks_of(&[formula])?].concat();
    match library::judge(&bytes, &records) {
        Ok(_) => Ok(true),
        Err(Refused::RULE) => Ok(false),
        Err(other) => Err(other),
    }
}

/// A number after two have been exchanged: `one` and 0.
fn exchanged<T: Copy + Default + PartialEq>(number: T, one: T) -> T {
    match number {
        _ if number == one => T::default(),
        _ if number == T::default() => one,
        _ => number,
    }
}

/// A side in which a state and state 0 have exchanged their numbers.
fn begun_at(side: &Side, state: u8) -> Side {
    let mut side = side.clone();
    side.states.swap(0, usize::from(state));
    for transition in side.states.iter_mut().flat_map(|state| &mut state.transitions) {
        transition.target = exchanged(transition.target, usize::from(state));
    }
    side
}

/// A side that rests in a state for ever: what holds there is the same.
fn resting_at(side: &Side, state: u8) -> Side {
    let transitions = vec![Transition { event: 0, target: 0 }];
    let state = State { transitions, ..side.states[usize::from(state)].clone() };
    Side { states: vec![state], ..side.clone() }
}

/// A converter in which a record and record 0 have exchanged their numbers, and so have the states
/// that the record names and the states 0.
fn renumbered(records: &[Record], record: usize) -> Vec<Record> {
    let first = records[record].states;
    let mut records = records.to_vec();
    records.swap(0, record);
    for own in &mut records {
        for (state, one) in own.states.iter_mut().zip(first) {
            *state = exchanged(*state, one);
        }
        for link in &mut own.links {
            link.next = exchanged(link.next, record as u16);
        }
    }
    records
}

/// The library's answers, each asked for once.
pub struct Asked<'a> {
    design: &'a Design,
    records: &'a [Record],
    /// The first record that names these states.
    first: HashMap<[u8; SIDES], usize>,
    /// The answers, of a formula at a record.
    answers: HashMap<(usize, usize), Result<bool, Refused>>,
}

impl<'a> Asked<'a> {
    /// Nothing is asked yet.
    pub fn new(design: &'a Design, records: &'a [Record]) -> Asked<'a> {
        let mut first = HashMap::new();
        for (number, record) in records.iter().enumerate() {
            first.entry(record.states).or_insert(number);
        }
        Asked { design, records, first, answers: HashMap::new() }
    }

    /// Whether the library says that a formula holds, or that it fails, at a record. A formula
    /// without a temporal part is asked for once for all records that name the same states.
    pub fn confirms(&mut self, formula: usize, record: usize, holds: bool) -> bool {
        let (design, records) = (self.design, self.records);
        let record = match design.formulas.temporal(formula) {
            true => record,
            false => self.first[&records[record].states],
        };
        let asked = self.answers.entry((formula, record));
        *asked.or_insert_with(|| holds_at(design, records, formula, record)) == Ok(holds)
    }
}
