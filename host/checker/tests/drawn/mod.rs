//! Sides that leave it to the converter where to go, and converters drawn for them.

// Each test file uses some of these.
#![allow(dead_code)]

use std::array::from_fn;

use checker::bytes::{Design, Formula, Record, State, SIDES};
use checker::generate::Random;

use crate::samples::{record, state};

/// A drawn converter: for each record the kernel's state, and the records to which its
/// transitions lead.
pub type Drawn = Vec<(u8, Vec<usize>)>;

/// Sides that leave it to the converter where to go: each of the kernel's eight states goes to
/// state n where it reads n, and the host has one state, which reads any of 0 to 7.
pub fn free_sides(labels: [u16; 8]) -> [Vec<State>; SIDES] {
    let to_each: Vec<(i8, u8)> = (0..8).map(|number| (number, number as u8)).collect();
    let kernel = labels.map(|label| State { label, ..state(&[], &to_each) }).to_vec();
    let host = state(&[], &to_each.iter().map(|&(event, _)| (event, 0)).collect::<Vec<_>>());
    [kernel, vec![host], vec![state(&[], &[(0, 0)])]]
}

/// Free sides with these formulas and rules. The number of the kernel's state is its label word,
/// so that no proposition holds at the start.
pub fn free_design(formulas: &[Formula], rules: &[u8]) -> Design {
    let sides = free_sides(from_fn(|number| number as u16));
    Design { sides, formulas: formulas.to_vec(), rules: rules.to_vec() }
}

/// A drawn converter as records.
pub fn drawn(records: &[(u8, Vec<usize>)]) -> Vec<Record> {
    let drawn_record = |(named, next): &(u8, Vec<usize>)| {
        let link = |(place, &to): (usize, &usize)| {
            ([-(records[to].0 as i8), -(place as i8), 0], to as u16)
        };
        let links: Vec<([i8; SIDES], u16)> = next.iter().enumerate().map(link).collect();
        record([*named, 0, 0], &links)
    };
    records.iter().map(drawn_record).collect()
}

/// Number 2 is A(true U 0).
pub const TRUE_UNTIL_0: [Formula; 3] =
    [Formula::True, Formula::Proposition(0), Formula::Until(0, 1)];

/// A chain: each record leads to the next, and 0 holds at the last alone, which stays.
pub fn chain(records: usize) -> Drawn {
    braid(records, 1)
}

/// A braid: each record leads to the next few, and 0 holds at the last alone, which stays.
pub fn braid(records: usize, strands: usize) -> Drawn {
    let last = records - 1;
    let next = |at: usize| (1..=strands).map(|more| (at + more).min(last)).collect();
    (0..records).map(|at| (u8::from(at == last), next(at))).collect()
}

/// A structure by hand: for each record the kernel's state and the next records.
type ByHand<'a> = &'a [(u8, &'a [usize])];

/// Small structures, each with how long A(true U 0) waits, or none where it fails: 0 holds in
/// states 1 and 3.
pub fn small_structures() -> Vec<(Drawn, Option<u32>)> {
    let rows: [(ByHand, Option<u32>); 19] = [
        (&[(0, &[1]), (1, &[1])], Some(1)),
        (&[(0, &[1]), (0, &[2]), (1, &[2])], Some(2)),
        // Back to the start, or where it doesn't hold any more, once it has held.
        (&[(0, &[1]), (1, &[0])], Some(1)),
        (&[(0, &[1]), (1, &[2]), (0, &[2])], Some(1)),
        // Two transitions to one record.
        (&[(0, &[1, 1]), (1, &[1])], Some(1)),
        (&[(0, &[1, 1]), (2, &[2, 2]), (3, &[0])], Some(2)),
        // Two ends, and two ways to one end.
        (&[(0, &[1, 2]), (1, &[1]), (3, &[2])], Some(1)),
        (&[(0, &[1, 2]), (0, &[3]), (2, &[3]), (1, &[3])], Some(2)),
        // A short way and a long one, whichever stands first.
        (&[(0, &[1, 3]), (0, &[2]), (0, &[3]), (1, &[3])], Some(3)),
        (&[(0, &[3, 1]), (0, &[2]), (0, &[3]), (1, &[3])], Some(3)),
        (&[(0, &[1, 3]), (1, &[1]), (1, &[2]), (0, &[2])], Some(2)),
        // Record 2 comes after one tick and again after two; below, record 3 after two to four.
        (&[(0, &[1, 2]), (0, &[2]), (0, &[3]), (1, &[3])], Some(3)),
        (&[(0, &[2, 1, 4]), (0, &[4]), (0, &[1, 3]), (1, &[3]), (0, &[3])], Some(4)),
        // Records that nothing leads to: for ever without 0, and longer on the way to it.
        (&[(0, &[1]), (1, &[1]), (0, &[2])], Some(1)),
        (&[(0, &[2]), (0, &[0]), (1, &[2]), (0, &[1])], Some(1)),
        // A path stays without 0.
        (&[(0, &[0, 1]), (1, &[1])], None),
        (&[(0, &[1, 2]), (1, &[1]), (0, &[2])], None),
        (&[(0, &[1, 2]), (2, &[0]), (1, &[1])], None),
        (&[(0, &[1, 3]), (0, &[2]), (0, &[1]), (1, &[3])], None),
    ];
    let owned = |records: ByHand| -> Drawn {
        records.iter().map(|&(named, next)| (named, next.to_vec())).collect()
    };
    rows.iter().map(|&(records, ticks)| (owned(records), ticks)).collect()
}

/// A converter for free sides that mostly leads on, to one of the next few records.
pub fn leading_far(random: &mut Random, records: usize) -> Drawn {
    let (reach, back) = (random.from_to(1, 4), random.from_to(5, 200));
    let next = |random: &mut Random, at: usize| {
        if random.once_in(back) {
            random.below(records)
        } else {
            (at + random.from_to(1, reach)).min(records - 1)
        }
    };
    let most = random.from_to(1, 4);
    let mut record = |at: usize| {
        let named = if at == 0 { 0 } else { random.below(8) as u8 };
        let count = random.from_to(1, most);
        (named, (0..count).map(|_| next(random, at)).collect())
    };
    (0..records).map(&mut record).collect()
}
