//! The library against its own steps in plain Rust: the same count, and the
//! same bytes in the table and in the work. So the benchmark's ratio between
//! the two is one between two ways to run the same computation.

mod common;

use checker::bytes::positions;
use checker::generate::{any_bytes, ruled_design, Random, Shape};
use common::{about, mixed_design, size, Answers};
use gorzhani::{Refused, CELL, RECORD};

/// Bytes that aren't zero.
fn pattern(length: usize) -> Vec<u8> {
    (0..length).map(|at| (at % 251 + 1) as u8).collect()
}

/// Searches by both with lent buffers of these lengths. The answer, 0 for a converter.
fn same(bytes: &[u8], table_length: usize, work_length: usize) -> u8 {
    let (mut table, mut work) = (pattern(table_length), pattern(work_length));
    let (mut other_table, mut other_work) = (table.clone(), work.clone());
    let answer = gorzhani::search(bytes, &mut table, &mut work);
    let other = baseline::same::search(bytes, &mut other_table, &mut other_work);
    assert_eq!(answer.map_err(|Refused(number)| number), other);
    assert!(table == other_table && work == other_work);
    other.err().unwrap_or(0)
}

#[test]
fn random_designs() {
    let mut random = Random::new(401);
    let mut answers = Answers::default();
    for round in 0..12_000 {
        let made = mixed_design(&mut random, round);
        let bytes = any_bytes(&mut random, &made);
        let size = size(&bytes, 1 << 13);
        let table_length = about(&mut random, RECORD * size);
        let work_length = about(&mut random, CELL * size);
        answers.count(same(&bytes, table_length, work_length));
    }
    answers.are(&[0, 9, 12, 13, 16], 50);
}

#[test]
fn large_designs() {
    let mut random = Random::new(402);
    let mut answers = Answers::default();
    let shape = Shape { transitions: 4, propositions: 6, formulas: 24, rules: 5, ..Shape::FULL };
    while answers.total() < 300 {
        let made = ruled_design(&mut random, &shape);
        if (4_097..=65_536).contains(&positions(&made)) {
            let size = positions(&made) as usize;
            answers.count(same(&made.to_bytes(), RECORD * size, CELL * size));
        }
    }
    answers.are(&[0, 16], 30);
}
