//! Judgements of the library and of the second checker over long converters
//! whose records stand in no order.

mod common;

use checker::bytes::{
    converter_bytes, positions, read_converter_memory, Design, Formula, Record, SIDES,
};
use checker::generate::{ruled_design, Random, Shape};
use common::graphs::{converter, graph, holding, sides, waiting};
use common::{found, judge_agrees, Answers};
use gorzhani::{Refused, CELL, NO_WAIT, RECORD};

/// Judges a converter by both against each of these rules alone.
fn each_rule(
    design: &Design,
    converter: &[Record],
    rules: impl Iterator<Item = usize>,
    answers: &mut Answers,
) {
    let bytes = converter_bytes(converter);
    for rule in rules {
        let alone = Design { rules: vec![rule as u8], ..design.clone() };
        let answer = judge_agrees(&alone.to_bytes(), &bytes, CELL * converter.len());
        answers.count(answer);
    }
}

#[test]
fn graphs_in_no_order() {
    let mut random = Random::new(901);
    let mut answers = Answers::default();
    for round in 0..1_500 {
        let places = random.from_to(2, if round % 10 == 0 { 1_000 } else { 100 });
        let (next, held) = (graph(&mut random, places), holding(&mut random, places));
        let design = Design { sides: sides(), formulas: waiting(&mut random), rules: vec![] };
        let made = converter(&mut random, &next, &held);
        each_rule(&design, &made, (7..24).step_by(3), &mut answers);
    }
    answers.are(&[0, 15], 3_000);
}

/// A long chain at whose end proposition 0 holds: what is reached, and what
/// holds until then.
#[test]
fn long_chains_in_no_order() {
    let mut random = Random::new(902);
    let formulas = vec![
        Formula::True,
        Formula::Proposition(0),
        Formula::NotProposition(0),
        Formula::Until(0, 1),
        Formula::Until(2, 1),
        Formula::Always(2),
        Formula::Always(3),
        Formula::Until(3, 5),
        Formula::Always(0),
    ];
    let design = Design { sides: sides(), formulas, rules: vec![] };
    for places in [2, 3, 4, 5, 100, 1_000, 20_000] {
        let next: Vec<Vec<usize>> = (0..places).map(|at| vec![(at + 1).min(places - 1)]).collect();
        let mut held = vec![[0; SIDES]; places];
        held[places - 1][0] = 1;
        let bytes = converter_bytes(&converter(&mut random, &next, &held));
        let (no, there) = (Err(Refused::RULE), places as u32 - 1);
        let waits =
            [(3, Ok(there)), (4, Ok(there)), (5, no), (6, Ok(NO_WAIT)), (7, no), (8, Ok(NO_WAIT))];
        for (rule, expected) in waits {
            let alone = Design { rules: vec![rule], ..design.clone() };
            let (mut work, mut wait) = (vec![0xA5; CELL * places], [7]);
            let judged = gorzhani::judge(&alone.to_bytes(), &bytes, &mut work, &mut wait);
            assert_eq!(judged.map(|()| wait[0]), expected, "{places} {rule}");
            assert!(work.iter().all(|&byte| byte == 0));
        }
    }
}

#[test]
fn found_ones_in_no_order() {
    let mut random = Random::new(903);
    let mut answers = Answers::default();
    while answers.total() < 2_000 {
        let made = ruled_design(&mut random, &Shape::SMALL);
        if positions(&made) > 1 << 12 {
            continue;
        }
        let Some(table) = found(&made.to_bytes()) else { continue };
        if table.len() < 6 * RECORD {
            continue;
        }
        let sound = read_converter_memory(&table).expect("a converter found is right in itself");
        let mut number: Vec<usize> = (0..sound.len()).collect();
        random.shuffle(&mut number[1..]);
        let mut mixed = sound.clone();
        for (at, record) in sound.into_iter().enumerate() {
            mixed[number[at]] = record;
        }
        for link in mixed.iter_mut().flat_map(|record| &mut record.links) {
            link.next = number[usize::from(link.next)] as u16;
        }
        let bytes = converter_bytes(&mixed);
        assert_eq!(judge_agrees(&made.to_bytes(), &bytes, CELL * mixed.len()), 0);
        each_rule(&made, &mixed, 0..made.formulas.len(), &mut answers);
    }
    answers.are(&[0, 15], 300);
}
