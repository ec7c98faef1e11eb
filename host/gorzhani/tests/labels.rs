//! Whose label a proposition is, by the library and by the second checker: over designs
//! of which two sides set the same bits and have labels that the rules name, sound and damaged.

mod common;
#[path = "../../checker/tests/meanings/mod.rs"]
mod meanings;
#[path = "../../checker/tests/samples/mod.rs"]
mod samples;

use std::array::from_fn;

use checker::bytes::{converter_bytes, positions, seal, Design, Formula, SIDES};
use checker::generate::{
    any_bytes, matched_converter, named_propositions, nearly_matched_converter, progress_design,
    ruled_design, Random, Shape,
};
use checker::judge::failing_rules;
use checker::search::find;
use common::{judge_agrees, search_agrees, size, Answers};
use gorzhani::{Refused, BLOCK, CELL, RECORD};
use meanings::of_some_side;
use samples::{one_record, record_bytes, ticking};

/// The most positions of a sound design here.
const MOST: u128 = 1 << 10;

/// A design in which a label of one side can be taken for another's: some bit is set on
/// two sides, and the rules name labels of both.
fn mixed_labels(random: &mut Random, round: usize) -> Design {
    // All sixteen labels of a side, or few and so the same ones more often.
    let shape = [Shape::TINY, Shape::SMALL, Shape { propositions: 16, ..Shape::SMALL }][round % 3];
    let make = if round.is_multiple_of(2) { ruled_design } else { progress_design };
    loop {
        let made = make(random, &shape);
        let set =
            made.sides.each_ref().map(|side| side.iter().fold(0, |bits, state| bits | state.label));
        let named = sides_named(&made);
        let mistaken = |[a, b]: [usize; 2]| set[a] & set[b] != 0 && named[a] && named[b];
        if [[0, 1], [0, 2], [1, 2]].into_iter().any(mistaken) && positions(&made) <= MOST {
            return made;
        }
    }
}

/// Of which sides the rules of a design name labels.
fn sides_named(design: &Design) -> [bool; SIDES] {
    let mut named: Vec<[bool; SIDES]> = Vec::new();
    for formula in &design.formulas {
        named.push(match *formula {
            Formula::True | Formula::False => [false; SIDES],
            Formula::Proposition(p) | Formula::NotProposition(p) => {
                from_fn(|side| usize::from(p) / 16 == side)
            }
            Formula::Next(a) | Formula::Always(a) => named[a],
            Formula::And(a, b) | Formula::Or(a, b) | Formula::Until(a, b) => {
                from_fn(|side| named[a][side] || named[b][side])
            }
        });
    }
    from_fn(|side| design.rules.iter().any(|&rule| named[usize::from(rule)][side]))
}

/// Searches by both with just as much as is asked for.
fn searched(bytes: &[u8]) -> u8 {
    let size = size(bytes, 1 << 16);
    search_agrees(bytes, RECORD * size, CELL * size)
}

/// By the paper's Definition 2, where a proposition holds of some side, thousands would
/// end otherwise.
#[test]
fn searches() {
    let mut random = Random::new(1_001);
    let mut answers = Answers::default();
    let mut others = 0;
    for round in 0..20_000 {
        let made = mixed_labels(&mut random, round);
        let answer = searched(&any_bytes(&mut random, &made));
        answers.count(answer);
        others += usize::from((answer == 16) != find(&of_some_side(&made)).is_none());
    }
    answers.are(&[0, 16], 5_000);
    assert!(others > 2_000, "{others}");
}

/// By Definition 2 thousands would end otherwise here too.
#[test]
fn judgements() {
    let mut random = Random::new(1_002);
    let mut answers = Answers::default();
    let mut others = 0;
    for round in 0..20_000 {
        let made = mixed_labels(&mut random, round);
        let spare = random.below(8);
        let make = if round % 4 == 3 { nearly_matched_converter } else { matched_converter };
        let converter = make(&mut random, &made, spare);
        let bytes = converter_bytes(&converter);
        let design = any_bytes(&mut random, &made);
        let answer = judge_agrees(&design, &bytes, CELL * converter.len());
        answers.count(answer);
        if answer != 14 {
            let kept = failing_rules(&of_some_side(&made), &converter).is_empty();
            others += usize::from((answer == 0) != kept);
        }
    }
    answers.are(&[0, 14, 15], 2_000);
    assert!(others > 2_000, "{others}");
}

/// Searches the design of these bytes and judges a converter against it.
fn searched_and_judged(bytes: &[u8], converter: &[u8]) -> [u8; 2] {
    [searched(bytes), judge_agrees(bytes, converter, CELL * (converter.len() / RECORD))]
}

/// A design as bytes, and a converter matched to its sides.
fn design_and_converter(random: &mut Random, round: usize) -> (Vec<u8>, Vec<u8>) {
    let made = mixed_labels(random, round);
    let converter = matched_converter(random, &made, 2);
    (any_bytes(random, &made), converter_bytes(&converter))
}

/// A byte of a header or of a record gets another value, at times with the checks as
/// they were.
#[test]
fn damaged_at_one_byte() {
    let mut random = Random::new(1_003);
    let (mut searched, mut judged) = (Answers::default(), Answers::default());
    for round in 0..10_000 {
        let (mut bytes, converter) = design_and_converter(&mut random, round);
        let block = random.below(bytes.len() / BLOCK);
        let at = BLOCK * block + random.below(4 + record_bytes(&bytes, block));
        bytes[at] = bytes[at].wrapping_add(random.from_to(1, 255) as u8);
        if round % 16 > 0 {
            seal(&mut bytes);
        }
        let [search, judge] = searched_and_judged(&bytes, &converter);
        searched.count(search);
        judged.count(judge);
    }
    searched.are(&[0, 2, 3, 4, 5, 6, 7, 8, 16], 50);
    judged.are(&[0, 2, 3, 4, 5, 6, 7, 8, 14, 15], 50);
}

/// A formula names a label of a side that there isn't.
#[test]
fn propositions_over_47() {
    let mut random = Random::new(1_004);
    for round in 0..10_000 {
        let (mut bytes, converter) = design_and_converter(&mut random, round);
        let at = *random.pick(&named_propositions(&bytes));
        bytes[at] = random.from_to(48, 255) as u8;
        seal(&mut bytes);
        assert_eq!(searched_and_judged(&bytes, &converter), [7, 7], "{bytes:?}");
        assert_eq!(gorzhani::positions(&bytes), Err(Refused::FORMULA), "{bytes:?}");
    }
}

/// A formula names the same label of another side: that is as sound, and means
/// something else.
#[test]
fn propositions_of_another_side() {
    let mut random = Random::new(1_005);
    let mut answers = Answers::default();
    let mut others = [0, 0];
    for round in 0..10_000 {
        let (mut bytes, converter) = design_and_converter(&mut random, round);
        let before = searched_and_judged(&bytes, &converter);
        let at = *random.pick(&named_propositions(&bytes));
        bytes[at] = (bytes[at] + 16 * random.from_to(1, 2) as u8) % 48;
        seal(&mut bytes);
        let after = searched_and_judged(&bytes, &converter);
        answers.count(after[0]);
        answers.count(after[1]);
        others[0] += usize::from(before[0] != after[0]);
        others[1] += usize::from(before[1] != after[1]);
    }
    answers.are(&[0, 15, 16], 2_000);
    assert!(others.iter().all(|&count| count > 500), "{others:?}");
}

/// Every value of the byte in which a formula of kind 3 or 4 names a proposition, where
/// each side has one state.
#[test]
fn every_value_of_a_proposition() {
    let converter = converter_bytes(&one_record(&[[0; SIDES]]));
    let one_side = [[0xFFFF, 0, 0], [0, 0xFFFF, 0], [0, 0, 0xFFFF]];
    for labels in one_side.into_iter().chain([[0x69C5, 0xA71B, 0], [0x69C5, 0xA71B, 0x3C96]]) {
        let sides = ticking(labels);
        let sound = Design { sides, formulas: vec![Formula::True], rules: vec![0] }.to_bytes();
        // The formulas' block is the last but one.
        let formula = sound.len() - 2 * BLOCK + 4;
        // The kernel's bits are 0 to 15, the host's 16 to 31, the third side's 32 to 47.
        let bits = labels.iter().rev().fold(0_u64, |bits, &label| bits << 16 | u64::from(label));
        for kind in [3, 4] {
            for value in 0..=255 {
                let mut bytes = sound.clone();
                bytes[formula..formula + 2].copy_from_slice(&[kind, value]);
                seal(&mut bytes);
                let expected = match value {
                    48.. => [7, 7],
                    p if (bits >> p & 1 == 1) == (kind == 3) => [0, 0],
                    _ => [16, 15],
                };
                let answers = searched_and_judged(&bytes, &converter);
                assert_eq!(answers, expected, "{labels:X?} {kind} {value}");
            }
        }
    }
}
