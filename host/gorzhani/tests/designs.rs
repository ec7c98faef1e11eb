//! Searches of the library and of the second checker over designs: sound ones of
//! every size, and ones damaged in length and at single bytes.

mod common;

use std::collections::HashSet;
use std::mem::discriminant;

use checker::brute::{try_all, Outcome};
use checker::bytes::{converter_bytes, idle_side, positions, seal, Design, Formula};
use checker::generate::{
    any_bytes, any_design, damage, progress_design, ruled_design, Random, Shape,
};
use checker::none::no_converter;
use common::{about, found, judge_agrees, mixed_design, search_agrees, size, Answers};
use gorzhani::{CELL, FIVE_BLOCKS, FOUR_BLOCKS, RECORD};

/// Searches with lengths that are mostly enough.
fn search_about(random: &mut Random, bytes: &[u8]) -> u8 {
    let size = size(bytes, 1 << 12);
    let table_length = about(random, RECORD * size);
    let work_length = about(random, CELL * size);
    search_agrees(bytes, table_length, work_length)
}

#[test]
fn sound() {
    let mut random = Random::new(101);
    let mut answers = Answers::default();
    let (mut four, mut five) = (0, 0);
    for round in 0..24_000 {
        let made = mixed_design(&mut random, round);
        let bytes = any_bytes(&mut random, &made);
        answers.count(search_about(&mut random, &bytes));
        four += usize::from(bytes.len() == FOUR_BLOCKS);
        five += usize::from(bytes.len() == FIVE_BLOCKS);
    }
    answers.are(&[0, 9, 12, 13, 16], 500);
    assert!(four > 2_000 && five > 10_000, "{four} {five}");
}

#[test]
fn damaged() {
    let mut random = Random::new(102);
    let mut answers = Answers::default();
    for _ in 0..24_000 {
        let made = any_design(&mut random);
        let mut bytes = any_bytes(&mut random, &made);
        damage(&mut random, &mut bytes);
        answers.count(search_about(&mut random, &bytes));
    }
    answers.are(&[0, 1, 2, 3, 4, 5, 6, 7, 8, 9, 12, 13, 16], 50);
}

/// The library says "none" exactly where the tableau does, which plays no game.
#[test]
fn none_by_the_tableau() {
    let mut random = Random::new(104);
    let mut answers = Answers::default();
    for round in 0..8_000 {
        let shape = if round % 4 < 2 { Shape::TINY } else { Shape::SMALL };
        let made = if round % 2 == 0 {
            ruled_design(&mut random, &shape)
        } else {
            progress_design(&mut random, &shape)
        };
        if positions(&made) > 1 << 11 {
            continue;
        }
        let bytes = made.to_bytes();
        let lent = size(&bytes, 1 << 11);
        let answer = search_agrees(&bytes, RECORD * lent, CELL * lent);
        assert_eq!(answer == 16, no_converter(&made), "{made:?}");
        answers.count(answer);
    }
    answers.are(&[0, 16], 1_500);
}

/// A design with every kind of state and most kinds of formulas, and the same with an idle
/// third side: in five blocks and in four.
fn full_of_kinds() -> [Design; 2] {
    let mut random = Random::new(103);
    loop {
        let shape = Shape { states: 3, formulas: 14, ..Shape::SMALL };
        let made = ruled_design(&mut random, &shape);
        let kinds: HashSet<_> = made.formulas.iter().map(discriminant).collect();
        let states = made.sides.iter().flatten();
        let states: HashSet<_> = states.map(|state| discriminant(&state.kind().unwrap())).collect();
        let third = made.sides[2].len() > 1;
        if kinds.len() >= 7 && states.len() == 3 && third && positions(&made) <= 1 << 10 {
            let mut idle = made.clone();
            idle.sides[2] = idle_side();
            return [made, idle];
        }
    }
}

#[test]
fn every_byte_of_a_design() {
    let size = 1 << 12;
    for sound in full_of_kinds().map(|design| design.to_bytes()) {
        let mut answers = Answers::default();
        for at in 0..sound.len() {
            for change in [1, 0x80, 0xFF] {
                let mut bytes = sound.clone();
                bytes[at] = bytes[at].wrapping_add(change);
                for repaired in [false, true] {
                    if repaired {
                        seal(&mut bytes);
                    }
                    answers.count(search_agrees(&bytes, RECORD * size, CELL * size));
                }
            }
        }
        answers.are(&[0, 2, 3, 4, 5, 6, 7, 8, 16], 3);
    }
}

#[test]
fn every_length_of_a_design() {
    for mut sound in full_of_kinds().map(|design| design.to_bytes()) {
        sound.extend(vec![0; 600]);
        let mut answers = Answers::default();
        for length in 0..sound.len() {
            let bytes = &sound[..length];
            let a_designs = [FOUR_BLOCKS, FIVE_BLOCKS].contains(&length);
            assert_eq!(search_agrees(bytes, RECORD << 10, CELL << 10) == 1, !a_designs);
            answers.count(judge_agrees(bytes, &[0; RECORD], CELL));
        }
        // A record of zeros has no transition. With a block more or less a kind is wrong.
        answers.are(&[1, 3, 11], 1);
    }
}

#[test]
fn tiny_designs_against_every_small_converter() {
    let mut random = Random::new(104);
    let (mut none, mut some) = (0, 0);
    for _ in 0..16_000 {
        let made = ruled_design(&mut random, &Shape::TINY);
        let tried = try_all(&made, 1_000);
        if tried == Outcome::TooMany {
            continue;
        }
        let bytes = made.to_bytes();
        match found(&bytes) {
            None => {
                assert_eq!(tried, Outcome::NoneSoSmall, "{made:?}");
                none += 1;
            }
            Some(converter) => {
                let small = converter.len() <= 3 * RECORD;
                assert!(!small || tried != Outcome::NoneSoSmall, "{made:?}");
                some += 1;
            }
        }
        if let Outcome::Found(records) = tried {
            let converter = converter_bytes(&records);
            assert_eq!(judge_agrees(&bytes, &converter, CELL * records.len()), 0);
        }
    }
    assert!(none > 2_000 && some > 2_000, "{none} {some}");
}

#[test]
fn large() {
    let mut random = Random::new(105);
    let mut answers = Answers::default();
    let shape = Shape { transitions: 4, propositions: 6, formulas: 24, rules: 5, ..Shape::FULL };
    while answers.total() < 100 {
        let made = ruled_design(&mut random, &shape);
        if (4_097..=65_536).contains(&positions(&made)) {
            let (bytes, size) = (made.to_bytes(), positions(&made) as usize);
            answers.count(search_agrees(&bytes, RECORD * size + 7, CELL * size + 9));
        }
    }
    answers.are(&[0, 16], 10);
}

/// No design has more positions than can be counted, whatever its formulas are.
#[test]
fn as_many_kept_formulas_as_there_may_be() {
    let [five, four] = full_of_kinds();
    for last in [Formula::Until(0, 0), Formula::Always(0), Formula::Next(0)] {
        for count in [1, 15, 16, 17, 31, 32, 33, 63] {
            let mut formulas = vec![Formula::True];
            formulas.extend(vec![last; count]);
            for design in [&four, &five] {
                let sides = design.sides.clone();
                let made = Design { sides, formulas: formulas.clone(), rules: vec![0, 1, 1] };
                let size = size(&made.to_bytes(), 65_536);
                let answer = search_agrees(&made.to_bytes(), RECORD * size, CELL * size);
                assert_eq!(answer == 9, positions(&made) > 65_536);
            }
        }
    }
}
