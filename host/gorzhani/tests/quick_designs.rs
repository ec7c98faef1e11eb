//! The verdict alone by the library, by the second checker and by the library's judge over designs:
//! converters that are found, designs of two sides, damaged ones, typed rules and new tables.

mod common;
#[path = "../../checker/tests/kept/mod.rs"]
mod kept;
#[path = "../../checker/tests/samples/mod.rs"]
mod samples;

use checker::brute::{try_all, Outcome};
use checker::bytes::{
    converter_bytes, idle_side, positions, read_design, seal, Design, Formula, SIDES,
};
use checker::generate::{
    any_bytes, any_converter, any_design, any_ranges, matched_converter, progress_design,
    ruled_design, sides, sound_text, with_waits, Random, Shape, Text,
};
use checker::joined::proposition;
use checker::ranges::{list_bytes, states_after};
use common::{about, found, found_well, mixed_design, quick_agrees, verdict_number, Answers, Lent};
use gorzhani::{Verdict, CELL, FIVE_BLOCKS, FOUR_BLOCKS, RECORD, RULE_BLOCKS};
use kept::kept;
use samples::{rings, three_rings};

#[test]
fn converters_found() {
    let mut random = Random::new(101);
    let mut answers = Answers::default();
    let mut round = 0;
    while answers.total() < 12_000 {
        round += 1;
        let made = match round % 4 {
            0 => progress_design(&mut random, &Shape::TINY),
            _ => mixed_design(&mut random, round),
        };
        if positions(&made) <= 1 << 12 {
            answers.count(found_well(&any_bytes(&mut random, &made)));
        }
    }
    answers.are(&[0, 16], 500);
}

#[test]
fn large_converters_found() {
    let mut random = Random::new(105);
    let mut answers = Answers::default();
    let shape = Shape { transitions: 4, propositions: 6, formulas: 24, rules: 5, ..Shape::FULL };
    while answers.total() < 50 {
        let made = ruled_design(&mut random, &shape);
        if (4_097..=65_536).contains(&positions(&made)) {
            answers.count(found_well(&made.to_bytes()));
        }
    }
    answers.are(&[0, 16], 5);
}

/// Designs of 65,536 positions have converters. The verdict counts no positions: it is asked of
/// these under designs of 131,072.
#[test]
fn as_many_positions_as_there_may_be() {
    let two_sides = (rings(Formula::Always(14)), rings(Formula::Until(14, 4)));
    let three_sides = (three_rings(Formula::Always(9)), three_rings(Formula::Until(9, 5)));
    for (one, two) in [two_sides, three_sides] {
        assert_eq!((positions(&one), positions(&two)), (65_536, 131_072));
        assert_eq!(found_well(&one.to_bytes()), 0);
        let found = found(&one.to_bytes()).expect("there is a converter");
        let work = CELL * (found.len() / RECORD);
        assert!([0, 15].contains(&quick_agrees(&two.to_bytes(), &found, work)));
    }
}

#[test]
fn verdicts_kept_as_data() {
    let mut answers = Answers::default();
    for (number, kept) in kept().iter().enumerate() {
        let (four, five) = (kept.design.to_bytes(), kept.design.to_five_blocks());
        assert_eq!((four.len(), five.len()), (FOUR_BLOCKS, FIVE_BLOCKS), "{number}");
        let converter = converter_bytes(&kept.converter);
        for bytes in [four, five] {
            assert_eq!(gorzhani::positions(&bytes), Ok(kept.positions as usize), "{number}");
            assert_eq!(found_well(&bytes) == 0, kept.found, "{number}");
            let answer = quick_agrees(&bytes, &converter, CELL * kept.converter.len());
            assert_eq!(answer, kept.judged.err().unwrap_or(0), "{number}");
            answers.count(answer);
        }
    }
    assert_eq!(answers.total(), 2_000);
    answers.are(&[0, 14, 15], 300);
}

/// The verdict alone, and the lent bytes after it.
fn verdict(design: &[u8], converter: &[u8], work: usize) -> (Verdict, Vec<u8>) {
    let mut work = Lent::new(work);
    let verdict = gorzhani::verdict(design, converter, work.part_mut());
    (verdict, work.part().to_vec())
}

#[test]
fn four_blocks_and_five_say_the_same() {
    let mut random = Random::new(1_101);
    let mut answers = Answers::default();
    for round in 0..6_000 {
        let mut made = mixed_design(&mut random, round);
        made.sides[2] = idle_side();
        let (four, five) = (made.to_bytes(), made.to_five_blocks());
        assert_eq!((four.len(), five.len()), (FOUR_BLOCKS, FIVE_BLOCKS));
        let converter = any_converter(&mut random, &made);
        let work = about(&mut random, CELL * (converter.len() / RECORD));
        let by_four = verdict(&four, &converter, work);
        answers.count(verdict_number(by_four.0));
        assert!(by_four == verdict(&five, &converter, work), "{made:?}");
    }
    answers.are(&[0, 10, 11, 13, 14, 15], 50);
}

#[test]
fn every_length_of_a_design() {
    let mut random = Random::new(103);
    for idle in [true, false] {
        let mut made = any_design(&mut random);
        if idle {
            made.sides[2] = idle_side();
        }
        let mut sound = if idle { made.to_bytes() } else { made.to_five_blocks() };
        sound.extend([0; 600]);
        let mut answers = Answers::default();
        for length in 0..sound.len() {
            let answer = quick_agrees(&sound[..length], &[0; RECORD], CELL);
            assert_eq!(answer == 1, ![FOUR_BLOCKS, FIVE_BLOCKS].contains(&length), "{length}");
            answers.count(answer);
        }
        // A record of zeros has no transition. With a block more or less a kind is wrong.
        answers.are(&[1, 3, 11], 1);
    }
}

/// Every byte of a design gets other values, at times with the checks as they were.
#[test]
fn every_byte_of_a_design() {
    let mut random = Random::new(1_003);
    let made = ruled_design(&mut random, &Shape { states: 3, formulas: 14, ..Shape::SMALL });
    let sound = made.to_five_blocks();
    let converter = converter_bytes(&matched_converter(&mut random, &made, 2));
    let work = CELL * (converter.len() / RECORD);
    let mut answers = Answers::default();
    for at in 0..sound.len() {
        for change in [1, 0x80, 0xFF] {
            let mut bytes = sound.clone();
            bytes[at] = bytes[at].wrapping_add(change);
            answers.count(quick_agrees(&bytes, &converter, work));
            seal(&mut bytes);
            answers.count(quick_agrees(&bytes, &converter, work));
        }
    }
    for number in [2, 3, 4, 5, 6, 7, 8] {
        let came = answers.counts().iter().any(|&(other, times)| other == number && times >= 3);
        assert!(came, "{number}: {:?}", answers.counts());
    }
}

#[test]
fn tiny_designs_against_every_small_converter() {
    let mut random = Random::new(104);
    let mut tried = 0;
    for _ in 0..16_000 {
        let made = ruled_design(&mut random, &Shape::TINY);
        if let Outcome::Found(records) = try_all(&made, 1_000) {
            let (bytes, converter) = (made.to_bytes(), converter_bytes(&records));
            assert_eq!(quick_agrees(&bytes, &converter, CELL * records.len()), 0);
            tried += 1;
        }
    }
    assert!(tried > 2_000, "{tried}");
}

/// The design with typed rules in the place of its own.
fn with_rules(design: &Design, text: &[u8]) -> Vec<u8> {
    let mut bytes = design.to_bytes();
    let rules = bytes.len() - RULE_BLOCKS;
    gorzhani::rules(text, &mut bytes[rules..]).unwrap_or_else(|refused| panic!("{refused}"));
    bytes
}

/// The rule to blame is the first line that fails alone.
#[test]
fn typed_rules() {
    let mut random = Random::new(1_304);
    let mut answers = Answers::default();
    while answers.total() < 3_000 {
        let shape = *random.pick(&[Shape::TINY, Shape { states: 3, ..Shape::SMALL }]);
        let names: Vec<u8> = (0..SIDES)
            .flat_map(|side| (0..shape.propositions).map(move |label| proposition(side, label)))
            .collect();
        let records = random.from_to(3, 16);
        let Text { bytes: text, rules } = sound_text(&mut random, &names, 3, records);
        if rules.is_empty() {
            continue;
        }
        let bare = Design { sides: sides(&mut random, &shape), formulas: vec![], rules: vec![] };
        let spare = random.below(6);
        let converter = matched_converter(&mut random, &bare, spare);
        let (bytes, work) = (converter_bytes(&converter), CELL * converter.len());
        let fails = |rule: &_| {
            let alone = with_rules(&bare, format!("{rule}\n").as_bytes());
            quick_agrees(&alone, &bytes, work) == 15
        };
        let first = rules.iter().position(fails);
        let expected = first.map_or(Verdict::Yes, |place| Verdict::Fails(place as u8));
        let design = with_rules(&bare, &text);
        answers.count(quick_agrees(&design, &bytes, work));
        assert_eq!(verdict(&design, &bytes, work).0, expected, "{bare:?}");
        if positions(&read_design(&design).expect("neither 7 nor 8")) <= 1 << 11 {
            found_well(&design);
        }
    }
    answers.are(&[0, 15], 300);
}

/// Verdicts about new tables, in which states count their waits.
#[test]
fn new_designs() {
    let mut random = Random::new(1_205);
    let (mut answers, mut found_ones) = (Answers::default(), Answers::default());
    while answers.total() < 4_000 {
        let made = match answers.total() % 3 {
            0 => ruled_design(&mut random, &Shape::TINY),
            1 => ruled_design(&mut random, &Shape { states: 3, ..Shape::SMALL }),
            _ => progress_design(&mut random, &Shape::TINY),
        };
        let old = with_waits(&mut random, made);
        let ranges = any_ranges(&mut random, &old);
        let fits = states_after(&old, &ranges).iter().all(|&states| states <= 16);
        if !fits || ranges.iter().all(|range| range.more_states() == 0) {
            continue;
        }
        let bytes = any_bytes(&mut random, &old);
        let mut new = vec![0; bytes.len()];
        assert_eq!(gorzhani::ranges(&bytes, &list_bytes(&ranges), &mut new), Ok(()));
        let made = read_design(&new).expect("a new design is sound");
        if positions(&made) <= 1 << 11 {
            found_ones.count(found_well(&new));
        }
        let converter = any_converter(&mut random, &made);
        answers.count(quick_agrees(&new, &converter, CELL * (converter.len() / RECORD)));
    }
    answers.are(&[0, 10, 11, 14, 15], 50);
    found_ones.are(&[0, 16], 500);
}
