//! The verdict alone by the library, by the second checker and by the library's judge over
//! converters: matched, nearly matched, damaged, and at the limits.

mod common;
#[path = "../../checker/tests/kinds/mod.rs"]
mod kinds;
#[path = "../../checker/tests/samples/mod.rs"]
mod samples;

use checker::bytes::{converter_bytes, seal, Design, Formula, Record, SIDES};
use checker::generate::{
    any_bytes, any_converter, any_design, damage, design, loose_converter, matched_converter,
    nearly_matched_converter, progress_design, ruled_design, Random, Shape,
};
use common::{about, quick_agrees, Answers};
use gorzhani::{BLOCK, CELL, MOST, RECORD};
use kinds::{allowed, converters, designs, enabled, joint_states, kinds, links, record_of, MIXES};
use samples::{figure_five, one_record, record, rings, ruled_handshake, state, ticking};

#[test]
fn judgements() {
    let mut random = Random::new(201);
    let mut answers = Answers::default();
    for round in 0..32_000 {
        let made = match round % 4 {
            0 => design(&mut random, &Shape::FULL),
            1 => ruled_design(&mut random, &Shape::SMALL),
            _ => any_design(&mut random),
        };
        let spare = random.below(8);
        let converter = match round % 5 {
            0 => converter_bytes(&matched_converter(&mut random, &made, spare)),
            1 => converter_bytes(&nearly_matched_converter(&mut random, &made, spare)),
            _ => any_converter(&mut random, &made),
        };
        let mut bytes = any_bytes(&mut random, &made);
        if round % 8 == 0 {
            damage(&mut random, &mut bytes);
        }
        let length = about(&mut random, CELL * (converter.len() / RECORD));
        answers.count(quick_agrees(&bytes, &converter, length));
    }
    answers.are(&[0, 1, 2, 3, 4, 5, 6, 7, 8, 10, 11, 13, 14, 15], 20);
}

#[test]
fn every_byte_of_a_converter() {
    let (bytes, converter) = (ruled_handshake(false).to_bytes(), converter_bytes(&figure_five()));
    assert_eq!(quick_agrees(&bytes, &converter, CELL * 3), 0);
    let mut answers = Answers::default();
    for at in 0..converter.len() {
        for change in 1..=255 {
            let mut damaged = converter.clone();
            damaged[at] = damaged[at].wrapping_add(change);
            answers.count(quick_agrees(&bytes, &damaged, CELL * 3));
        }
    }
    answers.are(&[11, 14], 100);
}

#[test]
fn every_length_of_a_converter() {
    let mut long = converter_bytes(&figure_five());
    long.extend_from_within(..2 * RECORD);
    let bytes = ruled_handshake(false).to_bytes();
    for length in 0..=long.len() {
        let records = length / RECORD;
        for lent in [0, CELL * 3, CELL * 5 + 1] {
            let expected = match records {
                _ if length % RECORD > 0 || length == 0 => 10,
                ..3 => 11,
                _ if lent < CELL * records => 13,
                _ => 0,
            };
            assert_eq!(quick_agrees(&bytes, &long[..length], lent), expected, "{length} {lent}");
        }
    }
}

#[test]
fn one_record_too_many() {
    let mut converter = converter_bytes(&loose_converter(&mut Random::new(302), MOST));
    converter.extend_from_within(..RECORD);
    let design = rings(Formula::Always(14)).to_bytes();
    assert_eq!(quick_agrees(&design, &converter, (MOST + 1) * CELL), 10);
}

/// A ring of records, each of which ticks on to the next, the last to the first, where reading 1
/// leads to the last, in which alone 0 holds. Three rules say that 0 comes.
fn long_way(records: usize) -> (Design, Vec<Record>) {
    let walking = vec![state(&[], &[(0, 0), (1, 1)]), state(&[0], &[(0, 0)])];
    let formulas = vec![
        Formula::True,
        Formula::Proposition(0),
        Formula::Until(0, 1),
        Formula::Always(2),
        Formula::Next(3),
    ];
    let record = |own: usize| {
        let event = if own + 2 == records { -1 } else { 0 };
        let next = ((own + 1) % records) as u16;
        record([u8::from(own + 1 == records)], &[([event], next)])
    };
    let design = samples::design([walking], formulas, vec![2, 3, 4]);
    (design, (0..records).map(record).collect())
}

#[test]
fn a_long_way_to_what_an_until_waits_for() {
    for records in [2, 3, 1_000, MOST] {
        let (design, converter) = long_way(records);
        let bytes = design.to_bytes();
        assert_eq!(quick_agrees(&bytes, &converter_bytes(&converter), CELL * records), 0);
        // The last but one ticks back to itself, and 0 never comes.
        let mut stuck = converter.clone();
        stuck[records - 2] = record([0], &[([0], (records - 2) as u16)]);
        assert_eq!(quick_agrees(&bytes, &converter_bytes(&stuck), CELL * records + 5), 15);
        // The last record names a state that there isn't.
        for side in 0..SIDES {
            let mut unmatched = converter.clone();
            unmatched[records - 1].states[side] = 2;
            assert_eq!(quick_agrees(&bytes, &converter_bytes(&unmatched), CELL * records), 14);
        }
    }
}

/// What a converter may enable at a joint state, for the kinds of all sides: every choice at the
/// start, and one in 17 elsewhere.
#[test]
fn choices_by_the_kinds_of_the_sides() {
    let mut answers = Answers::default();
    let mut made = 0;
    for (place, &joint) in joint_states().iter().enumerate() {
        let step = if place == 0 { 1 } else { 17 };
        for number in 0..MIXES {
            for design in &designs(number, joint) {
                let (bytes, all) = (design.to_five_blocks(), links(design, joint).len());
                for converter in &converters(design, joint) {
                    made += 1;
                    if made % step > 0 {
                        continue;
                    }
                    let enabled = enabled(&converter[record_of(joint)]);
                    let expected = if allowed(kinds(number), all, &enabled) { 0 } else { 14 };
                    let converter = converter_bytes(converter);
                    let answer = quick_agrees(&bytes, &converter, CELL * converter.len() / RECORD);
                    assert_eq!(answer, expected, "{number}: {enabled:?} of {design:?}");
                    answers.count(answer);
                }
            }
        }
    }
    answers.are(&[0, 14], 1_000);
}

/// Sides that set the same bits, and rules that name labels of several.
#[test]
fn labels_of_several_sides() {
    let mut random = Random::new(1_002);
    let mut answers = Answers::default();
    let shapes = [Shape::TINY, Shape::SMALL, Shape { propositions: 16, ..Shape::SMALL }];
    for round in 0..20_000 {
        let make = if round % 2 == 0 { ruled_design } else { progress_design };
        let made = make(&mut random, &shapes[round % 3]);
        let spare = random.below(8);
        let make = if round % 4 == 3 { nearly_matched_converter } else { matched_converter };
        let converter = make(&mut random, &made, spare);
        let bytes = any_bytes(&mut random, &made);
        let work = CELL * converter.len();
        answers.count(quick_agrees(&bytes, &converter_bytes(&converter), work));
    }
    answers.are(&[0, 14, 15], 1_000);
}

/// Every value of the byte in which a formula of kind 3 or 4 names a proposition, where each side
/// has one state.
#[test]
fn every_value_of_a_proposition() {
    let converter = converter_bytes(&one_record(&[[0; SIDES]]));
    let one_side = [[0xFFFF, 0, 0], [0, 0xFFFF, 0], [0, 0, 0xFFFF]];
    for labels in one_side.into_iter().chain([[0x69C5, 0xA71B, 0], [0x69C5, 0xA71B, 0x3C96]]) {
        let sides = ticking(labels);
        let sound = Design { sides, formulas: vec![Formula::True], rules: vec![0] }.to_bytes();
        // The formulas' block is the last but one.
        let formula = sound.len() - 2 * BLOCK + 4;
        // The kernel's bits are 0 to 15, the host's 16 to 31, the third side's 32 to 47.
        let bits = labels.iter().rev().fold(0_u64, |bits, &label| bits << 16 | u64::from(label));
        for (kind, value) in [3, 4].into_iter().flat_map(|kind| (0..=255).map(move |v| (kind, v))) {
            let mut bytes = sound.clone();
            bytes[formula..formula + 2].copy_from_slice(&[kind, value]);
            seal(&mut bytes);
            let expected = match value {
                48.. => 7,
                p if (bits >> p & 1 == 1) == (kind == 3) => 0,
                _ => 15,
            };
            assert_eq!(quick_agrees(&bytes, &converter, CELL), expected, "{labels:X?} {value}");
        }
    }
}
