//! What a converter may enable at a joint state, for the kinds of all sides: the judge and
//! the search against the words of the specification.

mod common;
#[path = "../../checker/tests/kinds/mod.rs"]
mod kinds;

use checker::bytes::{converter_bytes, read_converter_memory, Design, Formula, SIDES};
use common::{found, judge_agrees, search_agrees};
use gorzhani::{CELL, RECORD};
use kinds::{
    allowed, converters, designs, duty, enabled, joint_states, kinds, links, record_of,
    right_choices, tried_whole, Duty, MIXES, STATES,
};

/// Judges converters whose records for this joint state enable some transitions: one in
/// `step` of them, and each that is matched where that is rare. How many were matched in each
/// mix of kinds, and how many were not.
fn judged(joint: [u8; SIDES], step: usize) -> [[usize; 2]; MIXES] {
    let mut counts = [[0; 2]; MIXES];
    let mut made = 0;
    for (number, count) in counts.iter_mut().enumerate() {
        let duty = duty(kinds(number));
        for design in &designs(number, joint) {
            let (bytes, all) = (design.to_five_blocks(), links(design, joint).len());
            let mut matched_here = 0;
            for converter in &converters(design, joint) {
                let enabled = enabled(&converter[record_of(joint)]);
                let matched = allowed(kinds(number), all, &enabled);
                let rare = matched && duty != Duty::One;
                made += 1;
                if !rare && made % step > 0 {
                    continue;
                }
                let work = CELL * converter.len();
                let answer = judge_agrees(&bytes, &converter_bytes(converter), work);
                let expected = if matched { 0 } else { 14 };
                assert_eq!(answer, expected, "{number}: {enabled:?} of {design:?}");
                matched_here += usize::from(matched);
                count[usize::from(!matched)] += 1;
            }
            if step == 1 && tried_whole(all) {
                let right = right_choices(design, joint, duty);
                assert_eq!(matched_here, right, "{number}: {design:?}");
            }
        }
    }
    counts
}

/// Every mix of kinds has choices that are matched. Others came too, but where whatever is
/// enabled is right: where one is asked, and where there is one transition.
fn both_came(counts: [[usize; 2]; MIXES]) {
    for (number, [matched, others]) in counts.into_iter().enumerate() {
        let none_delayed = !kinds(number).contains(&2);
        assert!(matched > 0, "{number}");
        assert_eq!(others == 0, none_delayed, "{number}: {matched} {others}");
    }
}

#[test]
fn every_choice_at_the_start() {
    both_came(judged([0; SIDES], 1));
}

/// No path comes to these joint states, and the same is asked of their records.
#[test]
fn choices_at_the_other_joint_states() {
    for joint in &joint_states()[1..] {
        both_came(judged(*joint, 17));
    }
}

/// Without rules, and with AG true as the only one.
#[test]
fn what_is_found() {
    let mut searched = 0;
    for number in 0..MIXES {
        for plain in designs(number, [0; SIDES]) {
            let all = links(&plain, [0; SIDES]).len();
            let formulas = vec![Formula::True, Formula::Always(0)];
            let ruled = Design { formulas, rules: vec![1], ..plain.clone() };
            // Two states on each side; no formula is kept, and then one is.
            for (design, positions) in [(plain, 8), (ruled, 16)] {
                let bytes = design.to_five_blocks();
                assert_eq!(search_agrees(&bytes, RECORD * positions, CELL * positions), 0);
                let converter = found(&bytes).expect("the rule holds under every converter");
                let work = CELL * (converter.len() / RECORD);
                assert_eq!(judge_agrees(&bytes, &converter, work), 0);
                let records = read_converter_memory(&converter).expect("the records are right");
                let enabled = enabled(&records[0]);
                let right = allowed(kinds(number), all, &enabled);
                assert!(right, "{number}: {enabled:?} of {design:?}");
                if let Duty::Choices(count) = duty(kinds(number)) {
                    assert_eq!(enabled.len(), count, "{number}: {enabled:?} of {design:?}");
                }
                searched += 1;
            }
        }
    }
    let states: usize = STATES.iter().map(|states| states.len()).sum();
    assert_eq!(searched, 2 * states.pow(SIDES as u32));
}
