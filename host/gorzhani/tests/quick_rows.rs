//! The rows of the specification on which the judge is asked, by the verdict alone. Every expected
//! value is written from the specification.

mod common;
#[path = "../../checker/tests/samples/mod.rs"]
mod samples;
#[path = "../../checker/tests/typed/mod.rs"]
mod typed;
#[path = "../../checker/tests/waits/mod.rs"]
mod waits;

use checker::bytes::{converter_bytes, idle_side, positions, Design, Formula, Record, SIDES};
use common::{found, found_well, quick_agrees};
use gorzhani::{CELL, RECORD, RULE_BLOCKS};
use samples::{
    design, enabling, events_at_four_choices, events_of_three_delayed, figure_five, four_choices,
    handshake, leading_on, lock_and_menu, lock_and_menu_converter, mistaken_labels,
    next_sixteen_next_seventeen, one_record, record, ruled_handshake, state, three_delayed,
    thumbnails, ticking_in_turn, two_inputs, viewer, viewer_once, wait_leading_to,
};
use typed::handshake_text;
use waits::waiting_handshake;

/// The verdict; four blocks and five say the same, where a design can have four.
fn said(design: &Design, converter: &[Record]) -> u8 {
    let (converter, work) = (converter_bytes(converter), CELL * converter.len());
    let [answer, other] = [design.to_bytes(), design.to_five_blocks()]
        .map(|bytes| quick_agrees(&bytes, &converter, work));
    assert_eq!(answer, other, "{design:?}");
    answer
}

#[test]
fn the_handshake_pair() {
    assert_eq!(said(&handshake(vec![], vec![]), &figure_five()), 0);
    assert_eq!(said(&ruled_handshake(true), &figure_five()), 15);
    assert_eq!(said(&ruled_handshake(false), &figure_five()), 0);
    assert_eq!(found_well(&ruled_handshake(true).to_bytes()), 16);
    assert_eq!(found_well(&ruled_handshake(false).to_bytes()), 0);
}

#[test]
fn figure_five_unmatched() {
    let mended = ruled_handshake(false);
    let mut without = figure_five();
    without[0].links.remove(1);
    assert_eq!(said(&mended, &without), 14);
    let mut fourth = figure_five();
    fourth.push(record([0, 1], &[([1, -2], 1), ([0, -2], 0)]));
    fourth[0] = record([0, 0], &[([1, 0], 1), ([0, 0], 0), ([0, -1], 3)]);
    assert_eq!(said(&mended, &fourth), 14);
    // A record that nothing leads to counts too, even where its joint state is never reached.
    let mut unreached = figure_five();
    unreached.push(record([1, 1], &[([2, -2], 0), ([0, -2], 1)]));
    assert_eq!(said(&mended, &unreached), 0);
    unreached[3].links.remove(1);
    assert_eq!(said(&mended, &unreached), 14);
    unreached[3].states[0] = 2;
    assert_eq!(said(&mended, &unreached), 14);
}

#[test]
fn two_inputs_of_which_one_serves() {
    let mut formulas = next_sixteen_next_seventeen();
    formulas.push(Formula::Or(2, 3));
    let either = two_inputs(formulas, vec![4]);
    assert_eq!(said(&either, &enabling(&[([0, -1], 1), ([0, -2], 2)])), 15);
    assert_eq!(found_well(&either.to_bytes()), 0);
    assert_eq!(found_well(&ticking_in_turn().to_bytes()), 0);
}

#[test]
fn lock_and_menu_are_told_apart() {
    assert_eq!(said(&lock_and_menu(), &lock_and_menu_converter()), 0);
    assert_eq!(found_well(&lock_and_menu().to_bytes()), 0);
    for mistaken in mistaken_labels() {
        assert_eq!(said(&mistaken, &lock_and_menu_converter()), 15);
    }
}

#[test]
fn propositions_at_the_edge() {
    // No state of H has the host's bit 15, and its third side has no labels.
    let literals: [fn(u8) -> Formula; 2] = [Formula::Proposition, Formula::NotProposition];
    for (literal, answer) in literals.into_iter().zip([15, 0]) {
        let naming = |proposition| handshake(vec![literal(proposition)], vec![0]);
        for taken in [31, 32, 47] {
            assert_eq!(said(&naming(taken), &figure_five()), answer);
        }
        assert_eq!(said(&naming(48), &figure_five()), 7);
    }
}

/// Neither the send nor the wait may be held back: s0 is delayed, whatever its tick leads to.
#[test]
fn a_wait_that_leads_on() {
    let leads_on = wait_leading_to(1);
    assert_eq!(said(&leads_on, &leading_on()), 0);
    for left_out in [0, 1] {
        let mut fewer = leading_on();
        fewer[0].links.remove(left_out);
        assert_eq!(said(&leads_on, &fewer), 14);
    }
}

/// A converter with zeros for the third side doesn't let it send.
#[test]
fn a_third_side_breaks_a_two_sided_verdict() {
    let [alone, prompt, waiting] = [idle_side(), thumbnails(false), thumbnails(true)].map(viewer);
    let converter = found(&alone.to_bytes()).expect("nothing is in the way");
    let work = CELL * (converter.len() / RECORD);
    for (design, answer) in [(&alone, 0), (&prompt, 14), (&waiting, 14)] {
        assert_eq!(quick_agrees(&design.to_bytes(), &converter, work), answer);
    }
    for (design, answer) in [(alone, 0), (prompt, 0), (waiting, 16)] {
        assert_eq!(found_well(&design.to_bytes()), answer);
    }
    for (third, answer) in [(idle_side(), 0), (thumbnails(false), 0), (thumbnails(true), 16)] {
        assert_eq!(found_well(&viewer_once(third).to_bytes()), answer);
    }
}

/// Record 0 names state 0 of every side, and a tick leads where the next record says.
#[test]
fn three_names_are_compared() {
    let side = vec![state(&[], &[(0, 0)]), state(&[], &[(0, 1)])];
    let made = design([side.clone(), side.clone(), side], vec![], vec![]);
    let staying = |states: [u8; SIDES], next: u16| record(states, &[([0; SIDES], next)]);
    assert_eq!(said(&made, &[staying([0; SIDES], 0)]), 0);
    for states in [[1, 0, 0], [0, 1, 0], [0, 0, 1]] {
        assert_eq!(said(&made, &[staying(states, 0)]), 14);
        assert_eq!(said(&made, &[staying([0; SIDES], 0), staying(states, 1)]), 0);
        assert_eq!(said(&made, &[staying([0; SIDES], 1), staying(states, 1)]), 14);
    }
}

#[test]
fn one_record_for_one_joint_state() {
    for (design, tried) in
        [(four_choices(), events_at_four_choices()), (three_delayed(), events_of_three_delayed())]
    {
        assert_eq!((positions(&design), found_well(&design.to_bytes())), (1, 0));
        for (events, matched) in tried {
            let expected = if matched { 0 } else { 14 };
            assert_eq!(said(&design, &one_record(&events)), expected, "{events:?}");
        }
    }
}

/// The rules of the handshake pair as people type them: it is the fourth that fails as printed.
#[test]
fn typed_rules_of_the_handshake_pair() {
    let typed = |text: &str| {
        let mut bytes = handshake(vec![], vec![]).to_bytes();
        let rules = bytes.len() - RULE_BLOCKS;
        gorzhani::rules(text.as_bytes(), &mut bytes[rules..]).expect("the text is of the grammar");
        quick_agrees(&bytes, &converter_bytes(&figure_five()), CELL * 3)
    };
    let printed = handshake_text(true);
    assert_eq!((typed(&printed), typed(&handshake_text(false))), (15, 0));
    let alone: Vec<u8> = printed.lines().map(|line| typed(&format!("{line}\n"))).collect();
    assert_eq!(alone, [0, 0, 0, 15]);
}

/// Where s0 waits twice at the most there is a converter, which isn't one for the old table.
#[test]
fn h_with_s0_at_0_to_2() {
    let old = waiting_handshake().to_bytes();
    let mut new = vec![0; old.len()];
    assert_eq!(gorzhani::ranges(&old, &[0, 0, 0, 2], &mut new), Ok(()));
    assert_eq!((found_well(&old), found_well(&new)), (16, 0));
    let converter = found(&new).expect("there is one");
    let work = CELL * (converter.len() / RECORD);
    assert_eq!(quick_agrees(&new, &converter, work), 0);
    assert_eq!(quick_agrees(&old, &converter, work), 14);
}
