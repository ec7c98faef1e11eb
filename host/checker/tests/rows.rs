//! The rows of the specification that have two sides. Every expected value is written
//! from it.

mod samples;

use checker::bytes::{check, converter_bytes, positions, read_design, Formula, Record, SIDES};
use checker::judge::failing_rules;
use checker::tick::Runner;
use samples::{
    design, figure_five, handshake, judged_well, leading_on, lock_and_menu,
    lock_and_menu_converter, mistaken_labels, next_sixteen_next_seventeen, record, rings,
    ruled_handshake, searched, state, ticking_in_turn, two_inputs, wait_leading_to,
};

#[test]
fn rows_of_two_sides_have_four_blocks() {
    let waiting = handshake(vec![Formula::True], vec![0]);
    let inputs = two_inputs(next_sixteen_next_seventeen(), vec![2]);
    let [first, second] = mistaken_labels();
    let rows = [waiting, ticking_in_turn(), inputs, lock_and_menu(), first, second];
    for design in rows.into_iter().chain([rings(Formula::Always(14)), ruled_handshake(true)]) {
        assert_eq!(design.to_bytes().len(), 2_048);
        assert_eq!(read_design(&design.to_bytes()), Ok(design));
    }
}

#[test]
fn handshake_without_rules() {
    let design = handshake(vec![], vec![]);
    assert_eq!(positions(&design), 4);
    assert!(searched(&design).is_ok());
}

#[test]
fn four_rules_as_printed() {
    let design = ruled_handshake(true);
    assert_eq!(design.kept().len(), 8);
    assert_eq!(positions(&design), 1_024);
    assert_eq!(searched(&design), Err(16));
}

#[test]
fn figure_five_against_the_rules_as_printed() {
    let design = ruled_handshake(true);
    assert_eq!(judged_well(&design, &converter_bytes(&figure_five())), Err(15));
    // The fourth fails, and no other.
    assert_eq!(failing_rules(&design, &figure_five()), [3]);
}

#[test]
fn four_rules_as_their_words_say() {
    let design = ruled_handshake(false);
    assert_eq!(judged_well(&design, &converter_bytes(&figure_five())), Ok(()));
    assert!(searched(&design).is_ok());
}

#[test]
fn waiting_for_ever() {
    let formulas = vec![Formula::True, Formula::Proposition(1), Formula::Until(0, 1)];
    let design = handshake(formulas, vec![2]);
    assert_eq!(positions(&design), 8);
    assert_eq!(searched(&design), Err(16));
}

#[test]
fn figure_five_unmatched() {
    for design in [handshake(vec![], vec![]), ruled_handshake(true), ruled_handshake(false)] {
        let mut without = figure_five();
        assert_eq!(without[0].links.remove(1).events, [0; SIDES]);
        assert_eq!(judged_well(&design, &converter_bytes(&without)), Err(14));

        // A fourth record does no harm as long as nothing leads there.
        let mut fourth = figure_five();
        fourth.push(record([0, 1], &[([1, -2], 1), ([0, -2], 0)]));
        assert_ne!(judged_well(&design, &converter_bytes(&fourth)), Err(14));
        fourth[0] = record([0, 0], &[([1, 0], 1), ([0, 0], 0), ([0, -1], 3)]);
        assert_eq!(judged_well(&design, &converter_bytes(&fourth)), Err(14));
    }
}

#[test]
fn figure_five_ticking() {
    let converter = converter_bytes(&figure_five());
    let mut runner = Runner { record: 1, delivered: [5, 6, 7] };
    assert_eq!(checker::tick(&converter, &mut runner, [-2, 0, 0]), Ok(()));
    assert_eq!(runner, Runner { record: 2, delivered: [-2, 1, 0] });

    let start = Runner { record: 0, delivered: [5, 6, 7] };
    let mut runner = start;
    assert_eq!(checker::tick(&converter, &mut runner, [-2, 0, 0]), Err(17));
    assert_eq!(runner, start);
}

#[test]
fn two_states_ticking_in_turn() {
    let design = ticking_in_turn();
    assert_eq!(positions(&design), 32);
    assert!(searched(&design).is_ok());
}

/// A converter for the two inputs that enables some of them.
fn enabling(inputs: &[([i8; 2], u16)]) -> Vec<Record> {
    vec![record([0, 0], inputs), record([0, 1], &[([0, 0], 1)]), record([0, 2], &[([0, 0], 2)])]
}

#[test]
fn one_of_two_inputs() {
    let mut formulas = next_sixteen_next_seventeen();
    formulas.push(Formula::Or(2, 3));
    let design = two_inputs(formulas, vec![4]);
    assert_eq!(positions(&design), 24);
    assert!(searched(&design).is_ok());

    let both = enabling(&[([0, -1], 1), ([0, -2], 2)]);
    assert_eq!(judged_well(&design, &converter_bytes(&both)), Err(15));
    for one in [enabling(&[([0, -1], 1)]), enabling(&[([0, -2], 2)])] {
        assert_eq!(judged_well(&design, &converter_bytes(&one)), Ok(()));
    }
}

#[test]
fn both_of_two_inputs() {
    let as_two_rules = two_inputs(next_sixteen_next_seventeen(), vec![2, 3]);
    assert_eq!(searched(&as_two_rules), Err(16));

    let mut formulas = next_sixteen_next_seventeen();
    formulas.push(Formula::And(2, 3));
    assert_eq!(searched(&two_inputs(formulas, vec![4])), Err(16));
}

#[test]
fn lock_and_menu_are_told_apart() {
    assert_eq!(lock_and_menu().kept().len(), 3);
    assert_eq!(positions(&lock_and_menu()), 32);
    assert!(searched(&lock_and_menu()).is_ok());
    let converter = converter_bytes(&lock_and_menu_converter());
    assert_eq!(judged_well(&lock_and_menu(), &converter), Ok(()));
    for mistaken in mistaken_labels() {
        assert_eq!(searched(&mistaken), Err(16));
        assert_eq!(judged_well(&mistaken, &converter), Err(15));
    }
}

#[test]
fn propositions_at_the_edge() {
    for literal in [Formula::Proposition, Formula::NotProposition] {
        let naming = |proposition| handshake(vec![literal(proposition)], vec![0]);
        for taken in [31, 32, 47] {
            assert_eq!(read_design(&naming(taken).to_bytes()), Ok(naming(taken)));
        }
        assert_eq!(read_design(&naming(48).to_bytes()), Err(7));
    }
}

#[test]
fn sixteen_and_sixteen_states() {
    let one = rings(Formula::Always(14));
    assert_eq!(one.kept().len(), 8);
    assert_eq!(positions(&one), 65_536);
    // Side 1 ticks round and round, side 2 reads 1 and stays where it is:
    // a converter exists.
    assert!(searched(&one).is_ok());

    let two = rings(Formula::Until(14, 4));
    assert_eq!(two.kept().len(), 8);
    assert_eq!(positions(&two), 131_072);
    assert_eq!(searched(&two), Err(9));
}

#[test]
fn events_at_the_edge() {
    let sending = |event| design([vec![state(&[], &[(event, 0)])]], vec![], vec![]);
    assert_eq!(read_design(&sending(-63).to_bytes()), Ok(sending(-63)));
    assert_eq!(read_design(&sending(-64).to_bytes()), Err(5));
    assert_eq!(read_design(&sending(63).to_bytes()), Ok(sending(63)));
    assert_eq!(read_design(&sending(64).to_bytes()), Err(5));
    assert_eq!(read_design(&sending(-128).to_bytes()), Err(5));
}

#[test]
fn tick_to_another_state_beside_a_sent_event() {
    let waiting = |target| {
        let side = vec![state(&[], &[(0, target), (-1, 0)]), state(&[], &[(0, 0)])];
        design([side], vec![], vec![])
    };
    for target in [0, 1] {
        assert_eq!(read_design(&waiting(target).to_bytes()), Ok(waiting(target)));
    }
    assert_eq!(read_design(&waiting(2).to_bytes()), Err(5));
}

#[test]
fn a_wait_that_leads_on() {
    // Whether s0 sends or waits, s1 comes with it, where 0 holds; unless the wait stays.
    assert_eq!(searched(&wait_leading_to(0)).err(), Some(16));
    let leads_on = wait_leading_to(1);
    assert!(searched(&leads_on).is_ok());
    // Neither may be held back: s0 is delayed, whatever its tick leads to.
    assert_eq!(judged_well(&leads_on, &converter_bytes(&leading_on())), Ok(()));
    for left_out in [0, 1] {
        let mut fewer = leading_on();
        fewer[0].links.remove(left_out);
        assert_eq!(judged_well(&leads_on, &converter_bytes(&fewer)), Err(14));
    }
}

#[test]
fn check_of_many_bytes() {
    let mut block = [255; 512];
    assert_eq!(check(&block), 64_514);
    // The last two bytes aren't added up.
    block[510..].fill(0);
    assert_eq!(check(&block), 64_514);
}
