//! The rows of the specification under the library. Every expected value is
//! written from the specification.

mod common;
#[path = "../../checker/tests/samples/mod.rs"]
mod samples;

use checker::bytes::{converter_bytes, idle_side, positions, Design, Formula, Record, SIDES};
use common::{found, judge_agrees, search_agrees, tick_agrees};
use gorzhani::{Runner, BLOCK, CELL, FIVE_BLOCKS, FOUR_BLOCKS, RECORD};
use samples::{
    design, events_at_four_choices, events_of_three_delayed, figure_five, four_choices, handshake,
    leading_on, lock_and_menu, lock_and_menu_converter, mistaken_labels,
    next_sixteen_next_seventeen, one_record, record, reordered, ruled_handshake, state,
    three_delayed, thumbnails, ticking_in_turn, two_inputs, viewer, viewer_once, wait_leading_to,
    ORDERS,
};

/// The answer to a search with the lengths that are demanded; 0 is a converter. Where a design has
/// four blocks, five say the same.
fn searched(design: &Design) -> u8 {
    let size = positions(design) as usize;
    let four_or_five = [design.to_bytes(), design.to_five_blocks()];
    let [answer, other] =
        four_or_five.map(|bytes| search_agrees(&bytes, RECORD * size, CELL * size));
    assert_eq!(answer, other, "{design:?}");
    answer
}

fn judged(design: &Design, converter: &[Record]) -> u8 {
    judge_agrees(&design.to_bytes(), &converter_bytes(converter), CELL * converter.len())
}

#[test]
fn the_handshake_pair() {
    let plain = handshake(vec![], vec![]);
    assert_eq!((positions(&plain), searched(&plain)), (4, 0));
    let printed = ruled_handshake(true);
    assert_eq!((printed.kept().len(), positions(&printed)), (8, 1_024));
    assert_eq!(searched(&printed), 16);
    assert_eq!(judged(&printed, &figure_five()), 15);
    let mended = ruled_handshake(false);
    assert_eq!(judged(&mended, &figure_five()), 0);
    assert_eq!(searched(&mended), 0);
    let formulas = vec![Formula::True, Formula::Proposition(1), Formula::Until(0, 1)];
    let waiting = handshake(formulas, vec![2]);
    assert_eq!((positions(&waiting), searched(&waiting)), (8, 16));
}

#[test]
fn figure_five_unmatched() {
    let mended = ruled_handshake(false);
    let mut without = figure_five();
    without[0].links.remove(1);
    assert_eq!(judged(&mended, &without), 14);
    let mut fourth = figure_five();
    fourth.push(record([0, 1], &[([1, -2], 1), ([0, -2], 0)]));
    fourth[0] = record([0, 0], &[([1, 0], 1), ([0, 0], 0), ([0, -1], 3)]);
    assert_eq!(judged(&mended, &fourth), 14);
    // A record that nothing leads to counts too, even where its joint state is never reached.
    let mut unreached = figure_five();
    unreached.push(record([1, 1], &[([2, -2], 0), ([0, -2], 1)]));
    assert_eq!(judged(&mended, &unreached), 0);
    unreached[3].links.remove(1);
    assert_eq!(judged(&mended, &unreached), 14);
    unreached[3].states[0] = 2;
    assert_eq!(judged(&mended, &unreached), 14);
}

#[test]
fn figure_five_ticking() {
    let converter = converter_bytes(&figure_five());
    let mut runner = Runner { record: 1, first: 5, second: 6, third: 7 };
    assert_eq!(tick_agrees(&converter, &mut runner, [-2, 0, 0]), 0);
    assert_eq!(runner, Runner { record: 2, first: -2, second: 1, third: 0 });
    let start = Runner { record: 0, first: 5, second: 6, third: 7 };
    let mut runner = start;
    assert_eq!(tick_agrees(&converter, &mut runner, [-2, 0, 0]), 17);
    assert_eq!(runner, start);
}

#[test]
fn two_states_ticking_in_turn() {
    let turning = ticking_in_turn();
    assert_eq!((positions(&turning), searched(&turning)), (32, 0));
}

#[test]
fn two_inputs_of_which_one_serves() {
    let mut formulas = next_sixteen_next_seventeen();
    formulas.push(Formula::Or(2, 3));
    let either = two_inputs(formulas, vec![4]);
    assert_eq!((positions(&either), searched(&either)), (24, 0));
    let both = [
        record([0, 0], &[([0, -1], 1), ([0, -2], 2)]),
        record([0, 1], &[([0, 0], 1)]),
        record([0, 2], &[([0, 0], 2)]),
    ];
    assert_eq!(judged(&either, &both), 15);
    assert_eq!(searched(&two_inputs(next_sixteen_next_seventeen(), vec![2, 3])), 16);
}

/// The kernel's bit 3 is proposition 3 and the host's bit 3 is proposition 19.
#[test]
fn lock_and_menu_are_told_apart() {
    let kept = lock_and_menu();
    let bytes = kept.to_bytes();
    // The label words of k0, k1, m0 and m1, and the records of 3, 19 and AX 19.
    let words = [4, 24, 516, 536].map(|at| [bytes[at], bytes[at + 1]]);
    assert_eq!(words, [[8, 0], [0, 0], [0, 0], [8, 0]]);
    assert_eq!(bytes[1_028..1_040], [3, 3, 0, 0, 3, 19, 0, 0, 7, 1, 0, 0]);
    assert_eq!((kept.kept().len(), positions(&kept)), (3, 32));
    assert_eq!(searched(&kept), 0);
    assert_eq!(judged(&kept, &lock_and_menu_converter()), 0);
    for mistaken in mistaken_labels() {
        assert_eq!(searched(&mistaken), 16);
        assert_eq!(judged(&mistaken, &lock_and_menu_converter()), 15);
    }
}

#[test]
fn propositions_at_the_edge() {
    let literals: [fn(u8) -> Formula; 2] = [Formula::Proposition, Formula::NotProposition];
    // No state of H has the host's bit 15, and its third side has no labels.
    for (literal, answer) in literals.into_iter().zip([16, 0]) {
        let naming = |proposition| handshake(vec![literal(proposition)], vec![0]);
        for taken in [31, 32, 47] {
            assert_eq!(searched(&naming(taken)), answer);
        }
        assert_eq!(searched(&naming(48)), 7);
        assert_eq!(judged(&naming(48), &figure_five()), 7);
    }
}

#[test]
fn events_and_ticks_at_the_edge() {
    // Whichever side it is.
    for order in ORDERS {
        let beside = |side| reordered(&design([side], vec![], vec![]), order);
        let sending = |event| beside(vec![state(&[], &[(event, 0)])]);
        assert_eq!(searched(&sending(-63)), 0);
        assert_eq!(searched(&sending(-64)), 5);
        let waiting =
            |target| beside(vec![state(&[], &[(0, target), (-1, 0)]), state(&[], &[(0, 0)])]);
        assert_eq!(searched(&waiting(0)), 0);
        assert_eq!(searched(&waiting(1)), 0);
        assert_eq!(searched(&waiting(2)), 5);
    }
}

/// Whether s0 sends or waits, s1 comes with it, where 0 holds; unless the wait stays.
#[test]
fn a_wait_that_leads_on() {
    let [stays, leads_on] = [0, 1].map(wait_leading_to);
    for order in ORDERS {
        assert_eq!(searched(&reordered(&stays, order)), 16);
        assert_eq!(searched(&reordered(&leads_on, order)), 0);
    }
    // Neither may be held back: s0 is delayed, whatever its tick leads to.
    assert_eq!(judged(&leads_on, &leading_on()), 0);
    for left_out in [0, 1] {
        let mut fewer = leading_on();
        fewer[0].links.remove(left_out);
        assert_eq!(judged(&leads_on, &fewer), 14);
    }
}

/// 510 bytes of 255 have the check 64,514: with it the block's kind is wrong,
/// with any other number the check is.
#[test]
fn check_of_many_bytes() {
    for blocks in [4, 5] {
        let mut bytes = vec![255; BLOCK * blocks];
        for block in bytes.chunks_mut(BLOCK) {
            block[510..].copy_from_slice(&64_514_u16.to_le_bytes());
        }
        assert_eq!(search_agrees(&bytes, RECORD, CELL), 3);
        for block in 0..blocks {
            let mut wrong = bytes.clone();
            wrong[BLOCK * block + 510] += 1;
            assert_eq!(search_agrees(&wrong, RECORD, CELL), 2);
        }
    }
}

/// Pictures come again and again beside a third side that never waits while 32 holds, or beside
/// none. Where it may wait there for ever, no converter exists.
#[test]
fn a_third_side_breaks_a_two_sided_verdict() {
    let (alone, waiting) = (viewer(idle_side()), viewer(thumbnails(true)));
    let prompt = viewer(thumbnails(false));
    let lengths = [&alone, &prompt, &waiting].map(|design| design.to_bytes().len());
    assert_eq!(lengths, [FOUR_BLOCKS, FIVE_BLOCKS, FIVE_BLOCKS]);
    assert_eq!((positions(&alone), searched(&alone)), (16, 0));
    assert_eq!((positions(&prompt), searched(&prompt)), (32, 0));
    assert_eq!((positions(&waiting), searched(&waiting)), (32, 16));
    // One picture is enough, at a time when 32 doesn't hold.
    let thirds = [idle_side(), thumbnails(false), thumbnails(true)];
    for (third, answer) in thirds.into_iter().zip([(4, 0), (8, 0), (8, 16)]) {
        let once = viewer_once(third);
        assert_eq!((positions(&once), searched(&once)), answer);
    }
    // A converter with zeros for the third side doesn't let it send.
    let converter = found(&alone.to_bytes()).expect("nothing is in the way");
    let work = CELL * (converter.len() / RECORD);
    for (design, answer) in [(alone, 0), (prompt, 14), (waiting, 14)] {
        assert_eq!(judge_agrees(&design.to_bytes(), &converter, work), answer);
    }
}

/// Record 0 names state 0 of every side, and a tick leads where the next record says.
#[test]
fn three_names_are_compared() {
    let side = vec![state(&[], &[(0, 0)]), state(&[], &[(0, 1)])];
    let made = design([side.clone(), side.clone(), side], vec![], vec![]);
    let staying = |states: [u8; SIDES], next: u16| record(states, &[([0; SIDES], next)]);
    assert_eq!(judged(&made, &[staying([0; SIDES], 0)]), 0);
    for states in [[1, 0, 0], [0, 1, 0], [0, 0, 1]] {
        assert_eq!(judged(&made, &[staying(states, 0)]), 14);
        assert_eq!(judged(&made, &[staying([0; SIDES], 0), staying(states, 1)]), 0);
        assert_eq!(judged(&made, &[staying([0; SIDES], 1), staying(states, 1)]), 14);
    }
}

/// Searches a design of one joint state, whose one record has so many transitions, and judges
/// records with these events.
fn one_joint_state(design: &Design, links: u8, tried: Vec<(Vec<[i8; SIDES]>, bool)>) {
    assert_eq!((positions(design), searched(design)), (1, 0));
    let found = found(&design.to_bytes()).expect("there are no rules");
    // The count stands behind the names of the sides' states.
    assert_eq!(found[..4], [0, 0, 0, links]);
    for (events, matched) in tried {
        let expected = if matched { 0 } else { 14 };
        assert_eq!(judged(design, &one_record(&events)), expected, "{events:?}");
    }
}

#[test]
fn one_transition_for_each_of_four_choices() {
    one_joint_state(&four_choices(), 4, events_at_four_choices());
}

#[test]
fn every_joint_move_of_three_delayed_sides() {
    one_joint_state(&three_delayed(), 8, events_of_three_delayed());
}

/// Two of three sides send or tick beside a host that reads: each shown triple has its
/// transition.
#[test]
fn ticks_of_three_sides() {
    let (right, _) = events_at_four_choices().remove(0);
    let converter = converter_bytes(&one_record(&right));
    for events in right {
        let delivered = events.map(|event| -event);
        let [first, second, third] = delivered;
        let mut runner = Runner { record: 0, first: 9, second: 9, third: 9 };
        assert_eq!(tick_agrees(&converter, &mut runner, delivered.map(|event| event.min(0))), 0);
        assert_eq!(runner, Runner { record: 0, first, second, third });
        // The host sends nothing, and the third side nothing but 3.
        for shown in [[first, -1, third], [first, 0, -2], [first, 0, 1], [first, 0, -64]] {
            assert_eq!(tick_agrees(&converter, &mut runner, shown), 17, "{shown:?}");
        }
    }
}
