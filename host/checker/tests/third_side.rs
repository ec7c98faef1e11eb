//! Rows with a third side: what it changes, what is enabled beside it, and that it is a
//! side like the others.

mod samples;

use checker::brute::{try_all, Outcome};
use checker::bytes::{converter_bytes, idle_side, positions, read_design, Design, Formula, SIDES};
use checker::generate::{
    matched_converter, nearly_matched_converter, progress_design, ruled_design, Random, Shape,
};
use checker::judge::{failing_rules, matched};
use checker::none::no_converter;
use checker::search::find;
use samples::{
    events_at_four_choices, events_of_three_delayed, four_choices, judged_well, one_record,
    one_state, record, reordered, reordered_converter, searched, state, three_delayed, three_rings,
    thumbnails, viewer, ORDERS,
};

#[test]
fn a_third_side_breaks_a_two_sided_verdict() {
    // One ticking state beside two, three formulas kept, one of them an until.
    let alone = viewer(vec![state(&[], &[(0, 0)])]);
    assert_eq!(alone.to_bytes().len(), 2_048);
    assert_eq!(positions(&alone), 16);
    let converter = converter_bytes(&searched(&alone).expect("nothing is in the way"));
    // While it never waits in v1, the picture comes with the step back to v0.
    let prompt = viewer(thumbnails(false));
    assert_eq!(prompt.to_bytes().len(), 2_560);
    assert_eq!(positions(&prompt), 32);
    assert!(searched(&prompt).is_ok());
    assert!(!no_converter(&prompt));
    // Where it may wait there for ever, no picture comes, or it comes beside 32.
    let waiting = viewer(thumbnails(true));
    assert_eq!(positions(&waiting), 32);
    assert_eq!(searched(&waiting), Err(16));
    assert!(no_converter(&waiting));
    // Either rule by itself can be kept.
    for rule in [3, 7] {
        assert!(searched(&Design { rules: vec![rule], ..waiting.clone() }).is_ok());
    }
    // A converter with zeros for the third side doesn't let it send.
    for design in [prompt, waiting] {
        assert_eq!(judged_well(&design, &converter), Err(14));
    }
}

/// Judges a converter of one record, whose transitions have these events.
fn judged_alone(design: &Design, events: &[[i8; SIDES]]) -> Result<(), u8> {
    judged_well(design, &converter_bytes(&one_record(events)))
}

#[test]
fn one_transition_for_each_of_four_choices() {
    for order in ORDERS {
        let design = reordered(&four_choices(), order);
        assert_eq!(searched(&design).map(|converter| converter[0].links.len()), Ok(4));
        for (events, matched) in events_at_four_choices() {
            let events: Vec<[i8; SIDES]> =
                events.iter().map(|events| order.map(|from| events[from])).collect();
            let expected = if matched { Ok(()) } else { Err(14) };
            assert_eq!(judged_alone(&design, &events), expected, "{order:?} {events:?}");
        }
    }
}

#[test]
fn every_joint_move_of_three_delayed_sides() {
    let design = three_delayed();
    assert_eq!(searched(&design).map(|converter| converter[0].links.len()), Ok(8));
    for (events, matched) in events_of_three_delayed() {
        let expected = if matched { Ok(()) } else { Err(14) };
        assert_eq!(judged_alone(&design, &events), expected, "{events:?}");
    }
}

#[test]
fn where_no_side_is_input_all_is_enabled() {
    // Two delayed sides beside one that only sends: four moves.
    let sides = [one_state(&[0, -1]), one_state(&[-2]), one_state(&[0, -3])];
    let mut design = Design { sides, formulas: vec![], rules: vec![] };
    let moves = [[0, 2, 0], [1, 2, 0], [0, 2, 3], [1, 2, 3]];
    assert_eq!(judged_alone(&design, &moves), Ok(()));
    for left_out in 0..4 {
        let mut fewer = moves.to_vec();
        fewer.remove(left_out);
        assert_eq!(judged_alone(&design, &fewer), Err(14));
    }
    // One delayed side: two moves. None: one.
    design.sides[0] = one_state(&[-1]);
    assert_eq!(judged_alone(&design, &[[1, 2, 0], [1, 2, 3]]), Ok(()));
    assert_eq!(judged_alone(&design, &[[1, 2, 3]]), Err(14));
    design.sides[2] = one_state(&[-3]);
    assert_eq!(judged_alone(&design, &[[1, 2, 3]]), Ok(()));
    // Beside an input state, states that only send leave the choice free.
    design.sides[0] = one_state(&[3, 0]);
    for moves in [vec![[-3, 2, 3]], vec![[0, 2, 3]], vec![[0, 2, 3], [-3, 2, 3]]] {
        assert_eq!(judged_alone(&design, &moves), Ok(()));
    }
}

#[test]
fn record_0_names_the_start_of_every_side() {
    // Two states on each side, each of which ticks and stays.
    let side = vec![state(&[], &[(0, 0)]), state(&[], &[(0, 1)])];
    let sides = [side.clone(), side.clone(), side];
    let design = Design { sides, formulas: vec![], rules: vec![] };
    let staying = |states: [u8; SIDES], own: u16| record(states, &[([0; SIDES], own)]);
    let start = staying([0; SIDES], 0);
    assert_eq!(judged_well(&design, &converter_bytes(&[start])), Ok(()));
    for states in [[1, 0, 0], [0, 1, 0], [0, 0, 1]] {
        let first = [staying(states, 0), staying([0; SIDES], 1)];
        assert_eq!(judged_well(&design, &converter_bytes(&first)), Err(14), "{states:?}");
        let second = [staying([0; SIDES], 0), staying(states, 1)];
        assert_eq!(judged_well(&design, &converter_bytes(&second)), Ok(()), "{states:?}");
        // Not where the tick leads.
        let astray = [staying([0; SIDES], 1), staying(states, 1)];
        assert_eq!(judged_well(&design, &converter_bytes(&astray)), Err(14), "{states:?}");
    }
}

#[test]
fn sixteen_states_on_each_side() {
    let one = three_rings(Formula::Always(9));
    assert_eq!(one.kept(), [2, 3, 7, 10].into());
    assert_eq!(positions(&one), 65_536);
    // Side 1 ticks round and round while the others stay: a converter exists.
    assert!(searched(&one).is_ok());

    let two = three_rings(Formula::Until(9, 5));
    assert_eq!(two.kept(), [2, 3, 7, 10].into());
    assert_eq!(positions(&two), 131_072);
    assert_eq!(searched(&two), Err(9));
}

/// A random design with few positions, of another sort from round to round.
fn few_positions(random: &mut Random, round: usize) -> Design {
    loop {
        let design = match round % 3 {
            0 => ruled_design(random, &Shape::TINY),
            1 => ruled_design(random, &Shape { states: 3, ..Shape::SMALL }),
            _ => progress_design(random, &Shape::TINY),
        };
        if positions(&design) <= 1_024 {
            return design;
        }
    }
}

#[test]
fn the_order_of_the_sides_is_free() {
    let mut random = Random::new(41);
    let (mut found, mut none, mut judged) = (0, 0, [0, 0, 0]);
    for round in 0..1_500 {
        let design = few_positions(&mut random, round);
        assert_eq!(read_design(&design.to_five_blocks()), Ok(design.clone()));
        let (converter, spare) = (find(&design), random.below(4));
        let near = if random.once_in(2) {
            nearly_matched_converter(&mut random, &design, spare)
        } else {
            matched_converter(&mut random, &design, spare)
        };
        let verdict = judged_well(&design, &converter_bytes(&near));
        for order in ORDERS {
            let other = reordered(&design, order);
            assert_eq!(positions(&other), positions(&design));
            assert_eq!(find(&other).is_some(), converter.is_some(), "{order:?} {design:?}");
            assert_eq!(no_converter(&other), converter.is_none(), "{order:?} {design:?}");
            let near = converter_bytes(&reordered_converter(&near, order));
            assert_eq!(judged_well(&other, &near), verdict, "{order:?} {design:?}");
            if let Some(converter) = &converter {
                let moved = reordered_converter(converter, order);
                assert!(matched(&other, &moved), "{order:?} {design:?}");
                assert!(failing_rules(&other, &moved).is_empty(), "{order:?} {design:?}");
            }
        }
        found += usize::from(converter.is_some());
        none += usize::from(converter.is_none());
        judged[[Ok(()), Err(14), Err(15)].iter().position(|&known| known == verdict).unwrap()] += 1;
    }
    println!("found {found}, none {none}, judged {judged:?}");
    assert!(found > 500 && none > 500 && judged.iter().all(|&times| times > 200), "{judged:?}");
}

/// Whether the search says something else where the third side is idle.
fn third_side_matters(design: &Design) -> bool {
    let mut idle = design.clone();
    idle.sides[2] = idle_side();
    find(&idle).is_some() != find(design).is_some()
}

#[test]
fn every_way_to_decide_sees_the_third_side() {
    let mut random = Random::new(42);
    let (mut broken, mut mended, mut tried) = (0, 0, 0);
    for round in 0..6_000 {
        let design = few_positions(&mut random, round);
        if !third_side_matters(&design) {
            continue;
        }
        let none = no_converter(&design);
        assert_eq!(find(&design).is_none(), none, "{design:?}");
        broken += usize::from(none);
        mended += usize::from(!none);
        match try_all(&design, 4_000) {
            Outcome::Found(converter) => {
                assert!(!none, "{converter:?} for {design:?}");
                tried += 1;
            }
            Outcome::NoneSoSmall => tried += usize::from(none),
            Outcome::TooMany => {}
        }
    }
    println!("none beside the third side {broken}, only beside it {mended}, tried {tried}");
    assert!(broken > 200 && mended > 200 && tried > 200, "{broken} {mended} {tried}");
}
