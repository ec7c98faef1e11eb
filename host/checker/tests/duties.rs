//! What a converter may enable at a joint state, for the kinds of all sides: the
//! checker's rule against the words of the specification.

mod kinds;
mod samples;

use std::array::from_fn;

use checker::bytes::{converter_bytes, StateKind, SIDES};
use checker::joined::{enabling, Enabling};
use checker::judge::matched;
use kinds::{
    allowed, converters, designs, duty, enabled, joint_states, kinds, links, record_of,
    right_choices, tried_whole, Duty, KINDS, MIXES,
};
use samples::{judged_well, searched};

#[test]
fn duties_by_number() {
    for number in 0..MIXES {
        for joint in joint_states() {
            for design in designs(number, joint) {
                let joint = joint.map(usize::from);
                let of_sides = from_fn(|side| {
                    let kind = design.sides[side][joint[side]].kind();
                    KINDS.iter().position(|&own| Some(own) == kind).expect("it is of a kind")
                });
                assert_eq!(kinds(number), of_sides, "{design:?}");
                let delayed = of_sides.map(|kind| KINDS[kind] == StateKind::Delayed);
                let expected = match duty(of_sides) {
                    Duty::All => Enabling::All,
                    Duty::Choices(_) => Enabling::OneForEachChoice(delayed),
                    Duty::One => Enabling::Some,
                };
                assert_eq!(enabling(&design, joint), expected, "{design:?}");
            }
        }
    }
}

#[test]
fn every_choice() {
    let (mut tried, mut right_ones, mut sampled) = (0, 0, 0);
    for number in 0..MIXES {
        let duty = duty(kinds(number));
        for joint in joint_states() {
            for design in designs(number, joint) {
                let all = links(&design, joint).len();
                let mut right_here = 0;
                for converter in converters(&design, joint) {
                    let enabled = enabled(&converter[record_of(joint)]);
                    let right = allowed(kinds(number), all, &enabled);
                    assert_eq!(matched(&design, &converter), right, "{enabled:?} of {design:?}");
                    if tried % 64 == 0 {
                        let answer = judged_well(&design, &converter_bytes(&converter));
                        assert_eq!(answer, if right { Ok(()) } else { Err(14) });
                    }
                    tried += 1;
                    right_here += usize::from(right);
                }
                right_ones += right_here;
                if tried_whole(all) {
                    assert_eq!(right_here, right_choices(&design, joint, duty), "{design:?}");
                } else {
                    sampled += 1;
                    assert!(right_here > 30, "{right_here} of {design:?}");
                    assert!(duty == Duty::One || right_here < 150, "{right_here} of {design:?}");
                }
            }
        }
    }
    assert!(sampled > 0, "some have too many choices to try them all");
    println!("tried {tried}, right {right_ones}, designs with a sample {sampled}");
}

#[test]
fn what_is_found() {
    for number in 0..MIXES {
        for design in designs(number, [0; SIDES]) {
            let converter = searched(&design).expect("without rules there is a converter");
            let (all, enabled) = (links(&design, [0; SIDES]).len(), enabled(&converter[0]));
            assert!(allowed(kinds(number), all, &enabled), "{number}: {enabled:?} of {design:?}");
        }
    }
}
