//! Whose label a proposition is: the meaning by itself, under every way to decide,
//! and against the paper's Definition 2, where it holds of some side.

mod meanings;
mod samples;

use std::array::from_fn;

use checker::brute::{try_all, Outcome};
use checker::bytes::{
    converter_bytes, positions, read_design, Design, Formula, SIDES, SIDE_LABELS,
};
use checker::generate::{matched_converter, ruled_design, Random, Shape};
use checker::joined::{holds, Joint, Labels};
use checker::judge::failing_rules;
use checker::none::no_converter;
use checker::search::find;
use meanings::of_some_side;
use samples::{
    judged_well, lock_and_menu, lock_and_menu_converter, mistaken_labels, record, searched, ticking,
};

/// Label words with a single bit set, each with the proposition that names it.
fn single_bits() -> Vec<(Labels, u8)> {
    let single = |side: usize, bit: usize| {
        let mut labels = [0; SIDES];
        labels[side] = 1 << bit;
        (labels, (16 * side + bit) as u8)
    };
    (0..SIDES).flat_map(|side| (0..16).map(move |bit| single(side, bit))).collect()
}

#[test]
fn a_proposition_is_one_bit_of_one_side() {
    for (labels, named) in single_bits() {
        let all_but_this = labels.map(|word| !word);
        for p in 0..=255 {
            assert_eq!(holds(labels, p), p == named, "{labels:?} {p}");
            // Above 47 there is no side, and nothing holds.
            assert_eq!(holds(all_but_this, p), p != named && p < 48, "{all_but_this:?} {p}");
        }
    }
}

#[test]
fn formulas_name_propositions_up_to_47() {
    for p in 0..=255 {
        for formula in [Formula::Proposition(p), Formula::NotProposition(p)] {
            let sides = ticking([0; SIDES]);
            let design = Design { sides, formulas: vec![formula], rules: vec![0] };
            let expected = if p < 48 { Ok(design.clone()) } else { Err(7) };
            assert_eq!(design.to_bytes().len(), 2_048);
            assert_eq!(read_design(&design.to_bytes()), expected);
            assert_eq!(read_design(&design.to_five_blocks()), expected);
        }
    }
}

#[test]
fn with_four_blocks_the_third_sides_labels_never_hold() {
    for p in 32..48 {
        let sides = [u16::MAX, u16::MAX, 0];
        let formulas = vec![Formula::Proposition(p), Formula::NotProposition(p)];
        let design =
            |rule| Design { sides: ticking(sides), formulas: formulas.clone(), rules: vec![rule] };
        assert_eq!(design(0).to_bytes().len(), 2_048);
        assert_eq!(searched(&design(0)), Err(16), "{p}");
        assert!(searched(&design(1)).is_ok(), "{p}");
    }
}

#[test]
fn every_way_to_decide_asks_the_same_side() {
    let converter = [record([0; SIDES], &[([0; SIDES], 0)])];
    for (labels, named) in single_bits() {
        for p in 0..48 {
            for formula in [Formula::Proposition(p), Formula::NotProposition(p)] {
                let right = matches!(formula, Formula::Proposition(_)) == (p == named);
                let sides = ticking(labels);
                let design = Design { sides, formulas: vec![formula], rules: vec![0] };
                let judged = judged_well(&design, &converter_bytes(&converter));
                assert_eq!(judged, if right { Ok(()) } else { Err(15) }, "{design:?}");
                assert_eq!(searched(&design).err(), (!right).then_some(16), "{design:?}");
                assert_eq!(no_converter(&design), !right, "{design:?}");
                let tried = try_all(&design, 2_000);
                assert_eq!(matches!(tried, Outcome::Found(_)), right, "{design:?}");
            }
        }
    }
}

/// Whether a proposition holds of a joint state by the paper's Definition 2.
fn holds_of_some_side(design: &Design, joint: Joint, p: u8) -> bool {
    (0..SIDES).any(|side| design.sides[side][joint[side]].label & (1 << (p % 16)) != 0)
}

#[test]
fn some_side_has_every_label_asked_for() {
    // 3 and 19 are asked at the start, AX 19 and AX 3 at the one joint state that comes next.
    for p in [3, 19] {
        assert!(holds_of_some_side(&lock_and_menu(), [0, 0, 0], p));
        assert!(holds_of_some_side(&lock_and_menu(), [1, 1, 0], p));
    }
    for design in mistaken_labels().into_iter().chain([lock_and_menu()]) {
        let taken_for_either = of_some_side(&design);
        assert!(
            failing_rules(&taken_for_either, &lock_and_menu_converter()).is_empty(),
            "{design:?}"
        );
        assert!(find(&taken_for_either).is_some(), "{design:?}");
    }
}

#[test]
fn definition_two_is_what_is_compared_with() {
    let mut random = Random::new(31);
    for _ in 0..2_000 {
        let sides = ticking(from_fn(|_| random.bits() as u16));
        let p = random.below(48) as u8;
        let formulas = vec![Formula::Proposition(p), Formula::NotProposition(p)];
        let design = Design { sides, formulas, rules: vec![0, 1] };
        let converter = [record([0; SIDES], &[([0; SIDES], 0)])];
        let failing = if holds_of_some_side(&design, [0; SIDES], p) { 1 } else { 0 };
        assert_eq!(failing_rules(&of_some_side(&design), &converter), [failing]);
    }
}

/// The design with the labels of each side moved to bits of its words where no other
/// side has any. In the designs here each side uses its lowest bits alone.
fn apart(design: &Design) -> Design {
    let moved = |side: usize| SIDE_LABELS / SIDES * side;
    let mut apart = design.clone();
    for (side, states) in apart.sides.iter_mut().enumerate() {
        states.iter_mut().for_each(|state| state.label <<= moved(side));
    }
    for formula in &mut apart.formulas {
        if let Formula::Proposition(p) | Formula::NotProposition(p) = formula {
            *p += moved(usize::from(*p) / SIDE_LABELS) as u8;
        }
    }
    apart
}

/// How often each verdict was given, and how often Definition 2 gives the other.
#[derive(Debug, Default)]
struct Verdicts {
    kept: usize,
    broken: usize,
    others: usize,
}

impl Verdicts {
    /// Counts a verdict. It stays where the sides' labels are moved apart, and there it
    /// is that of Definition 2 too.
    fn count(&mut self, design: &Design, kept: impl Fn(&Design) -> bool) {
        let (verdict, apart) = (kept(design), apart(design));
        assert_eq!(kept(&apart), verdict, "{design:?}");
        assert_eq!(kept(&of_some_side(&apart)), verdict, "{design:?}");
        self.kept += usize::from(verdict);
        self.broken += usize::from(!verdict);
        self.others += usize::from(kept(&of_some_side(design)) != verdict);
    }
}

#[test]
fn verdicts_that_definition_two_has_otherwise() {
    let mut random = Random::new(32);
    let (mut searches, mut judgements) = (Verdicts::default(), Verdicts::default());
    while searches.kept + searches.broken < 20_000 {
        let design = ruled_design(&mut random, &Shape::SMALL);
        if positions(&design) > 2_048 {
            continue;
        }
        let spare = random.below(4);
        let converter = matched_converter(&mut random, &design, spare);
        searches.count(&design, |design| find(design).is_some());
        judgements.count(&design, |design| failing_rules(design, &converter).is_empty());
    }
    for verdicts in [searches, judgements] {
        println!("{verdicts:?}");
        assert!(verdicts.kept > 5_000 && verdicts.broken > 5_000, "{verdicts:?}");
        assert!(verdicts.others > 3_000, "{verdicts:?}");
    }
}
