//! The tableau against the search, against every small converter, against
//! converters planted beforehand, and on the rows of the specification.

mod meanings;
mod samples;

use std::collections::HashSet;
use std::mem::{discriminant, Discriminant};

use checker::brute::{try_all, Outcome};
use checker::bytes::{idle_side, positions, Design, Formula, State};
use checker::generate::{planted_design, progress_design, ruled_design, Random, Shape};
use checker::judge::{failing_rules, matched};
use checker::none::no_converter;
use checker::search::find;
use meanings::rewritten;
use samples::{
    handshake, hub, lock_and_menu, mistaken_labels, next_sixteen_next_seventeen, rings,
    ruled_handshake, state, three_rings, thumbnails, ticking_in_turn, two_inputs, viewer,
    viewer_once,
};

/// The most positions of a random design here. The tableau is for small ones.
const MOST_POSITIONS: u128 = 2_048;

/// A random design with few positions.
fn few_positions(mut made: impl FnMut() -> Design) -> Design {
    loop {
        let design = made();
        if positions(&design) <= MOST_POSITIONS {
            return design;
        }
    }
}

/// Whether the search says "none". What it finds otherwise is judged.
fn search_says_none(design: &Design) -> bool {
    let Some(converter) = find(design) else {
        return true;
    };
    assert!(matched(design, &converter), "{design:?}");
    assert!(failing_rules(design, &converter).is_empty(), "{design:?}");
    false
}

/// How often tableau and search gave each answer.
#[derive(Debug, Default)]
struct Agreed {
    found: usize,
    none: usize,
    /// None, although there is a converter if until formulas are forgotten
    /// after they were put off twice: only the whole path tells.
    none_in_the_long_run: usize,
    /// How often no side was idle.
    three_sided: usize,
    /// The kinds of formulas that occurred.
    kinds: HashSet<Discriminant<Formula>>,
}

impl Agreed {
    /// Shows what was counted.
    fn show(&self) {
        let Agreed { found, none, none_in_the_long_run, three_sided, .. } = self;
        println!(
            "found {found}, none {none}, in the long run {none_in_the_long_run}, \
             no side idle {three_sided}"
        );
    }
}

/// Compares tableau and search on so many designs.
fn agreed(designs: usize, mut made: impl FnMut() -> Design) -> Agreed {
    let mut agreed = Agreed::default();
    for _ in 0..designs {
        let design = few_positions(&mut made);
        agreed.kinds.extend(design.formulas.iter().map(discriminant));
        let none = no_converter(&design);
        assert_eq!(none, search_says_none(&design), "{design:?}");
        agreed.found += usize::from(!none);
        agreed.none += usize::from(none);
        let in_the_long_run = none && !search_says_none(&forgetful(&design));
        agreed.none_in_the_long_run += usize::from(in_the_long_run);
        agreed.three_sided += usize::from(!design.sides.contains(&idle_side()));
    }
    agreed
}

/// The design with each A(a U b) replaced by b or (a and AX(b or (a and AX true))).
fn forgetful(design: &Design) -> Design {
    rewritten(design, |formulas, formula| match formula {
        Formula::Until(a, b) => {
            formulas.push(Formula::True);
            for _ in 0..2 {
                let last = formulas.len() - 1;
                formulas.push(Formula::Next(last));
                formulas.push(Formula::And(a, last + 1));
                formulas.push(Formula::Or(b, last + 2));
            }
        }
        other => formulas.push(other),
    })
}

#[test]
fn against_the_search_on_any_rules() {
    let mut random = Random::new(21);
    let tiny = agreed(5_000, || ruled_design(&mut random, &Shape::TINY));
    let small = agreed(5_000, || ruled_design(&mut random, &Shape::SMALL));
    for agreed in [tiny, small] {
        agreed.show();
        assert!(agreed.found > 1_500 && agreed.none > 1_500, "{agreed:?}");
        assert!(agreed.none_in_the_long_run > 50, "{agreed:?}");
        assert!(agreed.three_sided > 3_000, "{agreed:?}");
        assert_eq!(agreed.kinds.len(), 9, "{agreed:?}");
    }
}

#[test]
fn against_the_search_on_rules_that_want_progress() {
    let mut random = Random::new(22);
    let tiny = agreed(5_000, || progress_design(&mut random, &Shape::TINY));
    let shape = Shape { states: 3, ..Shape::SMALL };
    let small = agreed(5_000, || progress_design(&mut random, &shape));
    for agreed in [tiny, small] {
        agreed.show();
        assert!(agreed.found > 1_000 && agreed.none > 1_000, "{agreed:?}");
        assert!(agreed.none_in_the_long_run > 700, "{agreed:?}");
        assert!(agreed.three_sided > 3_000, "{agreed:?}");
    }
}

#[test]
fn against_every_small_converter() {
    let mut random = Random::new(23);
    let (mut found, mut none) = (0, 0);
    for round in 0..5_000 {
        let design = few_positions(|| match round % 2 {
            0 => ruled_design(&mut random, &Shape::TINY),
            _ => progress_design(&mut random, &Shape::TINY),
        });
        // Where three records don't suffice, trying all of them says nothing.
        match (try_all(&design, 2_000), no_converter(&design)) {
            (Outcome::Found(converter), true) => panic!("{converter:?} for {design:?}"),
            (Outcome::Found(_), false) => found += 1,
            (Outcome::NoneSoSmall, true) => none += 1,
            _ => {}
        }
    }
    println!("found {found}, none {none}");
    assert!(found > 1_000 && none > 800, "{found} {none}");
}

#[test]
fn planted_converters_are_not_missed() {
    let mut random = Random::new(24);
    let shape = Shape { formulas: 24, ..Shape::SMALL };
    let mut planted = 0;
    while planted < 1_000 {
        let (design, converter) = planted_design(&mut random, &shape);
        if positions(&design) > MOST_POSITIONS {
            continue;
        }
        assert!(matched(&design, &converter), "{design:?}");
        assert!(failing_rules(&design, &converter).is_empty(), "{design:?}");
        assert!(!no_converter(&design), "{converter:?} will do for {design:?}");
        planted += 1;
    }
}

#[test]
fn rows_with_a_converter() {
    let mut one_of_two = next_sixteen_next_seventeen();
    one_of_two.push(Formula::Or(2, 3));
    let rows = [
        handshake(vec![], vec![]),
        ruled_handshake(false),
        ticking_in_turn(),
        two_inputs(one_of_two, vec![4]),
        lock_and_menu(),
        rings(Formula::Always(14)),
        three_rings(Formula::Always(9)),
        viewer(idle_side()),
        viewer(thumbnails(false)),
        viewer_once(idle_side()),
        viewer_once(thumbnails(false)),
    ];
    for design in rows {
        assert!(!no_converter(&design), "{design:?}");
        assert!(!search_says_none(&design), "{design:?}");
    }
}

#[test]
fn rows_without_a_converter() {
    let waiting = vec![Formula::True, Formula::Proposition(1), Formula::Until(0, 1)];
    let mut both_of_two = next_sixteen_next_seventeen();
    both_of_two.push(Formula::And(2, 3));
    let rows = [
        ruled_handshake(true),
        handshake(waiting, vec![2]),
        two_inputs(next_sixteen_next_seventeen(), vec![2, 3]),
        two_inputs(both_of_two, vec![4]),
        viewer(thumbnails(true)),
        viewer_once(thumbnails(true)),
    ];
    for design in rows.into_iter().chain(mistaken_labels()) {
        assert!(no_converter(&design), "{design:?}");
        assert!(search_says_none(&design), "{design:?}");
    }
}

#[test]
fn a_set_may_come_back_before_all_of_it_is_met() {
    // AG(AX A(true U 16) and AX A(true U 17)): both until formulas are owed at each
    // step, after 16 alone as after 17 alone, and still they are met in turn.
    let mut formulas = vec![
        Formula::True,
        Formula::Proposition(16),
        Formula::Proposition(17),
        Formula::Until(0, 1),
        Formula::Until(0, 2),
        Formula::Next(3),
        Formula::Next(4),
        Formula::And(5, 6),
        Formula::Always(7),
    ];
    assert!(!no_converter(&hub(formulas.clone(), vec![8])));
    // AG not 17 beside it: none.
    formulas.extend([Formula::NotProposition(17), Formula::Always(9)]);
    assert!(no_converter(&hub(formulas, vec![8, 10])));
}

#[test]
fn one_converter_has_to_meet_all() {
    // A(true U AG 16) and A(true U AG 17): h1 keeps the one, h2 the other.
    let formulas = vec![
        Formula::True,
        Formula::Proposition(16),
        Formula::Proposition(17),
        Formula::Always(1),
        Formula::Always(2),
        Formula::Until(0, 3),
        Formula::Until(0, 4),
    ];
    assert!(!no_converter(&two_inputs(formulas.clone(), vec![5])));
    assert!(!no_converter(&two_inputs(formulas.clone(), vec![6])));
    assert!(no_converter(&two_inputs(formulas, vec![5, 6])));
}

#[test]
fn all_next_states_keep_the_same_part() {
    // Both sides send, or wait and stay: AX 0 or AX not 0 wants the same of
    // waiting and of sending.
    let sender = |bits: &[u8]| vec![state(&[], &[(0, 0), (-1, 1)]), state(bits, &[(0, 1)])];
    let formulas = vec![
        Formula::Proposition(0),
        Formula::NotProposition(0),
        Formula::Next(0),
        Formula::Next(1),
        Formula::Or(2, 3),
    ];
    let design = |sides: [Vec<State>; 2]| samples::design(sides, formulas.clone(), vec![4]);
    assert!(no_converter(&design([sender(&[0]), sender(&[])])));
    assert!(!no_converter(&design([sender(&[]), sender(&[])])));
}
