//! The size of a design, against the library's count and by hand.

use std::collections::BTreeSet;

use checker::bytes::{self, positions, Formula};
use checker::generate::{any_bytes, any_design, design, Random, Shape};
use desk::design::{from_bytes, Design, Side, State, Transition};
use desk::library;
use desk::sizes::{of, Share};
use gorzhani::Refused;

/// An example of the collection.
fn example(name: &str) -> Design {
    let path = format!("{}/../../examples/{name}.design", env!("CARGO_MANIFEST_DIR"));
    from_bytes(&std::fs::read(path).expect("the example is there"), name)
}

/// A design with these rules, whose sides have so many ticking states.
fn ticking(states: &[usize], rules: &str) -> Design {
    let side = |&states: &usize| {
        let state = |state: usize| State {
            name: format!("s{state}"),
            label_word: 0,
            transitions: vec![Transition { event: 0, target: state }],
        };
        Side { states: (0..states).map(state).collect(), ..Side::default() }
    };
    Design {
        sides: states.iter().map(side).collect(),
        blocks: library::rules(rules).expect("the rules are read").0,
        ..Design::default()
    }
}

#[test]
fn lines() {
    let lines = [
        ("lock-none", "3 and 3 states, 31 formulas, 8 kept, 4 of kind 8: 9,216 positions."),
        ("handshake-printed", "2 and 2 states, 36 formulas, 8 kept, 0 of kind 8: 1,024 positions."),
        (
            "thumbnails-none",
            "2, 3 and 3 states, 26 formulas, 5 kept, 2 of kind 8: 1,152 positions.",
        ),
    ];
    for (name, line) in lines {
        assert_eq!(of(&example(name)).line(), line);
    }
    assert_eq!(
        of(&ticking(&[1, 1], "TRUE\n")).line(),
        "1 and 1 states, 1 formula, 1 kept, 0 of kind 8: 2 positions."
    );
    assert_eq!(
        of(&ticking(&[1, 1], "")).line(),
        "1 and 1 states, 0 formulas, 0 kept, 0 of kind 8: 1 position."
    );
}

/// The text of the specification's "What is made of it": 5 and 8 are kept by the first rule, 11 by
/// the second.
#[test]
fn shares() {
    let size = of(&ticking(&[2, 3], "AG (p0 & p18 -> AX (p1 | !p19))\nAF p1\n"));
    assert_eq!((size.formulas, size.kept, size.untils, size.positions), (12, 3, 1, 48));
    assert_eq!(size.rules, [Share { kept: 2, untils: 0 }, Share { kept: 1, untils: 1 }]);
}

/// Sixteen states beside sixteen; the first rule keeps itself, AX's operand and two untils, the
/// second itself, the third itself and an until.
#[test]
fn too_large() {
    let made = ticking(
        &[16, 16],
        "AG (p0 -> AX (p1 & AF p2) & A [ p3 U p4 ])\nAG !p5\nAG AF p6\nAG p0\nAG p1\n",
    );
    let size = of(&made);
    assert_eq!(size.positions, 256 * 512 * 3);
    assert_eq!(
        size.too_large(&made),
        "The design has 393,216 positions, and 65,536 are the most that the library searches (9).\n\
         16 and 16 states, 9 kept formulas and 3 untils make 16 × 16 × 2^9 × 3. The rules, the dearest first:\n    \
             rule 1 keeps 4 formulas, which is 16 times as many positions, and has 2 of the 3 untils\n    \
             rule 3 keeps 2 formulas, which is 4 times as many positions, and has 1 of the 3 untils\n    \
             rule 2 keeps 1 formula, which is twice as many positions\n    \
             rule 4 keeps 1 formula, which is twice as many positions\n    \
             rule 5 keeps 1 formula, which is twice as many positions\n\
         Fewer states help, and fewer kept formulas: these are untils (AF is one), AG, what AX speaks of, and rules.\n\
         Two rules AG f and AG g keep one formula more than the one rule AG (f & g).\n\
         `judge` takes a design of any size.\n"
    );
    assert_eq!(gorzhani::positions(&made.bytes()), Err(Refused::POSITIONS));
}

/// In a file there may be formulas that no rule reaches, here an until and what an AX speaks of.
#[test]
fn formulas_that_no_rule_uses() {
    let state =
        bytes::State { label: 0, transitions: vec![bytes::Transition { event: 0, target: 0 }] };
    let mut formulas = vec![Formula::True; 17];
    formulas.extend([Formula::Until(0, 1), Formula::Next(2), Formula::Always(16)]);
    let sides = [vec![state.clone(); 16], vec![state.clone(); 16], vec![state; 16]];
    let made = bytes::Design { sides, formulas, rules: vec![16, 19, 19] };
    let made = from_bytes(&made.to_bytes(), "");
    let size = of(&made);
    // Kept are 2, 16, 17 and 19.
    assert_eq!((size.kept, size.untils, size.positions), (4, 1, 65_536));
    let shares = [1, 1, 1].map(|kept| Share { kept, untils: 0 });
    assert_eq!(size.rules, shares);
    let text = size.too_large(&made);
    assert!(
        text.contains("16, 16 and 16 states, 4 kept formulas and 1 until make 16 × 16 × 16 × 2^4.")
    );
    assert!(text.contains(
        "    what no rule uses keeps 2 formulas, which is 4 times as many positions, and has the only until\n"
    ));
}

/// The formulas that a rule reaches.
fn reached(formulas: &[Formula], rule: usize) -> BTreeSet<usize> {
    let below: BTreeSet<usize> = match formulas[rule] {
        Formula::And(a, b) | Formula::Or(a, b) | Formula::Until(a, b) => {
            &reached(formulas, a) | &reached(formulas, b)
        }
        Formula::Next(a) | Formula::Always(a) => reached(formulas, a),
        _ => BTreeSet::new(),
    };
    &below | &BTreeSet::from([rule])
}

/// The library and the second checker count the same.
#[test]
fn random_designs() {
    let mut random = Random::new(901);
    let (mut searched, mut too_large) = (0, 0);
    for round in 0..20_000 {
        let made = match round % 4 {
            0 => design(&mut random, &Shape { formulas: 20, ..Shape::FULL }),
            _ => any_design(&mut random),
        };
        let bytes = any_bytes(&mut random, &made);
        let named = from_bytes(&bytes, "");
        let size = of(&named);
        assert_eq!(size.positions, positions(&made));
        assert_eq!((size.kept, size.untils), (made.kept().len(), made.untils().len()));
        match gorzhani::positions(&bytes) {
            Ok(count) => {
                assert_eq!(size.positions, count as u128);
                searched += 1;
            }
            refused => {
                assert_eq!(refused, Err(Refused::POSITIONS));
                assert!(size.positions > 65_536);
                assert!(size.too_large(&named).contains("positions"));
                too_large += 1;
            }
        }
    }
    assert!(searched > 3_000 && too_large > 3_000, "{searched} {too_large}");
}

/// The share of a rule is what the design has whose formulas are those that the rule reaches, the
/// others being true.
#[test]
fn random_shares() {
    let mut random = Random::new(902);
    let mut rules = 0;
    for _ in 0..5_000 {
        let made = design(&mut random, &Shape::SMALL);
        let size = of(&from_bytes(&made.to_bytes(), ""));
        assert_eq!(size.rules.len(), made.rules.len());
        for (share, &rule) in size.rules.iter().zip(&made.rules) {
            let reached = reached(&made.formulas, usize::from(rule));
            let mut alone = made.clone();
            alone.rules = vec![rule];
            for (number, formula) in alone.formulas.iter_mut().enumerate() {
                if !reached.contains(&number) {
                    *formula = Formula::True;
                }
            }
            assert_eq!((share.kept, share.untils), (alone.kept().len(), alone.untils().len()));
            rules += 1;
        }
    }
    assert!(rules > 5_000, "{rules}");
}
