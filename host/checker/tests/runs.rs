//! Runs of ticks against the plain sides.

mod samples;

use std::array::from_fn;

use checker::bytes::{converter_bytes, positions, Design, SIDES};
use checker::generate::{design, matched_converter, ruled_design, script, Random, Shape};
use checker::search::find;
use checker::tick::{tick, watch, Broken, Part, PlainSides, Runner};
use samples::{figure_five, handshake, record, ruled_handshake, state, with_zeros};

#[test]
fn runs_of_converters_found() {
    let mut random = Random::new(12);
    let (mut runs, mut done, mut refused) = (0, 0, 0);
    while runs < 1_500 {
        let shape = if runs % 2 == 0 { Shape::SMALL } else { Shape { states: 10, ..Shape::SMALL } };
        let design = ruled_design(&mut random, &shape);
        if positions(&design) > 65_536 {
            continue;
        }
        let Some(found) = find(&design) else {
            continue;
        };
        let converter = converter_bytes(&found);
        let script = script(&mut random, &design, &converter, 60);
        let delivered = from_fn(|_| random.byte() as i8);
        let ticks = watch(&design, &converter, delivered, &script, tick).unwrap();
        runs += 1;
        done += ticks;
        refused += script.len() - ticks;
    }
    assert!(done > 10_000 && refused > 1_000, "{done} {refused}");
}

#[test]
fn runs_of_any_matched_converter() {
    let mut random = Random::new(13);
    let mut done = 0;
    for round in 0..1_500 {
        let shape = [Shape::TINY, Shape::SMALL, Shape { formulas: 0, ..Shape::FULL }][round % 3];
        let design = design(&mut random, &shape);
        let spare = random.below(10);
        let converter = converter_bytes(&matched_converter(&mut random, &design, spare));
        let script = script(&mut random, &design, &converter, 60);
        done += watch(&design, &converter, [0; SIDES], &script, tick).unwrap();
    }
    assert!(done > 10_000, "{done}");
}

#[test]
fn a_run_of_figure_five() {
    let script =
        [[0, 0], [-2, 0], [-1, 0], [0, 0], [-2, 0], [-1, 0], [5, 0], [-2, -1], [-2, 0], [0, 0]];
    let script = script.map(with_zeros);
    let converter = converter_bytes(&figure_five());
    // Refused: -2 where s0 sends -1, 5 is no sent event, -1 where t0 sends nothing.
    let done = watch(&ruled_handshake(false), &converter, [7; SIDES], &script, tick);
    assert_eq!(done, Ok(7));
}

#[test]
fn what_the_plain_sides_allow() {
    let sides = [
        vec![state(&[], &[(0, 0), (-1, 1)]), state(&[], &[(-2, 0)])],
        vec![state(&[], &[(3, 0), (4, 1)]), state(&[], &[(0, 0)])],
        vec![state(&[], &[(-5, 1)]), state(&[], &[(-6, 0), (0, 1)])],
    ];
    let design = Design { sides, formulas: vec![], rules: vec![] };
    let mut sides = PlainSides::default();
    for (shown, allowed) in [
        ([0, 0, -5], true),
        ([-1, 0, -5], true),
        ([-2, 0, -5], false),
        ([1, 0, -5], false),
        ([0, -3, -5], false),
        ([0, 3, -5], false),
        ([0, 0, 0], false),
        ([0, 0, 5], false),
        ([0, 0, -6], false),
    ] {
        assert_eq!(sides.allow(&design, shown), allowed, "{shown:?}");
    }
    assert_eq!(sides.deliver(&design, [-1, 3, -5]), Ok(()));
    assert_eq!(sides.states, [1, 0, 1]);
    // An output-only state has no event that isn't sent.
    assert!(!sides.allow(&design, [0, 0, 0]));
    assert!(sides.allow(&design, [-2, 0, 0]));
    assert!(sides.allow(&design, [-2, 0, -6]));
    assert_eq!(sides.deliver(&design, [-2, 5, 0]), Err(1));
    assert_eq!(sides.deliver(&design, [0, 4, 0]), Err(0));
    assert_eq!(sides.deliver(&design, [-2, 4, -5]), Err(2));
    assert_eq!(sides.states, [1, 0, 1]);
    assert_eq!(sides.deliver(&design, [-2, 4, 0]), Ok(()));
    assert_eq!(sides.states, [0, 1, 1]);
}

/// Runs F, and behind it a record for another state of the third side, with a tick that
/// isn't right.
fn watch_wrong(
    script: &[[i8; 2]],
    wrong: impl FnMut(&[u8], &mut Runner, [i8; SIDES]) -> Result<(), u8>,
) -> Result<usize, Broken> {
    let mut converter = figure_five();
    converter.push(record([0, 0, 1], &[([0; SIDES], 0)]));
    let script: Vec<[i8; SIDES]> = script.iter().map(|&shown| with_zeros(shown)).collect();
    let design = handshake(vec![], vec![]);
    watch(&design, &converter_bytes(&converter), [0; SIDES], &script, wrong)
}

#[test]
fn a_runner_frozen_after_its_first_tick_is_seen() {
    let script = [[-1, 0], [-2, 0], [-1, 0]];
    assert_eq!(watch_wrong(&script, tick), Ok(3));
    let mut first = true;
    let frozen = |converter: &[u8], runner: &mut Runner, shown| {
        if first {
            first = false;
            return tick(converter, runner, shown);
        }
        tick(converter, &mut runner.clone(), shown)
    };
    let broken = watch_wrong(&script, frozen).unwrap_err();
    assert_eq!(broken, Broken { call: 1, part: Part::Delivered });
}

#[test]
fn each_part_of_the_claim_can_break() {
    let refusing = |_: &[u8], _: &mut Runner, _| Err(17);
    assert_eq!(watch_wrong(&[[0, 0]], refusing), Err(Broken { call: 0, part: Part::Answer }));

    let yielding = |_: &[u8], _: &mut Runner, _| Ok(());
    assert_eq!(watch_wrong(&[[-2, 0]], yielding), Err(Broken { call: 0, part: Part::Answer }));

    let other_number = |_: &[u8], _: &mut Runner, _| Err(11);
    assert_eq!(watch_wrong(&[[-2, 0]], other_number), Err(Broken { call: 0, part: Part::Answer }));

    let changing = |_: &[u8], runner: &mut Runner, _| {
        runner.delivered[2] = 1;
        Err(17)
    };
    assert_eq!(watch_wrong(&[[-2, 0]], changing), Err(Broken { call: 0, part: Part::Unchanged }));

    let delivering = |delivered: [i8; SIDES], record: usize| {
        move |_: &[u8], runner: &mut Runner, _: [i8; SIDES]| {
            *runner = Runner { record, delivered };
            Ok(())
        }
    };
    // Neither s0 nor the third side has an event 5; 0 was shown and -1 is sent; (0, 0, 0)
    // leads to record 0.
    let broken = |part| Err(Broken { call: 0, part });
    assert_eq!(watch_wrong(&[[0, 0]], delivering([5, 0, 0], 0)), broken(Part::Stands));
    assert_eq!(watch_wrong(&[[0, 0]], delivering([0, 0, 5], 0)), broken(Part::Stands));
    assert_eq!(watch_wrong(&[[0, 0]], delivering([-1, 0, 0], 1)), broken(Part::Delivered));
    assert_eq!(watch_wrong(&[[0, 0]], delivering([0, 0, -1], 0)), broken(Part::Delivered));
    assert_eq!(watch_wrong(&[[0, 0]], delivering([0, 0, 0], 1)), broken(Part::Names));
    assert_eq!(watch_wrong(&[[0, 0]], delivering([0, 0, 0], 3)), broken(Part::Names));
    assert_eq!(watch_wrong(&[[0, 0]], delivering([0, 0, 0], 9)), broken(Part::Names));
    assert_eq!(watch_wrong(&[[0, 0]], delivering([0, 0, 0], 0)), Ok(1));
}
