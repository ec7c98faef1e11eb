//! Designs of two sides: what was said of them when there was no third is said of them
//! again, in four blocks and in five, and whichever two of the three sides they are.

mod kept;
mod samples;

use std::collections::BTreeMap;

use checker::bytes::{converter_bytes, idle_side, positions, read_design, Design};
use checker::generate::{any_converter, any_design, progress_design, ruled_design, Random, Shape};
use checker::search::find;
use kept::kept;
use samples::{
    judged_well, numbers, pattern, reordered, reordered_converter, searched, state, BEYOND, ORDERS,
};

#[test]
fn a_design_of_four_blocks_has_an_idle_third_side() {
    let design = samples::ruled_handshake(false);
    let bytes = design.to_bytes();
    assert_eq!(bytes.len(), 2_048);
    assert_eq!(read_design(&bytes).unwrap().sides[2], [state(&[], &[(0, 0)])]);
    assert_eq!(idle_side(), [state(&[], &[(0, 0)])]);
    assert_eq!(read_design(&design.to_five_blocks()), Ok(design));
}

#[test]
fn verdicts_kept_as_data() {
    let kept = kept();
    for (number, kept) in kept.iter().enumerate() {
        let bytes = kept.design.to_bytes();
        assert_eq!(bytes.len(), 2_048, "{number}");
        assert_eq!(read_design(&bytes), Ok(kept.design.clone()), "{number}");
        assert_eq!(positions(&kept.design), kept.positions, "{number}");
        let none = (!kept.found).then_some(16);
        assert_eq!(searched(&kept.design).err(), none, "{number}");
        let converter = converter_bytes(&kept.converter);
        assert_eq!(judged_well(&kept.design, &converter), kept.judged, "{number}");
    }
    // The whole file was read, and every verdict is in it.
    let found = kept.iter().filter(|kept| kept.found).count();
    let judged = [Ok(()), Err(14), Err(15)]
        .map(|verdict| kept.iter().filter(|kept| kept.judged == verdict).count());
    println!("found {found} of {}, judged {judged:?}", kept.len());
    assert_eq!([found, kept.len() - found], [614, 386]);
    assert_eq!(judged, [449, 162, 389]);
}

#[test]
fn verdicts_kept_as_data_of_any_two_sides() {
    for (number, kept) in kept().iter().enumerate() {
        for order in ORDERS {
            let design = reordered(&kept.design, order);
            assert_eq!(positions(&design), kept.positions, "{number} {order:?}");
            assert_eq!(find(&design).is_some(), kept.found, "{number} {order:?}");
            let converter = converter_bytes(&reordered_converter(&kept.converter, order));
            assert_eq!(judged_well(&design, &converter), kept.judged, "{number} {order:?}");
        }
    }
}

/// What a search answers, and the lent bytes after it.
fn answer_and_bytes(design: &[u8], lent: usize) -> (Result<usize, u8>, Vec<u8>, Vec<u8>) {
    let (mut table, mut work) = (pattern(52 * lent + BEYOND), pattern(16 * lent + BEYOND));
    let answer = checker::search(design, &mut table, &mut work);
    (answer, table, work)
}

/// A random design of two sides.
fn two_sided(random: &mut Random, round: usize) -> Design {
    let mut design = match round % 4 {
        0 => any_design(random),
        1 => ruled_design(random, &Shape::TINY),
        2 => ruled_design(random, &Shape::SMALL),
        _ => progress_design(random, &Shape::TINY),
    };
    design.sides[2] = idle_side();
    design
}

#[test]
fn four_blocks_and_five_say_the_same() {
    let mut random = Random::new(43);
    let mut answers: BTreeMap<u8, usize> = BTreeMap::new();
    for round in 0..3_000 {
        let design = two_sided(&mut random, round);
        let (four, five) = (design.to_bytes(), design.to_five_blocks());
        assert_eq!((four.len(), five.len()), (2_048, 2_560));
        // At times too little is lent.
        let enough = positions(&design).min(4_096) as usize;
        let lent = if random.once_in(8) { enough - 1 } else { enough };
        let searched = answer_and_bytes(&four, lent);
        assert_eq!(searched, answer_and_bytes(&five, lent), "{design:?}");
        *answers.entry(searched.0.err().unwrap_or(0)).or_default() += 1;

        let converter = any_converter(&mut random, &design);
        let mut work = pattern(16 * (converter.len() / 52) + BEYOND);
        let mut waits = numbers(design.rules.len() + BEYOND);
        let (mut other_work, mut other_waits) = (work.clone(), waits.clone());
        let judged = checker::judge(&four, &converter, &mut work, &mut waits);
        let again = checker::judge(&five, &converter, &mut other_work, &mut other_waits);
        assert_eq!(judged, again, "{design:?}");
        assert_eq!((work, waits), (other_work, other_waits), "{design:?}");
        *answers.entry(judged.err().unwrap_or(0)).or_default() += 1;
    }
    println!("{answers:?}");
    let come = [0, 9, 10, 11, 12, 14, 15, 16];
    assert!(come.iter().all(|answer| answers.get(answer).is_some_and(|&n| n > 50)), "{answers:?}");
}
