//! The count of a design's positions by the library and by the second checker, and the lengths that
//! a search then asks for.

mod common;
#[path = "../../checker/tests/samples/mod.rs"]
mod samples;

use checker::bytes::{idle_side, seal, Formula};
use checker::generate::{any_bytes, any_design, damage, ruled_design, Random, Shape};
use common::{mixed_design, positions_agrees, Answers};
use gorzhani::{Refused, BLOCK, CELL, FIVE_BLOCKS, FOUR_BLOCKS, RECORD};
use samples::{
    design, four_choices, handshake, lock_and_menu, next_sixteen_next_seventeen, record_bytes,
    rings, ruled_handshake, three_delayed, three_rings, thumbnails, ticking_in_turn, two_inputs,
    viewer,
};

/// The rows of the specification, with the count that stands there.
#[test]
fn rows() {
    let mut either = next_sixteen_next_seventeen();
    either.push(Formula::Or(2, 3));
    let waiting = vec![Formula::True, Formula::Proposition(1), Formula::Until(0, 1)];
    let rows = [
        (handshake(vec![], vec![]), Ok(4)),
        (ruled_handshake(true), Ok(1_024)),
        (handshake(waiting, vec![2]), Ok(8)),
        (ticking_in_turn(), Ok(32)),
        (two_inputs(either, vec![4]), Ok(24)),
        (lock_and_menu(), Ok(32)),
        (rings(Formula::Always(14)), Ok(65_536)),
        (rings(Formula::Until(14, 4)), Err(Refused::POSITIONS)),
        (viewer(idle_side()), Ok(16)),
        (viewer(thumbnails(false)), Ok(32)),
        (viewer(thumbnails(true)), Ok(32)),
        (four_choices(), Ok(1)),
        (three_delayed(), Ok(1)),
        (three_rings(Formula::Always(9)), Ok(65_536)),
        (three_rings(Formula::Until(9, 5)), Err(Refused::POSITIONS)),
    ];
    for (made, count) in rows {
        for bytes in [made.to_bytes(), made.to_five_blocks()] {
            assert_eq!(gorzhani::positions(&bytes), count, "{made:?}");
        }
    }
}

/// One ticking state on every side, so that the kept formulas alone count: 2 to their power, times
/// the untils.
#[test]
fn kept_formulas() {
    let counted = |formulas: Vec<Formula>, rules: Vec<u8>| {
        gorzhani::positions(&design([], formulas, rules).to_bytes())
    };
    for rules in 0..=16 {
        let numbers = (0..rules).collect();
        assert_eq!(counted(vec![Formula::True; 16], numbers), Ok(1 << rules));
    }
    for count in 1..=63_usize {
        let after = |formula: Formula| [vec![Formula::True], vec![formula; count]].concat();
        let power = |kept: usize, untils: usize| match untils << kept.min(17) {
            size @ ..=65_536 => Ok(size),
            _ => Err(Refused::POSITIONS),
        };
        assert_eq!(counted(after(Formula::Always(0)), vec![]), power(count, 1));
        assert_eq!(counted(after(Formula::Until(0, 0)), vec![]), power(count, count));
        // The one operand of them all counts once, and once more with its rule.
        assert_eq!(counted(after(Formula::Next(0)), vec![]), Ok(2));
        assert_eq!(counted(after(Formula::Next(0)), vec![0, 0]), Ok(2));
        assert_eq!(counted(after(Formula::Next(0)), vec![0, 1, 1]), Ok(4));
    }
}

#[test]
fn sound() {
    let mut random = Random::new(701);
    let mut answers = Answers::default();
    for round in 0..20_000 {
        let made = mixed_design(&mut random, round);
        answers.count(positions_agrees(&any_bytes(&mut random, &made)));
    }
    answers.are(&[0, 9], 1_000);
}

#[test]
fn damaged() {
    let mut random = Random::new(702);
    let mut answers = Answers::default();
    for _ in 0..20_000 {
        let made = any_design(&mut random);
        let mut bytes = any_bytes(&mut random, &made);
        damage(&mut random, &mut bytes);
        answers.count(positions_agrees(&bytes));
    }
    answers.are(&[0, 1, 2, 3, 4, 5, 6, 7, 8, 9], 50);
}

/// Every byte of some designs gets every other value. With the checks as they were the check is
/// wrong. With the checks right again a byte behind the records is an unused one; of the others the
/// second checker tells.
#[test]
fn every_damage_of_one_byte() {
    let mut random = Random::new(705);
    let mut answers = Answers::default();
    let mut made =
        [Shape::TINY, Shape::SMALL, Shape::FULL].map(|shape| ruled_design(&mut random, &shape));
    made[1].sides[2] = idle_side();
    let sounds = made.map(|design| design.to_bytes());
    assert_eq!(sounds.each_ref().map(Vec::len), [FIVE_BLOCKS, FOUR_BLOCKS, FIVE_BLOCKS]);
    for sound in sounds {
        for at in 0..sound.len() {
            let (place, records) = (at % BLOCK, record_bytes(&sound, at / BLOCK));
            for change in 1..=255 {
                let mut bytes = sound.clone();
                bytes[at] = bytes[at].wrapping_add(change);
                assert_eq!(gorzhani::positions(&bytes), Err(Refused::CHECK), "{at} {change}");
                seal(&mut bytes);
                match place {
                    510.. => assert!(bytes == sound, "the check is what was damaged"),
                    _ if place >= 4 + records => {
                        assert_eq!(gorzhani::positions(&bytes), Err(Refused::UNUSED_BYTE));
                    }
                    _ => answers.count(positions_agrees(&bytes)),
                }
            }
        }
    }
    answers.are(&[0, 3, 4, 5, 6, 7, 8, 9], 100);
}

#[test]
fn every_length() {
    let design = ruled_handshake(false);
    for sound in [design.to_bytes(), design.to_five_blocks()] {
        let mut bytes = sound.clone();
        bytes.extend_from_within(..);
        for length in 0..=bytes.len() {
            let expected = match length {
                _ if length == sound.len() => Ok(1_024),
                // The other length of designs, with blocks of other kinds.
                FOUR_BLOCKS | FIVE_BLOCKS => Err(Refused::HEADER),
                _ => Err(Refused::LENGTH),
            };
            assert_eq!(gorzhani::positions(&bytes[..length]), expected, "{length}");
        }
    }
}

/// What a search is lent by the count is just enough.
#[test]
fn a_search_asks_for_just_so_much() {
    let mut random = Random::new(704);
    let mut tried = 0;
    while tried < 3_000 {
        let made = any_design(&mut random);
        let bytes = any_bytes(&mut random, &made);
        let count = match gorzhani::positions(&bytes) {
            Ok(count @ ..=4_096) => count,
            _ => continue,
        };
        let answer = |table: usize, work: usize| {
            gorzhani::search(&bytes, &mut vec![0; table], &mut vec![0; work])
        };
        let (table, work) = (RECORD * count, CELL * count);
        assert!(matches!(answer(table, work), Ok(_) | Err(Refused::NO_CONVERTER)));
        assert_eq!(answer(table - 1, work), Err(Refused::SHORT_RESULT));
        assert_eq!(answer(table, work - 1), Err(Refused::SHORT_WORK));
        tried += 1;
    }
}
