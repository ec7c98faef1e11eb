//! Waits known by range, by the library and by the second checker: the answer and every byte, what
//! the library writes against counted waits, and verdicts about the new tables.

mod common;
#[path = "../../checker/tests/samples/mod.rs"]
mod samples;
#[path = "../../checker/tests/waits/mod.rs"]
mod waits;

use std::collections::BTreeMap;

use checker::bytes::{positions, read_design, seal, Design, State, StateKind, Transition};
use checker::generate::{
    any_bytes, any_converter, any_ranges, damage, flawed_list, progress_design, ruled_design,
    waiting_design, with_waits, Flaw, Random, Shape,
};
use checker::none::no_converter;
use checker::ranges::{list_bytes, may_be_chosen, states_after};
use common::{
    about, found, judge_agrees, ranges_agrees, search_agrees, size, tick_agrees, Answers,
};
use gorzhani::{Refused, Runner, BLOCK, CELL, ENTRY, FIVE_BLOCKS, FOUR_BLOCKS, RECORD};
use samples::record_bytes;
use waits::{
    faulty, flawed, no_wait_for_ever, patient_twice, rows_at_the_limit, rows_done, tessellation,
    waiting_handshake, wanting, Faulty, Met, Row,
};

/// A design and a list, each sound or not, and a length that is enough or isn't: in every mix.
#[test]
fn any_design_list_and_length() {
    let mut random = Random::new(1_201);
    let (mut answers, mut met) = (Answers::default(), Met::default());
    let (mut flaws, mut sizes) = (BTreeMap::new(), BTreeMap::new());
    for round in 0..100_000 {
        let made = waiting_design(&mut random);
        let mut bytes = any_bytes(&mut random, &made);
        let ranges = any_ranges(&mut random, &made);
        let over = states_after(&made, &ranges).into_iter().max().filter(|&states| states > 16);
        let (list, flaw) = match round % 8 {
            0..=2 => {
                let (list, flaw) = flawed_list(&mut random, &made, &ranges);
                (list, Some(flaw))
            }
            _ => (list_bytes(&ranges), None),
        };
        let damaged = random.once_in(4);
        if damaged {
            damage(&mut random, &mut bytes);
        }
        let length = about(&mut random, bytes.len());
        let short = length < bytes.len();
        let answer = ranges_agrees(&bytes, &list, length);
        answers.count(answer);
        met.count("a longer result", answer == 0 && length > bytes.len());
        if read_design(&bytes).is_err() {
            assert!((1..=8).contains(&answer), "{answer}");
            met.count("1 to 8 before 22", flaw.is_some());
            met.count("1 to 8 before 23", flaw.is_none() && over.is_some());
            met.count("1 to 8 before 12", short);
        } else if !damaged {
            // What was made tells the answer.
            let expected = match (flaw, over) {
                (Some(_), _) => 22,
                (None, Some(_)) => 23,
                (None, None) if short => 12,
                (None, None) => 0,
            };
            assert_eq!(answer, expected, "{list:?} {made:?}");
            met.count("22 before 23", flaw.is_some() && over.is_some());
            met.count("22 before 12", flaw.is_some() && short);
            met.count("23 before 12", flaw.is_none() && over.is_some() && short);
            met.count("seventeen states", answer == 23 && over == Some(17));
            if let Some(flaw) = flaw {
                *flaws.entry(flaw).or_insert(0) += 1;
                let third = list.chunks(ENTRY).any(|entry| entry[0] == 2);
                met.count("the third side of four blocks", third && bytes.len() == FOUR_BLOCKS);
            }
            if answer == 0 {
                met.carried_out(&made, &bytes, &ranges);
                for states in made.sides.each_ref().map(Vec::len) {
                    *sizes.entry(states).or_insert(0) += 1;
                }
            }
        }
    }
    println!("{:?}", answers.counts());
    println!("{met:?}");
    println!("{flaws:?} {sizes:?}");
    answers.are(&[0, 1, 2, 3, 4, 5, 6, 7, 8, 12, 22, 23], 250);
    met.each(300);
    assert!(Flaw::ALL.iter().all(|flaw| flaws.get(flaw).is_some_and(|&n| n >= 300)), "{flaws:?}");
    assert!((1..=16).all(|states| sizes.get(&states).is_some_and(|&n| n >= 300)), "{sizes:?}");
}

/// Every byte of some lists gets every other value.
#[test]
fn every_byte_of_a_list() {
    let mut random = Random::new(1_202);
    let mut answers = Answers::default();
    let mut tried = 0;
    while tried < 12 {
        let made = waiting_design(&mut random);
        let ranges = any_ranges(&mut random, &made);
        if !(2..=4).contains(&ranges.len()) {
            continue;
        }
        tried += 1;
        let (bytes, sound) = (any_bytes(&mut random, &made), list_bytes(&ranges));
        for at in 0..sound.len() {
            for change in 0..=255 {
                let mut list = sound.clone();
                list[at] = list[at].wrapping_add(change);
                answers.count(ranges_agrees(&bytes, &list, bytes.len()));
            }
        }
    }
    answers.are(&[0, 22, 23], 300);
}

/// Every length of a list, from nothing to many more entries than there are states, and lengths
/// that would be those of no entry or of one if a number of 16 bits counted entries or bytes.
#[test]
fn every_length_of_a_list() {
    let design = tessellation().to_bytes();
    let long = [65_536, 65_540, ENTRY * 65_536, ENTRY * 65_537];
    for length in (0..=1_028).chain(long) {
        let list: Vec<u8> = [0, 0, 0, 1].into_iter().cycle().take(length).collect();
        let expected = if length == 0 || length == 4 { 0 } else { 22 };
        assert_eq!(ranges_agrees(&design, &list, design.len()), expected, "{length}");
    }
}

/// One byte of a sound design gets another value, with its checks right again and as they were.
#[test]
fn every_byte_of_a_design() {
    let mut random = Random::new(1_203);
    let mut answers = Answers::default();
    let mut lengths = [FOUR_BLOCKS, FIVE_BLOCKS, FIVE_BLOCKS].into_iter().peekable();
    while let Some(&length) = lengths.peek() {
        let made = waiting_design(&mut random);
        let (sound, ranges) = (any_bytes(&mut random, &made), any_ranges(&mut random, &made));
        let list = list_bytes(&ranges);
        let done = sound.len() == length && ranges.len() > 2 && made.sides[0].len() < 9;
        if !done || ranges_agrees(&sound, &list, length) > 0 {
            continue;
        }
        lengths.next();
        for at in 0..length {
            // Behind the records one value will do.
            let told = at % BLOCK < 4 + record_bytes(&sound, at / BLOCK);
            for change in if told { 1..=255 } else { 1..=1 } {
                let mut bytes = sound.clone();
                bytes[at] = bytes[at].wrapping_add(change);
                if change % 16 == 1 {
                    assert_eq!(ranges_agrees(&bytes, &list, length), 2, "{at} {change}");
                }
                seal(&mut bytes);
                answers.count(ranges_agrees(&bytes, &list, length));
            }
        }
    }
    answers.are(&[0, 3, 4, 5, 6, 7, 8, 22], 100);
}

/// Every length of a design and of a result.
#[test]
fn every_length() {
    let design = tessellation();
    let list = [0, 0, 3, 9];
    for sound in [design.to_bytes(), design.to_five_blocks()] {
        let mut bytes = sound.clone();
        bytes.resize(FIVE_BLOCKS + 100, 0);
        for length in 0..bytes.len() {
            let expected = match length {
                _ if length == sound.len() => 0,
                FOUR_BLOCKS | FIVE_BLOCKS => 3,
                _ => 1,
            };
            assert_eq!(ranges_agrees(&bytes[..length], &list, FIVE_BLOCKS), expected, "{length}");
            let expected = if length < sound.len() { 12 } else { 0 };
            assert_eq!(ranges_agrees(&sound, &list, length), expected, "{length}");
        }
    }
}

/// The new design, which isn't refused.
fn replaced(design: &[u8], list: &[u8]) -> Design {
    assert_eq!(ranges_agrees(design, list, design.len() + 7), 0, "{list:?}");
    let mut result = vec![0; design.len()];
    assert_eq!(gorzhani::ranges(design, list, &mut result), Ok(()));
    read_design(&result).expect("a new design is sound")
}

/// Tables that are written out from the specification.
#[test]
fn rows() {
    for row in rows_done() {
        let Row { name, list, .. } = &row;
        for (bytes, expected) in row.four_or_five() {
            let mut result = vec![0xA5; bytes.len()];
            assert_eq!(gorzhani::ranges(&bytes, list, &mut result), Ok(()), "{name}");
            assert!(result == expected, "{name}: {:?}", read_design(&result));
            assert_eq!(ranges_agrees(&bytes, list, bytes.len()), 0, "{name}");
            assert_eq!(ranges_agrees(&bytes, list, bytes.len() + 9), 0, "{name}");
            assert_eq!(ranges_agrees(&bytes, list, bytes.len() - 1), 12, "{name}");
        }
    }
}

/// Tessellation may send once it has waited three times, and has to after nine: nine states more.
#[test]
fn tessellation_at_3_to_9() {
    let new = replaced(&tessellation().to_bytes(), &[0, 0, 3, 9]);
    let states = &new.sides[0];
    assert_eq!(states.len(), tessellation().sides[0].len() + 9);
    let mut at = 0;
    for waits in 0..=9 {
        let State { label, transitions } = &states[at];
        assert_eq!(*label, 1, "{waits}");
        let events: Vec<i8> = transitions.iter().map(|transition| transition.event).collect();
        let (allowed, kind): (&[i8], _) = match waits {
            0..3 => (&[0], StateKind::Input),
            3..9 => (&[0, -1], StateKind::Delayed),
            _ => (&[-1], StateKind::OutputOnly),
        };
        assert_eq!((&events[..], states[at].kind()), (allowed, Some(kind)), "{waits}");
        // A send leads to k1, whenever it comes.
        assert_eq!(states[at].target(-1), (waits >= 3).then_some(1));
        at = states[at].target(0).unwrap_or(at);
    }
    // The states that count stand behind k1, in the order of their counts.
    assert_eq!(at, 10);
}

/// A state that may not wait only sends: one transition, and no state more.
#[test]
fn no_wait_at_all() {
    let new = replaced(&tessellation().to_bytes(), &[0, 0, 0, 0]);
    assert_eq!(new.sides[0][0].transitions, [Transition { event: -1, target: 1 }]);
    assert_eq!(new.sides[0].len(), 2);
}

/// As many waits as can be counted, and then any number: the last state keeps its tick.
#[test]
fn fifteen_and_no_greatest() {
    let one = samples::design([vec![samples::state(&[3], &[(0, 0), (-1, 0)])]], vec![], vec![]);
    let new = replaced(&one.to_bytes(), &[0, 0, 15, 255]);
    assert_eq!(new.sides[0].len(), 16);
    let own = |number: usize| &new.sides[0][number];
    assert!((0..15).all(|count| own(count).target(0) == Some(count + 1)));
    assert!((0..15).all(|count| own(count).target(-1).is_none()));
    assert_eq!((own(15).target(0), own(15).target(-1)), (Some(15), Some(0)));
    // It waits where it is, and so it may be chosen again.
    assert!(may_be_chosen(15, own(15)));
    let again = replaced(&new.to_bytes(), &[0, 15, 0, 0]);
    assert_eq!(again, replaced(&one.to_bytes(), &[0, 0, 15, 15]));
}

/// An empty list and ranges that say nothing leave the design as it is, byte for byte.
#[test]
fn nothing_to_replace() {
    let mut random = Random::new(1_204);
    for _ in 0..2_000 {
        let made = waiting_design(&mut random);
        let bytes = any_bytes(&mut random, &made);
        let any: Vec<[u8; 4]> = (0..3)
            .flat_map(|side| (0..16).map(move |own| [side, own, 0, 255]))
            .filter(|&[side, own, ..]| {
                let own = usize::from(own);
                let state = made.sides[usize::from(side)].get(own);
                state.is_some_and(|state| may_be_chosen(own, state))
            })
            .collect();
        for list in [vec![], any.concat()] {
            let mut result = vec![0xA5; bytes.len() + 3];
            assert_eq!(gorzhani::ranges(&bytes, &list, &mut result), Ok(()));
            assert!(result[..bytes.len()] == bytes && result[bytes.len()..] == [0xA5; 3]);
            assert_eq!(ranges_agrees(&bytes, &list, bytes.len()), 0);
        }
    }
}

#[test]
fn sixteen_states_and_seventeen() {
    let (mut fit, mut over) = (0, 0);
    for (design, list, number) in rows_at_the_limit() {
        let bytes = design.to_five_blocks();
        assert_eq!(ranges_agrees(&bytes, &list, bytes.len()), number, "{list:?}");
        // 23 is tried before 12.
        let short = if number == 0 { 12 } else { number };
        assert_eq!(ranges_agrees(&bytes, &list, bytes.len() - 1), short, "{list:?}");
        // 22 is tried before 23: the first entry's state is named once more.
        let twice = [&list[..], &list[..4]].concat();
        assert_eq!(ranges_agrees(&bytes, &twice, 0), 22, "{list:?}");
        fit += usize::from(number == 0);
        over += usize::from(number == 23);
    }
    assert!(fit > 100 && over > 100, "{fit} {over}");
}

#[test]
fn flawed_lists() {
    let (design, lists) = flawed();
    assert!(lists.len() > 1_000);
    for list in &lists {
        for bytes in [design.to_bytes(), design.to_five_blocks()] {
            assert_eq!(ranges_agrees(&bytes, list, bytes.len()), 22, "{list:?}");
            assert_eq!(ranges_agrees(&bytes, list, 0), 22, "{list:?}");
        }
    }
}

/// Every set of faults: the first number in the order of the specification is answered.
#[test]
fn order_of_the_refusals() {
    let mut answers = Answers::default();
    for Faulty { design, list, length, expected } in faulty() {
        let answer = ranges_agrees(&design, &list, length);
        assert_eq!(answer, expected.unwrap_or(0), "{list:?} {length} {:?}", read_design(&design));
        answers.count(answer);
    }
    assert_eq!(answers.total(), 2 * 2_048);
    answers.are(&[0, 1, 2, 3, 4, 5, 6, 7, 8, 12, 22, 23], 2);
}

/// The same state number on two sides is two states.
#[test]
fn one_number_on_two_sides() {
    let (design, _) = flawed();
    let new = replaced(&design.to_bytes(), &[[0, 0, 1, 1], [1, 0, 0, 2]].concat());
    assert_eq!(new.sides.each_ref().map(Vec::len), [6, 3, 1]);
}

/// The verdict of the library on a design, which the second checker's verdicts agree with.
fn searched(design: &Design) -> u8 {
    let (bytes, lent) = (design.to_bytes(), size(&design.to_bytes(), 1 << 16));
    search_agrees(&bytes, RECORD * lent, CELL * lent)
}

/// H with A(true U 1): s0 may wait for ever, and where it waits twice at the most a converter is
/// found.
#[test]
fn h_with_s0_at_0_to_2() {
    let old = waiting_handshake();
    assert_eq!((positions(&old), searched(&old)), (8, 16));
    let new = replaced(&old.to_bytes(), &[0, 0, 0, 2]);
    assert_eq!(new.sides[0], patient_twice());
    assert_eq!((positions(&new), searched(&new)), (16, 0));
    let converter = found(&new.to_bytes()).expect("there is one");
    let work = CELL * (converter.len() / RECORD);
    assert_eq!(judge_agrees(&new.to_bytes(), &converter, work), 0);
    // It isn't one for the old table, nor is there one where no greatest is known.
    assert_eq!(judge_agrees(&old.to_bytes(), &converter, work), 14);
    for least in [0, 1, 2, 14] {
        let new = replaced(&old.to_bytes(), &[0, 0, least, 255]);
        assert_eq!(searched(&new), 16, "{least}");
    }
    // A third wait is refused, and the send comes.
    let mut runner = Runner::default();
    for (shown, answer) in [(0, 0), (0, 0), (0, 17), (-1, 0)] {
        assert_eq!(tick_agrees(&converter, &mut runner, [shown, 0, 0]), answer);
    }
}

/// The same of a third side: where the thumbnails wait no more than so often, a picture comes.
#[test]
fn a_third_side_that_waits_no_more() {
    let viewer = samples::viewer_once(samples::thumbnails(true));
    for (list, answer) in
        [(vec![], 16), (vec![2, 1, 0, 255], 16), (vec![2, 1, 3, 9], 0), (vec![2, 1, 0, 0], 0)]
    {
        assert_eq!(searched(&replaced(&viewer.to_bytes(), &list)), answer, "{list:?}");
    }
    // With four blocks there is no third side to choose from.
    let alone = samples::viewer_once(checker::bytes::idle_side()).to_bytes();
    assert_eq!(alone.len(), FOUR_BLOCKS);
    assert_eq!(ranges_agrees(&alone, &[2, 0, 0, 1], FOUR_BLOCKS), 22);
}

/// Verdicts are about the new table: searches and judgements of the library and of the second
/// checker agree on it, and "none" is what the tableau says.
#[test]
fn verdicts_on_new_designs() {
    let mut random = Random::new(1_205);
    let (mut answers, mut judged) = (Answers::default(), Answers::default());
    let (mut gained, mut leading_on) = (0, 0);
    while answers.total() < 4_000 {
        let mut made = match answers.total() % 3 {
            0 => ruled_design(&mut random, &Shape::TINY),
            1 => ruled_design(&mut random, &Shape { states: 3, ..Shape::SMALL }),
            _ => progress_design(&mut random, &Shape::TINY),
        };
        if random.once_in(3) {
            (made.formulas, made.rules) = wanting(&mut random);
        }
        let old = with_waits(&mut random, made);
        let make = if random.once_in(2) { any_ranges } else { no_wait_for_ever };
        let ranges = make(&mut random, &old);
        let fits = states_after(&old, &ranges).iter().all(|&states| states <= 16);
        if !fits || ranges.iter().all(|range| range.more_states() == 0) {
            continue;
        }
        let new = replaced(&any_bytes(&mut random, &old), &list_bytes(&ranges));
        if positions(&new) > 1 << 11 {
            continue;
        }
        let answer = searched(&new);
        assert_eq!(answer == 16, no_converter(&new), "{new:?}");
        answers.count(answer);
        // A converter for sides that may do more is one for sides that may do less.
        let before = searched(&old);
        assert!(before == 16 || answer == 0, "{old:?} {ranges:?}");
        gained += usize::from(before == 16 && answer == 0);
        let converter = any_converter(&mut random, &new);
        let length = CELL * (converter.len() / RECORD);
        judged.count(judge_agrees(&new.to_five_blocks(), &converter, length));
        let leads_on = |(own, state): (usize, &State)| {
            state.kind() == Some(StateKind::Delayed) && state.target(0) != Some(own)
        };
        leading_on += usize::from(new.sides.iter().any(|s| s.iter().enumerate().any(leads_on)));
    }
    println!("{:?} {:?} {gained} {leading_on}", answers.counts(), judged.counts());
    answers.are(&[0, 16], 1_000);
    judged.are(&[0, 10, 11, 14, 15], 100);
    assert!(gained > 50 && leading_on > 1_500, "{gained} {leading_on}");
}

/// A refusal of the wrapper is an error with its number.
#[test]
fn refusals_of_the_wrapper() {
    let design = tessellation().to_bytes();
    let refused = |list: &[u8], length: usize| {
        gorzhani::ranges(&design, list, &mut vec![0; length]).expect_err("it is refused")
    };
    assert_eq!(refused(&[0, 0, 1], FOUR_BLOCKS), Refused::RANGES);
    assert_eq!(refused(&[0, 0, 15, 15], FOUR_BLOCKS), Refused::TOO_MANY_STATES);
    assert_eq!(refused(&[0, 0, 1, 1], FOUR_BLOCKS - 1), Refused::SHORT_RESULT);
    assert_eq!(gorzhani::ranges(&[], &[], &mut []), Err(Refused::LENGTH));
}
