//! Random designs, converters and files, sound and damaged.

mod samples;

use std::array::from_fn;
use std::collections::{BTreeMap, BTreeSet};

use checker::bytes::{
    converter_bytes, read_blocks, read_converter_memory, read_design, write_blocks, Design,
    Formula, State, StateKind, Transition,
};
use checker::generate::{
    any_bytes, any_converter, any_design, block_file, damage, damaged_converter, design,
    loose_converter, matched_converter, named_propositions, nearly_matched_converter, Damage,
    Random, Shape,
};
use checker::judge::{failing_rules, matched};
use samples::{judged_well, pattern, BEYOND};

const SHAPES: [Shape; 3] = [Shape::TINY, Shape::SMALL, Shape::FULL];

#[test]
fn sound_designs_are_read_as_written() {
    let mut random = Random::new(2);
    let mut mixes: BTreeMap<String, usize> = BTreeMap::new();
    let mut kinds: BTreeMap<String, usize> = BTreeMap::new();
    let mut named: BTreeSet<u8> = BTreeSet::new();
    let mut lengths: BTreeMap<usize, usize> = BTreeMap::new();
    let mut waits: BTreeMap<[bool; 3], usize> = BTreeMap::new();
    for round in 0..6_000 {
        let made = design(&mut random, &SHAPES[round % 3]);
        let bytes = made.to_bytes();
        assert_eq!(read_design(&bytes), Ok(made.clone()));
        assert_eq!(read_design(&made.to_five_blocks()), Ok(made.clone()));
        *lengths.entry(bytes.len()).or_default() += 1;
        let start = made.sides.each_ref().map(|side| side[0].kind().unwrap());
        *mixes.entry(format!("{start:?}")).or_default() += 1;
        for ways in made.sides.iter().flat_map(|side| ways_to_wait(side)) {
            *waits.entry(ways).or_default() += 1;
        }
        for formula in &made.formulas {
            let name = format!("{formula:?}");
            *kinds.entry(name.split('(').next().unwrap().to_string()).or_default() += 1;
            if let Formula::Proposition(p) | Formula::NotProposition(p) = formula {
                named.insert(*p);
            }
        }
    }
    // Every mix of state kinds, every kind of formula and every label of every side comes,
    // in four blocks and in five.
    assert_eq!(mixes.len(), 27, "{mixes:?}");
    assert!(mixes.values().all(|&times| times > 20), "{mixes:?}");
    assert_eq!(kinds.len(), 9, "{kinds:?}");
    assert!(kinds.values().all(|&times| times > 100), "{kinds:?}");
    assert_eq!(named, (0..48).collect());
    assert_eq!(lengths.keys().collect::<Vec<_>>(), [&2_048, &2_560], "{lengths:?}");
    assert!(lengths.values().all(|&times| times > 1_000), "{lengths:?}");
    // Delayed states of each sort come.
    assert_eq!(waits.len(), 8, "{waits:?}");
    assert!(waits.values().all(|&times| times > 500), "{waits:?}");
}

/// Of each delayed state of a side: whether its tick leads back to it, whether its send does,
/// and whether the tick stands first.
fn ways_to_wait(side: &[State]) -> Vec<[bool; 3]> {
    let ways = |(own, state): (usize, &State)| {
        let back = |transition: &Transition| usize::from(transition.target) == own;
        match state.transitions[..] {
            [tick, send] if tick.event == 0 && send.event < 0 => {
                Some([back(&tick), back(&send), true])
            }
            [send, tick] if tick.event == 0 && send.event < 0 => {
                Some([back(&tick), back(&send), false])
            }
            _ => None,
        }
    };
    side.iter().enumerate().filter_map(ways).collect()
}

/// The design as bytes of this length.
fn written_again(design: &Design, length: usize) -> Vec<u8> {
    if length == 2_048 {
        design.to_bytes()
    } else {
        design.to_five_blocks()
    }
}

/// Whether bytes of a design's length have a block of kind 6 in a wrong place, or none in
/// its place.
fn six_is_wrong(bytes: &[u8]) -> bool {
    let third = |place: usize| bytes.len() == 2_560 && place == 2;
    bytes.chunks(512).enumerate().any(|(place, block)| (block[0] == 6) != third(place))
}

#[test]
fn damaged_designs() {
    let mut random = Random::new(3);
    let mut answers: BTreeMap<u8, usize> = BTreeMap::new();
    let (mut between, mut sixes, mut blocks) = (0, 0, [0, 0]);
    for round in 0..20_000 {
        let made = design(&mut random, &SHAPES[round % 3]);
        let mut bytes = any_bytes(&mut random, &made);
        let done = damage(&mut random, &mut bytes);
        let read = read_design(&bytes);
        let whole = [2_048, 2_560].contains(&bytes.len());
        match done {
            Damage::Length => assert_eq!(read, Err(if whole { 3 } else { 1 })),
            Damage::Byte => assert_eq!(read, Err(2)),
            Damage::Repaired => assert!(matches!(read, Ok(_) | Err(3..=8)), "{read:?}"),
            Damage::Blocks => {
                assert!(matches!(read, Ok(_) | Err(3)), "{read:?}");
                blocks[usize::from(read.is_ok())] += 1;
            }
        }
        if let Ok(design) = &read {
            // What is read is all there is: written again, it is the same.
            assert_eq!(written_again(design, bytes.len()), bytes);
        }
        between += usize::from((2_049..2_560).contains(&bytes.len()));
        sixes += usize::from(whole && done == Damage::Repaired && six_is_wrong(&bytes));
        *answers.entry(read.err().unwrap_or(0)).or_default() += 1;
    }
    assert!((0..=8).all(|answer| answers.get(&answer).is_some_and(|&n| n > 100)), "{answers:?}");
    assert!(between > 300 && sixes > 50, "{between} {sixes}");
    assert!(blocks.iter().all(|&times| times > 100), "{blocks:?}");
}

#[test]
fn damaged_propositions() {
    let mut random = Random::new(15);
    let mut named: BTreeMap<u8, usize> = BTreeMap::new();
    let mut moved = 0;
    for _ in 0..10_000 {
        let made = any_design(&mut random);
        let sound = any_bytes(&mut random, &made);
        let mut bytes = sound.clone();
        if damage(&mut random, &mut bytes) != Damage::Repaired {
            continue;
        }
        for at in named_propositions(&sound).into_iter().filter(|&at| bytes[at] != sound[at]) {
            *named.entry(bytes[at]).or_default() += 1;
            moved += usize::from(bytes[at] < 48 && bytes[at] % 16 == sound[at] % 16);
        }
    }
    // The first and the last label of each side, and of sides that there aren't; the same
    // label of another side.
    let come = [0, 15, 16, 31, 32, 47, 48, 63, 64, 79, 255];
    assert!(come.iter().all(|p| named.get(p).is_some_and(|&n| n > 20)), "{named:?}");
    assert!(moved > 50, "{moved}");
}

#[test]
fn files_come_back_as_they_were_written() {
    let mut random = Random::new(4);
    for records in (1..=60).chain([140, 1_000]) {
        let converter = converter_bytes(&loose_converter(&mut random, records));
        let blocks = records.div_ceil(9);
        let mut file = pattern(512 * blocks + BEYOND);
        assert_eq!(write_blocks(&converter, &mut file), Ok(blocks));
        assert_eq!(file[512 * blocks..], pattern(512 * blocks + BEYOND)[512 * blocks..]);
        file.truncate(512 * blocks);
        // The first block has the first record's bytes right behind its header.
        assert_eq!(file[..4], [5, records.min(9) as u8, 0, 0]);
        assert_eq!(file[4..56], converter[..52]);
        let mut back = pattern(52 * records);
        assert_eq!(read_blocks(&file, &mut back), Ok(records));
        assert_eq!(back, converter);
    }
}

#[test]
fn damaged_files() {
    let mut random = Random::new(5);
    let mut answers: BTreeMap<u8, usize> = BTreeMap::new();
    let mut tens = 0;
    for _ in 0..10_000 {
        let mut file = block_file(&mut random, 40);
        let done = damage(&mut random, &mut file);
        let mut lent = pattern(52 * 60);
        let read = read_blocks(&file, &mut lent);
        match done {
            Damage::Length if file.is_empty() || !file.len().is_multiple_of(512) => {
                assert_eq!(read, Err(1))
            }
            Damage::Length => assert_ne!(read, Err(2), "whole blocks are added or left out"),
            Damage::Byte => assert_eq!(read, Err(2)),
            Damage::Repaired => {
                assert!(matches!(read, Ok(_) | Err(3 | 4 | 8 | 11)), "{read:?}");
                tens += usize::from(read == Err(4) && file.chunks(512).any(|block| block[1] == 10));
            }
            Damage::Blocks => unreachable!("a converter file is no design"),
        }
        if let Ok(records) = read {
            let mut again = pattern(file.len());
            assert_eq!(write_blocks(&lent[..52 * records], &mut again), Ok(file.len() / 512));
            assert_eq!(again, file);
        } else {
            assert_eq!(lent, pattern(52 * 60));
        }
        *answers.entry(read.err().unwrap_or(0)).or_default() += 1;
    }
    assert!(tens > 30, "{tens}");
    let come = [0, 1, 2, 3, 4, 8, 11];
    assert!(come.iter().all(|answer| answers.get(answer).is_some_and(|&n| n > 50)), "{answers:?}");
}

/// The places at which bytes of the same length differ, with what stands there then.
fn changed(sound: &[u8], bytes: &[u8]) -> Vec<(usize, u8)> {
    let same_length = sound.len() == bytes.len();
    let differ = |&(at, &byte): &(usize, &u8)| same_length && sound[at] != byte;
    bytes.iter().enumerate().filter(differ).map(|(at, &byte)| (at, byte)).collect()
}

#[test]
fn converters_of_every_sort() {
    let mut random = Random::new(6);
    let mut near = [0, 0];
    let mut damaged: BTreeMap<u8, usize> = BTreeMap::new();
    let (mut zeros, mut third_names) = (0, 0);
    for round in 0..4_000 {
        let design = design(&mut random, &SHAPES[round % 2]);
        let spare = random.below(6);
        let sound = matched_converter(&mut random, &design, spare);
        assert_eq!(read_converter_memory(&converter_bytes(&sound)), Ok(sound.clone()));
        assert!(matched(&design, &sound));

        let nearly = nearly_matched_converter(&mut random, &design, spare);
        assert_eq!(read_converter_memory(&converter_bytes(&nearly)), Ok(nearly.clone()));
        near[usize::from(matched(&design, &nearly))] += 1;

        let bytes = damaged_converter(&mut random, &sound);
        let read = read_converter_memory(&bytes);
        if let Ok(records) = &read {
            assert_eq!(converter_bytes(records), bytes);
        }
        for (at, _) in changed(&converter_bytes(&sound), &bytes) {
            let (record, byte) = (at / 52, at % 52);
            let used = 4 + 6 * sound[record].links.len();
            if (4..used).contains(&byte) && byte % 6 == 1 {
                assert_eq!(read, Err(11), "the zero inside a used place");
                zeros += 1;
            }
            third_names += usize::from(byte == 2);
        }
        *damaged.entry(read.err().unwrap_or(0)).or_default() += 1;
    }
    assert!(zeros > 50 && third_names > 30, "{zeros} {third_names}");
    assert!(near.iter().all(|&times| times > 500), "{near:?}");
    assert!([0, 10, 11].iter().all(|answer| damaged[answer] > 100), "{damaged:?}");
}

#[test]
fn any_converter_is_judged() {
    let mut random = Random::new(14);
    let mut answers: BTreeMap<u8, usize> = BTreeMap::new();
    for _ in 0..6_000 {
        let design = any_design(&mut random);
        let converter = any_converter(&mut random, &design);
        let answer = judged_well(&design, &converter);
        // The answer is that of the four questions, each asked by itself.
        let expected = match read_converter_memory(&converter) {
            Err(number) => Err(number),
            Ok(records) if !matched(&design, &records) => Err(14),
            Ok(records) if !failing_rules(&design, &records).is_empty() => Err(15),
            Ok(_) => Ok(()),
        };
        assert_eq!(answer, expected);
        *answers.entry(answer.err().unwrap_or(0)).or_default() += 1;
    }
    let come = [0, 10, 11, 14, 15];
    assert!(come.iter().all(|answer| answers.get(answer).is_some_and(|&n| n > 100)), "{answers:?}");
    assert_eq!(answers.len(), come.len(), "{answers:?}");
}

#[test]
fn kinds_of_states() {
    use samples::state;
    let kind = |transitions: &[(i8, u8)]| state(&[], transitions).kind();
    assert_eq!(kind(&[(0, 1)]), Some(StateKind::Input));
    assert_eq!(kind(&[(0, 0), (5, 1), (63, 0)]), Some(StateKind::Input));
    assert_eq!(kind(&[(-5, 1)]), Some(StateKind::OutputOnly));
    assert_eq!(kind(&[(-5, 1), (0, 0)]), Some(StateKind::Delayed));
    assert_eq!(kind(&[(0, 0), (-63, 0)]), Some(StateKind::Delayed));
    assert_eq!(kind(&[(0, 1), (-5, 1)]), Some(StateKind::Delayed));
    assert_eq!(kind(&[(-5, 0), (0, 15)]), Some(StateKind::Delayed));
    assert_eq!(kind(&[(5, 0), (-5, 1)]), None);
    assert_eq!(kind(&[(-4, 0), (-5, 1)]), None);
    assert_eq!(kind(&[(0, 0), (-5, 1), (1, 0)]), None);
    assert_eq!(kind(&[(0, 0), (-5, 1), (-6, 0)]), None);
}

#[test]
fn kept_formulas_are_counted_once() {
    let formulas = vec![
        Formula::Proposition(0),
        Formula::Next(0),
        Formula::Next(0),
        Formula::Next(1),
        Formula::Until(0, 1),
        Formula::Always(4),
        Formula::Next(5),
        Formula::Or(5, 4),
        Formula::Until(7, 4),
    ];
    let mut design = samples::handshake(formulas, vec![]);
    // Operands of AX: 0, 1, 5. Until: 4, 8. Always: 5.
    assert_eq!(design.kept(), [0, 1, 4, 5, 8].into());
    // 2 × 2 joint states, 2 to the power of 5, two kind 8.
    assert_eq!(checker::bytes::positions(&design), 256);
    design.rules = vec![7, 7, 0, 8];
    assert_eq!(design.kept(), [0, 1, 4, 5, 7, 8].into());
    assert_eq!(checker::bytes::positions(&design), 512);
    // The most there can be: 4,096 joint states and 64 kept kind 8 formulas.
    let side = vec![samples::state(&[], &[(0, 0)]); 16];
    design.sides = from_fn(|_| side.clone());
    design.formulas = vec![Formula::Until(0, 0); 64];
    assert_eq!(checker::bytes::positions(&design), 4_096 * 64 * (1 << 64));
}
