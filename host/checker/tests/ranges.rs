//! Waits known by range: rows from the specification, the refusals in their order, and the two
//! ways against each other: the table that is put down, and the old one with counted waits.

mod samples;
mod waits;

use std::collections::{BTreeMap, BTreeSet};

use checker::brute::{try_all, Outcome};
use checker::bytes::{
    converter_bytes, positions, read_design, seal, Design, State, StateKind, SIDES,
};
use checker::generate::{
    any_bytes, any_ranges, flawed_list, progress_design, ruled_design, waiting_design, with_waits,
    Flaw, Random, Shape,
};
use checker::judge::{failing_rules, matched};
use checker::none::no_converter;
use checker::ranges::{like, list_bytes, may_be_chosen, read_ranges, Unlike, ENTRY_BYTES};
use checker::search::find;
use checker::tick::{tick, watch};
use samples::{
    design, judged_well, pattern, record, record_bytes, searched, state, with_zeros, BEYOND,
};
use waits::{
    faulty, flawed, no_wait_for_ever, patient_twice, rows_at_the_limit, rows_done, tessellation,
    waiting_handshake, wanting, Faulty, Met,
};

/// Replaces states in patterned bytes, and holds every byte against the specification: nothing
/// changes on a refusal, and nothing behind the new design. The new design as bytes.
fn replaced(design: &[u8], list: &[u8], length: usize) -> Result<Vec<u8>, u8> {
    let mut result = pattern(length);
    let answer = checker::ranges(design, list, &mut result);
    let written = if answer.is_ok() { design.len() } else { 0 };
    assert_eq!(result[written..], pattern(length)[written..], "lent bytes after {answer:?}");
    answer.map(|()| result[..written].to_vec())
}

/// Replaces states of a design of four or five blocks, and holds what comes of it against the
/// counted waits.
fn replaced_well(bytes: &[u8], list: &[u8]) -> Result<Vec<u8>, u8> {
    let new = replaced(bytes, list, bytes.len() + BEYOND)?;
    assert_eq!(replaced(bytes, list, bytes.len()), Ok(new.clone()));
    assert_eq!(like(bytes, list, &new), Ok(()), "{:?} {list:?}", read_design(bytes));
    Ok(new)
}

#[test]
fn rows() {
    for row in rows_done() {
        for (bytes, expected) in row.four_or_five() {
            assert_eq!(replaced_well(&bytes, &row.list), Ok(expected), "{}", row.name);
        }
    }
}

#[test]
fn sixteen_states_and_seventeen() {
    for (design, list, number) in rows_at_the_limit() {
        let new = replaced_well(&design.to_five_blocks(), &list);
        assert_eq!(new.as_ref().err().copied().unwrap_or(0), number, "{list:?} {design:?}");
        if let Ok(new) = new {
            let counts = read_design(&new).expect("it is sound").sides.map(|side| side.len());
            assert_eq!(counts.iter().max(), Some(&16), "{list:?} {design:?}");
        }
    }
}

#[test]
fn flawed_lists() {
    let (design, lists) = flawed();
    for list in lists {
        assert_eq!(replaced_well(&design.to_bytes(), &list), Err(22), "{list:?}");
        assert_eq!(replaced_well(&design.to_five_blocks(), &list), Err(22), "{list:?}");
    }
    // Each of the three that wait may be chosen, and the same number on another side.
    let right = [[0, 4, 15, 15], [1, 0, 15, 255], [0, 0, 0, 0]];
    assert_eq!(replaced_well(&design.to_bytes(), &right.concat()), Err(23));
    let right = [[0, 4, 9, 9], [1, 0, 15, 255], [0, 0, 0, 2]];
    assert!(replaced_well(&design.to_bytes(), &right.concat()).is_ok());
}

#[test]
fn order_of_the_refusals() {
    let mut refused = 0;
    for Faulty { design, list, length, expected } in faulty() {
        let answer = replaced(&design, &list, length).err();
        assert_eq!(answer, expected, "{list:?} {length} {:?}", read_design(&design));
        refused += usize::from(answer.is_some());
    }
    assert_eq!(refused, 2 * 2_047);
}

/// How many states each side has after replacement, by the bytes of the list.
fn states_by_bytes(old: &Design, list: &[u8]) -> [usize; SIDES] {
    let mut states = old.sides.each_ref().map(Vec::len);
    for entry in list.chunks(4) {
        let more = if entry[3] == 255 { entry[2] } else { entry[3] };
        states[usize::from(entry[0])] += usize::from(more);
    }
    states
}

#[test]
fn the_table_put_down_does_what_counted_waits_do() {
    let mut random = Random::new(51);
    let mut met = Met::default();
    let mut answers: BTreeMap<u8, usize> = BTreeMap::new();
    let mut sizes: BTreeSet<usize> = BTreeSet::new();
    for _ in 0..20_000 {
        let made = waiting_design(&mut random);
        let bytes = any_bytes(&mut random, &made);
        let ranges = any_ranges(&mut random, &made);
        let list = list_bytes(&ranges);
        assert_eq!(read_ranges(&made, &list), Ok(ranges.clone()));
        let new = replaced_well(&bytes, &list);
        *answers.entry(new.as_ref().err().copied().unwrap_or(0)).or_default() += 1;
        let states = states_by_bytes(&made, &list);
        assert_eq!(new.is_err(), states.iter().any(|&states| states > 16), "{ranges:?} {made:?}");
        if let Ok(new) = new {
            met.carried_out(&made, &bytes, &ranges);
            let new = read_design(&new).expect("it is sound");
            assert_eq!(new.sides.each_ref().map(Vec::len), states);
            sizes.extend(states);
        }
    }
    println!("{answers:?} {met:?}");
    met.each(500);
    assert_eq!(sizes, (1..=16).collect());
    assert!(answers[&0] > 10_000 && answers[&23] > 2_000, "{answers:?}");
}

#[test]
fn flaws_of_lists() {
    let mut random = Random::new(52);
    let mut flaws: BTreeMap<Flaw, usize> = BTreeMap::new();
    for _ in 0..20_000 {
        let made = waiting_design(&mut random);
        let ranges = any_ranges(&mut random, &made);
        let (list, flaw) = flawed_list(&mut random, &made, &ranges);
        assert_eq!(read_ranges(&made, &list), Err(22), "{flaw:?} {list:?} {made:?}");
        *flaws.entry(flaw).or_default() += 1;
    }
    println!("{flaws:?}");
    assert!(Flaw::ALL.iter().all(|flaw| flaws[flaw] > 500), "{flaws:?}");
}

/// An old design, a list and the new design, in which several states stand for two at least.
fn sample(random: &mut Random) -> (Vec<u8>, Vec<u8>, Vec<u8>) {
    loop {
        let made = waiting_design(random);
        let (bytes, ranges) = (any_bytes(random, &made), any_ranges(random, &made));
        let list = list_bytes(&ranges);
        let more = ranges.iter().filter(|range| range.more_states() > 0).count();
        if more < 2 {
            continue;
        }
        if let Ok(new) = replaced(&bytes, &list, bytes.len()) {
            return (bytes, list, new);
        }
    }
}

/// Whatever byte is another, the counted waits tell: there is one table for a list.
#[test]
fn no_other_table_does() {
    let mut random = Random::new(53);
    let mut told: BTreeMap<String, usize> = BTreeMap::new();
    let mut sound = 0;
    for _ in 0..40 {
        let (old, list, new) = sample(&mut random);
        // The header, the records and six bytes behind them.
        let looked_at = |&at: &usize| at % 512 < 4 + record_bytes(&new, at / 512) + 6;
        for at in (0..new.len()).filter(looked_at) {
            for change in [1, 2, 255] {
                let mut other = new.clone();
                other[at] = other[at].wrapping_add(change);
                seal(&mut other);
                let unlike = like(&old, &list, &other).expect_err("a byte is another");
                let part = format!("{unlike:?}").split('(').next().unwrap().to_string();
                *told.entry(part).or_default() += 1;
                sound += usize::from(read_design(&other).is_ok());
            }
        }
        assert_eq!(like(&old, &list, &new[..new.len() - 1]), Err(Unlike::Design));
    }
    println!("{told:?}, {sound} of them sound");
    let parts = ["Design", "Rules", "Unchosen", "Labels", "Events"];
    assert!(parts.iter().all(|&part| told[part] > 1_000), "{told:?}");
    assert!(sound > 10_000, "{sound}");
}

/// The states of a side in another order, but for the first.
fn renumbered(random: &mut Random, made: &mut Design, side: usize) {
    let states = made.sides[side].len();
    let mut number: Vec<usize> = (0..states).collect();
    random.shuffle(&mut number[1..]);
    let mut moved = made.sides[side].clone();
    for (own, state) in made.sides[side].iter().enumerate() {
        let mut state = state.clone();
        for transition in &mut state.transitions {
            transition.target = number[usize::from(transition.target)] as u8;
        }
        moved[number[own]] = state;
    }
    made.sides[side] = moved;
}

/// Tables with the same runs whose states stand elsewhere, tables for another list, and the old
/// table itself.
#[test]
fn other_numbers_and_other_ranges_are_told() {
    let mut random = Random::new(54);
    let (mut others, mut moved) = (0, 0);
    for _ in 0..4_000 {
        let (old, list, new) = sample(&mut random);
        let mut other_list = list.clone();
        let at = ENTRY_BYTES * random.below(list.len() / ENTRY_BYTES);
        match random.below(3) {
            0 => other_list[at + 2] = random.below(16) as u8,
            1 => other_list[at + 3] = random.below(16) as u8,
            _ => other_list.rotate_left(ENTRY_BYTES),
        }
        if let Ok(other) = replaced(&old, &other_list, old.len()) {
            let same = like(&old, &list, &other);
            assert_eq!(same.is_ok(), other == new, "{list:?} {other_list:?}");
            others += usize::from(other != new);
        }
        assert!(like(&old, &list, &old).is_err(), "{list:?}");

        let mut design = read_design(&new).expect("it is sound");
        let side = random.below(SIDES);
        renumbered(&mut random, &mut design, side);
        let bytes = match old.len() {
            2_048 => design.to_bytes(),
            _ => design.to_five_blocks(),
        };
        assert_eq!(like(&old, &list, &bytes).is_ok(), bytes == new);
        moved += usize::from(bytes != new);
    }
    println!("{others} for other lists, {moved} with other numbers");
    assert!(others > 1_000 && moved > 1_000, "{others} {moved}");
}

/// Each part of what is asked can be missed.
#[test]
fn each_part_can_be_unlike() {
    let old = tessellation();
    let (bytes, list) = (old.to_bytes(), vec![0, 0, 1, 2]);
    let right = vec![
        state(&[0], &[(0, 2)]),
        state(&[1, 15], &[(2, 0)]),
        state(&[0], &[(0, 3), (-1, 1)]),
        state(&[0], &[(-1, 1)]),
    ];
    let told = |states: &[State]| {
        let mut new = old.clone();
        new.sides[0] = states.to_vec();
        like(&bytes, &list, &new.to_bytes())
    };
    assert_eq!(told(&right), Ok(()));
    let with = |at: usize, other: State| {
        let mut states = right.clone();
        states[at] = other;
        told(&states)
    };
    // It sends at count 0, or doesn't tick there; another tick is wanted at the end.
    assert_eq!(with(0, state(&[0], &[(0, 2), (-1, 1)])), Err(Unlike::Events(0, 0)));
    assert_eq!(with(0, state(&[0], &[(-1, 1)])), Err(Unlike::Events(0, 0)));
    assert_eq!(with(3, state(&[0], &[(0, 3), (-1, 1)])), Err(Unlike::Events(0, 3)));
    assert_eq!(with(3, state(&[0], &[(-2, 1)])), Err(Unlike::Events(0, 3)));
    // The send and the tick in another order.
    assert_eq!(with(2, state(&[0], &[(-1, 1), (0, 3)])), Err(Unlike::Events(0, 2)));
    // A tick that doesn't count, and one that skips a count.
    assert_eq!(with(2, state(&[0], &[(0, 2), (-1, 1)])), Err(Unlike::Events(0, 2)));
    assert_eq!(with(0, state(&[0], &[(0, 3)])), Err(Unlike::Events(0, 3)));
    // A send that leads elsewhere: to k0 at count 0, where it should enter k1.
    assert_eq!(with(3, state(&[0], &[(-1, 0)])), Err(Unlike::Labels(0, 0)));
    assert_eq!(with(2, state(&[], &[(0, 3), (-1, 1)])), Err(Unlike::Labels(0, 2)));
    assert_eq!(with(1, state(&[1], &[(2, 0)])), Err(Unlike::Unchosen(0, 1)));
    assert_eq!(with(1, state(&[1, 15], &[(2, 2)])), Err(Unlike::Unchosen(0, 1)));
    // A state more, the same runs by two states, and states in another order.
    let mut more = right.clone();
    more.push(state(&[], &[(0, 4)]));
    assert_eq!(told(&more), Err(Unlike::Numbers(0)));
    let mut twice = right.clone();
    twice.push(right[3].clone());
    assert_eq!(told(&twice), Err(Unlike::Numbers(0)));
    let exchanged = [
        state(&[0], &[(0, 3)]),
        right[1].clone(),
        right[3].clone(),
        state(&[0], &[(0, 2), (-1, 1)]),
    ];
    assert_eq!(told(&exchanged), Err(Unlike::Numbers(0)));
    // Other rules, another number of blocks.
    let rules = Design { rules: vec![2], ..waiting_handshake() };
    let mut patient = rules.clone();
    patient.sides[0] = patient_twice();
    let like = |new: &[u8]| like(&rules.to_bytes(), &[0, 0, 0, 2], new);
    assert_eq!(like(&patient.to_bytes()), Ok(()));
    assert_eq!(like(&patient.to_five_blocks()), Err(Unlike::Design));
    patient.rules = vec![2, 2];
    assert_eq!(like(&patient.to_bytes()), Err(Unlike::Rules));
    patient.rules = vec![2, 3];
    assert_eq!(like(&patient.to_bytes()), Err(Unlike::Design));
}

/// The new table keeps what was there before: every state that wasn't chosen, and the kinds
/// that the counts ask for.
#[test]
fn kinds_by_count() {
    let bytes = tessellation().to_bytes();
    let new = replaced_well(&bytes, &[0, 0, 3, 9]).expect("there is room");
    let new = read_design(&new).expect("it is sound");
    assert_eq!(new.sides[0].len(), 11);
    let kind = |waits: usize| {
        let own = if waits == 0 { 0 } else { waits + 1 };
        new.sides[0][own].kind()
    };
    for waits in 0..=9 {
        let expected = match waits {
            0..3 => StateKind::Input,
            3..9 => StateKind::Delayed,
            _ => StateKind::OutputOnly,
        };
        assert_eq!(kind(waits), Some(expected), "{waits}");
    }
    // Those that are delayed tick on, so that none of them may be chosen again.
    let chosen = |own: usize| may_be_chosen(own, &new.sides[0][own]);
    assert!(!(0..11).any(chosen));
}

#[test]
fn h_with_s0_at_0_to_2_has_a_converter() {
    let old = waiting_handshake();
    assert_eq!(searched(&old).err(), Some(16));
    let new = replaced_well(&old.to_bytes(), &[0, 0, 0, 2]).expect("there is room");
    let new = read_design(&new).expect("it is sound");
    assert_eq!(new.sides[0], patient_twice());
    assert_eq!(positions(&new), 16);
    assert!(searched(&new).is_ok());
    assert!(!no_converter(&new));
    // Without a greatest it may still wait for ever.
    for least in [0, 1, 14] {
        let new = replaced_well(&old.to_bytes(), &[0, 0, least, 255]).expect("there is room");
        let new = read_design(&new).expect("it is sound");
        assert_eq!(searched(&new).err(), Some(16));
        assert!(no_converter(&new));
    }
}

/// Beside a viewer the thumbnails may wait, which takes every converter away; where their waits
/// end there is one.
#[test]
fn a_third_side_that_waits_no_more() {
    let once = |list: &[u8]| {
        let design = samples::viewer_once(samples::thumbnails(true));
        let new = replaced_well(&design.to_bytes(), list).expect("there is room");
        searched(&read_design(&new).expect("it is sound")).err()
    };
    assert_eq!(once(&[]), Some(16));
    assert_eq!(once(&[2, 1, 0, 255]), Some(16));
    assert_eq!(once(&[2, 1, 3, 9]), None);
    assert_eq!(once(&[2, 1, 0, 0]), None);
}

/// What a tick shows and delivers where the waits are counted.
#[test]
fn ticks_beside_counted_waits() {
    // One record a place: s0 waits once or twice and sends.
    let side = vec![state(&[], &[(0, 0), (-1, 0)])];
    let old = design([side], vec![], vec![]).to_bytes();
    let new = replaced_well(&old, &[0, 0, 1, 2]).expect("there is room");
    let new = read_design(&new).expect("it is sound");
    let converter = vec![
        record([0], &[([0], 1)]),
        record([1], &[([0], 2), ([1], 0)]),
        record([2], &[([1], 0)]),
    ];
    assert_eq!(judged_well(&new, &converter_bytes(&converter)), Ok(()));
    // Refused: a send at count 0, and a third wait.
    let script = [-1, 0, 0, 0, -1, 0, -1].map(|shown| with_zeros([shown]));
    let done = watch(&new, &converter_bytes(&converter), [7; SIDES], &script, tick);
    assert_eq!(done, Ok(5));
    // Count 2 sends, and nothing else is allowed there.
    let mut wrong = converter.clone();
    wrong[2] = record([2], &[([0], 2), ([1], 0)]);
    assert_eq!(judged_well(&new, &converter_bytes(&wrong)), Err(14));
    // Between, neither may be left out.
    let mut wrong = converter;
    wrong[1].links.pop();
    assert_eq!(judged_well(&new, &converter_bytes(&wrong)), Err(14));
}

/// A new design with few positions, and before it the old one, in which some states wait.
fn few_positions(random: &mut Random, round: usize) -> [Design; 2] {
    loop {
        let mut made = match round % 2 {
            0 => ruled_design(random, &Shape::TINY),
            _ => progress_design(random, &Shape::TINY),
        };
        if !round.is_multiple_of(3) {
            (made.formulas, made.rules) = wanting(random);
        }
        let old = with_waits(random, made);
        let ranges = if random.once_in(2) {
            any_ranges(random, &old)
        } else {
            no_wait_for_ever(random, &old)
        };
        let bytes = old.to_five_blocks();
        let Ok(new) = replaced(&bytes, &list_bytes(&ranges), bytes.len()) else { continue };
        let new = read_design(&new).expect("it is sound");
        if new != old && positions(&new) <= 1_024 {
            return [old, new];
        }
    }
}

/// A converter for the old sides serves for the new ones too, once its records have counts
/// beside them: the sides may do less, and rules speak of all paths. So none is lost.
#[test]
fn every_way_to_decide_about_the_new_table() {
    let mut random = Random::new(55);
    let (mut found, mut none, mut gained, mut tried) = (0, 0, 0, 0);
    for round in 0..6_000 {
        let [old, new] = few_positions(&mut random, round);
        let converter = find(&new);
        assert_eq!(no_converter(&new), converter.is_none(), "{new:?}");
        if let Some(converter) = &converter {
            assert!(matched(&new, converter), "{new:?}");
            assert!(failing_rules(&new, converter).is_empty(), "{new:?}");
        }
        match (try_all(&new, 1_000), &converter) {
            (Outcome::Found(small), None) => panic!("{small:?} for {new:?}"),
            (Outcome::Found(_), Some(_)) | (Outcome::NoneSoSmall, None) => tried += 1,
            _ => {}
        }
        let before = find(&old).is_some();
        assert!(converter.is_some() || !before, "{old:?} {new:?}");
        found += usize::from(converter.is_some());
        none += usize::from(converter.is_none());
        gained += usize::from(converter.is_some() && !before);
    }
    println!("found {found}, none {none}, found only with ranges {gained}, tried {tried}");
    assert!(found > 1_000 && none > 1_000 && gained > 100 && tried > 500, "{gained} {tried}");
}
