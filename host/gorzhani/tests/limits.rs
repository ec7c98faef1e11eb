//! Inputs at the limits, which need more memory than a small program holds.

mod common;
#[path = "../../checker/tests/samples/mod.rs"]
mod samples;

use checker::bytes::{
    converter_bytes, positions, seal, write_blocks, Design, Formula, Record, SIDES,
};
use checker::generate::{loose_converter, Random};
use common::{judge_agrees, read_agrees, search_agrees, write_agrees};
use gorzhani::{BLOCK, CELL, RECORD};
use samples::{design, record, rings, state, three_rings};

const MOST: usize = 65_536;
/// As many blocks as a converter file may have; seven records stand in the last.
const BLOCKS: usize = 7_282;

#[test]
fn as_many_records_as_there_may_be() {
    let converter = converter_bytes(&loose_converter(&mut Random::new(301), MOST));
    assert_eq!(write_agrees(&converter, BLOCKS * BLOCK + 9), 0);
    assert_eq!(write_agrees(&converter, BLOCKS * BLOCK - 1), 12);
    let mut file = vec![0; BLOCKS * BLOCK];
    assert_eq!(write_blocks(&converter, &mut file), Ok(BLOCKS));
    assert_eq!(file[(BLOCKS - 1) * BLOCK + 1], 7);
    assert_eq!(read_agrees(&file, MOST * RECORD + 9), 0);
    assert_eq!(read_agrees(&file, MOST * RECORD - 1), 12);
}

#[test]
fn one_record_too_many() {
    let mut converter = converter_bytes(&loose_converter(&mut Random::new(302), MOST));
    let mut file = vec![0; BLOCKS * BLOCK];
    assert_eq!(write_blocks(&converter, &mut file), Ok(BLOCKS));
    // An eighth record in the last block makes 65,537.
    let last = (BLOCKS - 1) * BLOCK;
    file.copy_within(last + 4..last + 4 + RECORD, last + 4 + 7 * RECORD);
    file[last + 1] = 8;
    seal(&mut file[last..]);
    assert_eq!(read_agrees(&file, (MOST + 1) * RECORD), 4);

    converter.extend_from_within(..RECORD);
    assert_eq!(write_agrees(&converter, (BLOCKS + 1) * BLOCK), 10);
    let design = rings(Formula::Always(14)).to_bytes();
    assert_eq!(judge_agrees(&design, &converter, (MOST + 1) * CELL), 10);
    let mut runner = gorzhani::Runner::default();
    assert_eq!(common::tick_agrees(&converter, &mut runner, [0; SIDES]), 10);
}

#[test]
fn one_block_too_many() {
    assert_eq!(read_agrees(&vec![0; (BLOCKS + 1) * BLOCK], MOST * RECORD), 1);
    assert_eq!(read_agrees(&vec![0; BLOCKS * BLOCK], MOST * RECORD), 3);
    assert_eq!(read_agrees(&vec![0xFF; BLOCKS * BLOCK], MOST * RECORD), 2);
}

/// A ring of records, each of which ticks on to the next, the last to the first. Reading 1
/// leads to the last state, where 0 holds. The sides but the kernel have one ticking state.
fn long_way(records: usize) -> (Design, Vec<Record>) {
    let walking = vec![state(&[], &[(0, 0), (1, 1)]), state(&[0], &[(0, 0)])];
    let formulas = vec![
        Formula::True,
        Formula::Proposition(0),
        Formula::Until(0, 1),
        Formula::Always(2),
        Formula::Next(3),
    ];
    let record = |own: usize| {
        let event = if own + 2 == records { -1 } else { 0 };
        let next = ((own + 1) % records) as u16;
        record([u8::from(own + 1 == records)], &[([event], next)])
    };
    (design([walking], formulas, vec![2, 3, 4]), (0..records).map(record).collect())
}

#[test]
fn a_long_way_to_what_an_until_waits_for() {
    for records in [2, 3, 1_000, MOST] {
        let (design, converter) = long_way(records);
        let bytes = design.to_bytes();
        assert_eq!(judge_agrees(&bytes, &converter_bytes(&converter), CELL * records), 0);
        // The last but one ticks back to itself, and 0 never comes.
        let mut stuck = converter.clone();
        stuck[records - 2] = record([0], &[([0], (records - 2) as u16)]);
        assert_eq!(judge_agrees(&bytes, &converter_bytes(&stuck), CELL * records + 5), 15);
        // The last record names a state that there isn't.
        for side in 0..SIDES {
            let mut unmatched = converter.clone();
            unmatched[records - 1].states[side] = 2;
            assert_eq!(judge_agrees(&bytes, &converter_bytes(&unmatched), CELL * records), 14);
        }
    }
}

/// A design of 65,536 positions that has a converter, and one of 131,072, with as many kept
/// formulas.
fn at_the_limit_and_over(one: Design, two: Design, kept: usize) {
    assert_eq!((one.kept().len(), positions(&one)), (kept, 65_536));
    let bytes = one.to_bytes();
    assert_eq!(search_agrees(&bytes, MOST * RECORD, MOST * CELL), 0);
    assert_eq!(search_agrees(&bytes, MOST * RECORD + 3, MOST * CELL + 5), 0);
    assert_eq!(search_agrees(&bytes, MOST * RECORD - 1, MOST * CELL), 12);
    assert_eq!(search_agrees(&bytes, MOST * RECORD, MOST * CELL - 1), 13);
    assert_eq!(search_agrees(&bytes, MOST * RECORD - 1, 0), 12);

    assert_eq!((two.kept().len(), positions(&two)), (kept, 131_072));
    assert_eq!(search_agrees(&two.to_bytes(), 2 * MOST * RECORD, 2 * MOST * CELL), 9);
    // The judge doesn't count positions: the converter found above is judged.
    let found = common::found(&bytes).expect("there is a converter");
    let work = CELL * (found.len() / RECORD);
    let answer = judge_agrees(&two.to_bytes(), &found, work);
    assert!(answer == 0 || answer == 15);
}

/// Side 1 ticks round and round, side 2 reads 1 and stays where it is.
#[test]
fn sixteen_and_sixteen_states() {
    at_the_limit_and_over(rings(Formula::Always(14)), rings(Formula::Until(14, 4)), 8);
}

/// The same, and side 3 stays where it is too.
#[test]
fn sixteen_states_on_each_side() {
    at_the_limit_and_over(three_rings(Formula::Always(9)), three_rings(Formula::Until(9, 5)), 4);
}
