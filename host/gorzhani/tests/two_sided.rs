//! Designs of two sides under the library: what was said of them when there was no third is said
//! again, and four blocks and five give the same answers and the same bytes.

mod common;
#[path = "../../checker/tests/kept/mod.rs"]
mod kept;
#[path = "../../checker/tests/samples/mod.rs"]
mod samples;

use checker::bytes::{converter_bytes, idle_side};
use checker::generate::{any_converter, Random};
use common::{about, judge_agrees, mixed_design, search_agrees, size, Answers, Lent};
use gorzhani::{Refused, CELL, FIVE_BLOCKS, FOUR_BLOCKS, MOST_RULES, RECORD};
use kept::kept;

#[test]
fn verdicts_kept_as_data() {
    let (mut searched, mut judged) = (Answers::default(), Answers::default());
    for (number, kept) in kept().iter().enumerate() {
        let (four, five) = (kept.design.to_bytes(), kept.design.to_five_blocks());
        assert_eq!((four.len(), five.len()), (FOUR_BLOCKS, FIVE_BLOCKS), "{number}");
        let positions = kept.positions as usize;
        let converter = converter_bytes(&kept.converter);
        for bytes in [four, five] {
            assert_eq!(gorzhani::positions(&bytes), Ok(positions), "{number}");
            let answer = search_agrees(&bytes, RECORD * positions, CELL * positions);
            assert_eq!(answer, if kept.found { 0 } else { 16 }, "{number}");
            searched.count(answer);
            let answer = judge_agrees(&bytes, &converter, CELL * kept.converter.len());
            assert_eq!(answer, kept.judged.err().unwrap_or(0), "{number}");
            judged.count(answer);
        }
    }
    assert_eq!((searched.total(), judged.total()), (2_000, 2_000));
    searched.are(&[0, 16], 500);
    judged.are(&[0, 14, 15], 300);
}

/// What a search answers, and the lent bytes after it.
fn searched(design: &[u8], table: usize, work: usize) -> (Result<usize, Refused>, [Vec<u8>; 2]) {
    let (mut table, mut work) = (Lent::new(table), Lent::new(work));
    let answer = gorzhani::search(design, table.part_mut(), work.part_mut());
    (answer, [table, work].map(|lent| lent.part().to_vec()))
}

/// What the judge answers, and the lent bytes and numbers after it.
fn judged(
    design: &[u8],
    converter: &[u8],
    work: usize,
) -> (Result<(), Refused>, Vec<u8>, [u32; MOST_RULES]) {
    let (mut work, mut waits) = (Lent::new(work), [7; MOST_RULES]);
    let answer = gorzhani::judge(design, converter, work.part_mut(), &mut waits);
    (answer, work.part().to_vec(), waits)
}

#[test]
fn four_blocks_and_five_say_the_same() {
    let mut random = Random::new(1_101);
    let mut answers = Answers::default();
    for round in 0..6_000 {
        let mut made = mixed_design(&mut random, round);
        made.sides[2] = idle_side();
        let (four, five) = (made.to_bytes(), made.to_five_blocks());
        assert_eq!((four.len(), five.len()), (FOUR_BLOCKS, FIVE_BLOCKS));

        let size = size(&four, 1 << 12);
        let (table, work) = (about(&mut random, RECORD * size), about(&mut random, CELL * size));
        let (answer, lent) = searched(&four, table, work);
        assert!((answer, lent) == searched(&five, table, work), "{made:?}");
        answers.count(answer.err().map_or(0, |refused| refused.0));

        let converter = any_converter(&mut random, &made);
        let work = about(&mut random, CELL * (converter.len() / RECORD));
        let (answer, lent, waits) = judged(&four, &converter, work);
        assert!((answer, lent, waits) == judged(&five, &converter, work), "{made:?}");
        answers.count(answer.err().map_or(0, |refused| refused.0));
    }
    answers.are(&[0, 9, 10, 11, 12, 13, 14, 15, 16], 50);
}
