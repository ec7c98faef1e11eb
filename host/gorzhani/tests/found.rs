//! What a converter found looks like. The specification leaves it open; its
//! readers expect every record to be reached, breadth first, and few of them.

#[path = "../../checker/tests/samples/mod.rs"]
mod samples;

use std::collections::BTreeSet;

use checker::brute::{try_all, Outcome};
use checker::bytes::{positions, read_converter_memory, Design, Formula, Record};
use checker::generate::{ruled_design, Random, Shape};
use checker::judge::failing_rules;
use gorzhani::{CELL, RECORD};
use samples::{
    figure_five, next_sixteen_next_seventeen, ruled_handshake, ticking_in_turn, two_inputs,
};

/// The records that the library finds.
fn found(made: &Design) -> Option<Vec<Record>> {
    let size = positions(made) as usize;
    let (mut table, mut work) = (vec![0; RECORD * size], vec![0; CELL * size]);
    let count = gorzhani::search(&made.to_bytes(), &mut table, &mut work).ok()?;
    Some(read_converter_memory(&table[..RECORD * count]).expect("the records are right"))
}

/// The next records of a record, in its own order.
fn next_of(record: &Record) -> impl Iterator<Item = usize> + '_ {
    record.links.iter().map(|link| usize::from(link.next))
}

#[test]
fn records_are_reached_breadth_first() {
    let mut random = Random::new(501);
    let (mut tried, mut records) = (0, 0);
    while tried < 2_000 {
        let made = ruled_design(&mut random, &Shape::SMALL);
        if positions(&made) > 1 << 13 {
            continue;
        }
        let Some(converter) = found(&made) else {
            continue;
        };
        // A record has its number from the first transition that leads to it.
        let mut seen = 1;
        for (at, record) in converter.iter().enumerate() {
            assert!(at < seen, "record {at} is not reached by those before it");
            for next in next_of(record) {
                assert!(next <= seen, "record {next} comes before record {seen}");
                seen = seen.max(next + 1);
            }
        }
        assert_eq!(seen, converter.len());
        tried += 1;
        records += converter.len();
    }
    assert!(records > 2 * tried, "the designs are too small to tell");
}

#[test]
fn without_rules_each_joint_state_has_one_record() {
    let mut random = Random::new(502);
    for _ in 0..500 {
        let mut made = ruled_design(&mut random, &Shape::SMALL);
        (made.formulas, made.rules) = (vec![], vec![]);
        let converter = found(&made).expect("with no rules a converter exists");
        let named: BTreeSet<_> = converter.iter().map(|record| record.states).collect();
        assert_eq!(named.len(), converter.len());
    }
}

#[test]
fn the_rows_get_the_fewest_records() {
    // As many as the paper's converter has.
    let count = |made: &Design| found(made).expect("a converter exists").len();
    assert_eq!(count(&ruled_handshake(false)), figure_five().len());
    // One for each joint state that is reached: two in turn; h0, and one of h1 and h2.
    assert_eq!(count(&ticking_in_turn()), 2);
    let mut formulas = next_sixteen_next_seventeen();
    formulas.push(Formula::Or(2, 3));
    assert_eq!(count(&two_inputs(formulas, vec![4])), 2);
}

/// Tiny designs of so many sides: how many records are found in all, how many would be
/// enough, and how many of the converters are as small as can be.
fn beside_the_smallest(sides: usize, designs: usize) -> [usize; 3] {
    let mut random = Random::new(503);
    let (mut tried, mut ours, mut smallest, mut equal) = (0, 0, 0, 0);
    while tried < designs {
        let made = ruled_design(&mut random, &Shape { sides, ..Shape::TINY });
        // The smallest are tried first.
        let Outcome::Found(least) = try_all(&made, 2_000) else {
            continue;
        };
        let count = found(&made).expect("a converter exists").len();
        assert!(count >= least.len(), "there is none so small");
        tried += 1;
        ours += count;
        smallest += least.len();
        equal += usize::from(count == least.len());
    }
    assert!(smallest > tried, "the designs are too small to tell");
    [ours, smallest, equal]
}

#[test]
fn close_to_the_smallest() {
    // A little below what was found: 971 of two sides and 944 of three.
    for (sides, most, least) in [(2, 103, 960), (3, 104, 930)] {
        let [ours, smallest, equal] = beside_the_smallest(sides, 1_000);
        assert!(equal > least, "{equal} of 1,000 are as small as can be");
        assert!(100 * ours < most * smallest, "{ours} records where {smallest} are enough");
    }
}

/// The converter with record `gone` left out and `kept` in its place, with the
/// records that are still reached.
fn merged(converter: &[Record], kept: usize, gone: usize) -> Vec<Record> {
    let stands_for = |record: usize| if record == gone { kept } else { record };
    let mut order = vec![stands_for(0)];
    let mut head = 0;
    while head < order.len() {
        for next in next_of(&converter[order[head]]).map(stands_for) {
            if !order.contains(&next) {
                order.push(next);
            }
        }
        head += 1;
    }
    let mut left: Vec<Record> = order.iter().map(|&record| converter[record].clone()).collect();
    for link in left.iter_mut().flat_map(|record| &mut record.links) {
        let next = stands_for(usize::from(link.next));
        let at = order.iter().position(|&record| record == next).expect("it is reached");
        link.next = at as u16;
    }
    left
}

/// The converter after records have taken the place of others, one after the
/// other, as long as every rule holds.
fn shrunk(made: &Design, mut converter: Vec<Record>) -> Vec<Record> {
    'again: loop {
        for kept in 0..converter.len() {
            for gone in (0..converter.len()).filter(|&gone| gone != kept) {
                if converter[kept].states == converter[gone].states {
                    let smaller = merged(&converter, kept, gone);
                    if failing_rules(made, &smaller).is_empty() {
                        converter = smaller;
                        continue 'again;
                    }
                }
            }
        }
        return converter;
    }
}

#[test]
fn few_records_could_stand_for_others() {
    let mut random = Random::new(504);
    let (mut tried, mut records, mut needed) = (0, 0, 0);
    while tried < 500 {
        let made = ruled_design(&mut random, &Shape::SMALL);
        if positions(&made) > 1 << 13 {
            continue;
        }
        let Some(converter) = found(&made) else {
            continue;
        };
        tried += 1;
        records += converter.len();
        needed += shrunk(&made, converter).len();
    }
    assert!(needed > 2 * tried, "the designs are too small to tell");
    assert!(100 * records < 101 * needed, "{records} records where {needed} are enough");
}
