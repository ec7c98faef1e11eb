//! Judgements, converter files and ticks of the library and of the second
//! checker over converters: matched, nearly matched, loose and damaged.

mod common;
#[path = "../../checker/tests/samples/mod.rs"]
mod samples;

use std::array::from_fn;

use checker::bytes::{converter_bytes, positions, seal, write_blocks, SIDES};
use checker::generate::{
    any_bytes, any_converter, any_design, block_file, damage, damaged_converter, design,
    loose_converter, matched_converter, nearly_matched_converter, ruled_design, script, Random,
    Shape,
};
use checker::tick::watch;
use common::{
    about, checkers_runner, found, judge_agrees, librarys_runner, read_agrees, tick_agrees,
    write_agrees, Answers,
};
use gorzhani::{Refused, Runner, BLOCK, BLOCK_RECORDS, CELL, RECORD};
use samples::{figure_five, ruled_handshake, ORDERS};

#[test]
fn judgements() {
    let mut random = Random::new(201);
    let mut answers = Answers::default();
    for round in 0..32_000 {
        let made = match round % 4 {
            0 => design(&mut random, &Shape::FULL),
            1 => ruled_design(&mut random, &Shape::SMALL),
            _ => any_design(&mut random),
        };
        let spare = random.below(8);
        let converter = match round % 5 {
            0 => converter_bytes(&matched_converter(&mut random, &made, spare)),
            1 => converter_bytes(&nearly_matched_converter(&mut random, &made, spare)),
            _ => any_converter(&mut random, &made),
        };
        let mut bytes = any_bytes(&mut random, &made);
        if round % 8 == 0 {
            damage(&mut random, &mut bytes);
        }
        let length = about(&mut random, CELL * (converter.len() / RECORD));
        answers.count(judge_agrees(&bytes, &converter, length));
    }
    answers.are(&[0, 1, 2, 3, 4, 5, 6, 7, 8, 10, 11, 13, 14, 15], 20);
}

#[test]
fn every_byte_of_a_converter() {
    let (bytes, converter) = (ruled_handshake(false).to_bytes(), converter_bytes(&figure_five()));
    assert_eq!(judge_agrees(&bytes, &converter, CELL * 3), 0);
    let (mut judged, mut written, mut ticked) =
        (Answers::default(), Answers::default(), Answers::default());
    for at in 0..converter.len() {
        for change in 1..=255 {
            let mut damaged = converter.clone();
            damaged[at] = damaged[at].wrapping_add(change);
            judged.count(judge_agrees(&bytes, &damaged, CELL * 3));
            written.count(write_agrees(&damaged, BLOCK));
            let mut runner =
                Runner { record: (at / RECORD) as u16, first: 7, second: -7, third: 1 };
            ticked.count(tick_agrees(&damaged, &mut runner, [0; SIDES]));
        }
    }
    judged.are(&[11, 14], 100);
    written.are(&[0, 11], 100);
    ticked.are(&[0, 11, 17], 10);
}

#[test]
fn every_length_of_a_converter() {
    let mut long = converter_bytes(&figure_five());
    long.extend_from_within(..2 * RECORD);
    let bytes = ruled_handshake(false).to_bytes();
    for length in 0..=long.len() {
        let converter = &long[..length];
        let records = length / RECORD;
        let whole = length % RECORD == 0 && length > 0;
        let short = records < 3;
        for lent in [0, CELL * 3, CELL * 5 + 1] {
            let answer = judge_agrees(&bytes, converter, lent);
            let expected = match (whole, short) {
                (false, _) => 10,
                (true, true) => 11,
                (true, false) if lent < CELL * records => 13,
                (true, false) => 0,
            };
            assert_eq!(answer, expected, "{length} {lent}");
        }
        write_agrees(converter, BLOCK);
        tick_agrees(converter, &mut Runner::default(), [0; SIDES]);
    }
}

#[test]
fn files() {
    let mut random = Random::new(202);
    let mut answers = Answers::default();
    for round in 0..24_000 {
        let most = if round % 100 == 0 { 400 } else { 40 };
        let mut file = block_file(&mut random, most);
        if round % 3 > 0 {
            damage(&mut random, &mut file);
        }
        let enough = RECORD * BLOCK_RECORDS * file.len().div_ceil(BLOCK);
        let length = about(&mut random, enough);
        answers.count(read_agrees(&file, length));
    }
    answers.are(&[0, 1, 2, 3, 4, 8, 11, 12], 50);
}

#[test]
fn every_byte_of_a_file() {
    let mut random = Random::new(203);
    let converter = converter_bytes(&loose_converter(&mut random, BLOCK_RECORDS + 2));
    let mut sound = vec![0; 2 * BLOCK];
    assert_eq!(write_blocks(&converter, &mut sound), Ok(2));
    let mut answers = Answers::default();
    for at in 0..sound.len() {
        for change in [1, 2, 0x80, 0xFE, 0xFF] {
            let mut file = sound.clone();
            file[at] = file[at].wrapping_add(change);
            for repaired in [false, true] {
                if repaired {
                    seal(&mut file);
                }
                answers.count(read_agrees(&file, RECORD * 2 * BLOCK_RECORDS));
            }
        }
    }
    answers.are(&[0, 2, 3, 4, 8, 11], 5);
    for length in 0..=sound.len() {
        let whole = length > 0 && length % BLOCK == 0;
        assert_eq!(read_agrees(&sound[..length], RECORD * 2 * BLOCK_RECORDS) == 1, !whole);
    }
}

#[test]
fn written_and_read_back() {
    let mut random = Random::new(204);
    let mut answers = Answers::default();
    for round in 0..12_000 {
        let records = random.from_to(1, 60);
        let made = loose_converter(&mut random, records);
        let converter = match round % 3 {
            0 => damaged_converter(&mut random, &made),
            _ => converter_bytes(&made),
        };
        let count = records.div_ceil(BLOCK_RECORDS);
        let length = about(&mut random, BLOCK * count);
        answers.count(write_agrees(&converter, length));
        if round % 3 > 0 {
            let mut file = vec![0; BLOCK * count];
            assert_eq!(gorzhani::write(&converter, &mut file), Ok(count));
            let mut memory = vec![0; RECORD * records];
            assert_eq!(gorzhani::read(&file, &mut memory), Ok(records));
            assert!(memory == converter);
        }
    }
    answers.are(&[0, 10, 11, 12], 50);
}

#[test]
fn ticks_of_any_converter() {
    let mut random = Random::new(205);
    let mut answers = Answers::default();
    for _ in 0..3_000 {
        let made = any_design(&mut random);
        let converter = any_converter(&mut random, &made);
        let delivered = from_fn(|_| random.byte() as i8);
        let mut runner = librarys_runner(checker::tick::Runner { record: 0, delivered });
        for shown in script(&mut random, &made, &converter, 20) {
            if random.once_in(30) {
                runner.record = random.below(2 + converter.len() / RECORD) as u16;
            }
            answers.count(tick_agrees(&converter, &mut runner, shown));
        }
    }
    answers.are(&[0, 10, 11, 17], 500);
}

#[test]
fn ticks_at_every_shown_event() {
    let converter = converter_bytes(&figure_five());
    let mut answers = Answers::default();
    for record in 0..4 {
        for first in i8::MIN..=i8::MAX {
            // Every event on each side beside each that F delivers there or near it.
            for second in [0, 1, -1, -2, -63, -64, first] {
                for order in ORDERS {
                    let shown = order.map(|from| [first, second, 0][from]);
                    let mut runner = Runner { record, first: -128, second: 127, third: 5 };
                    answers.count(tick_agrees(&converter, &mut runner, shown));
                }
            }
        }
    }
    answers.are(&[0, 17], 10);
}

/// A converter that the library found, ticked by the library, against the
/// plain sides: the claim about every run.
#[test]
fn runs_of_converters_found() {
    let mut random = Random::new(206);
    let (mut runs, mut calls, mut done) = (0, 0, 0);
    while runs < 2_000 {
        let shape = if runs % 2 == 0 { Shape::SMALL } else { Shape::TINY };
        let made = ruled_design(&mut random, &shape);
        if positions(&made) > 1 << 12 {
            continue;
        }
        let Some(converter) = found(&made.to_bytes()) else { continue };
        runs += 1;
        let script = script(&mut random, &made, &converter, 60);
        let delivered = from_fn(|_| random.byte() as i8);
        let ran = watch(&made, &converter, delivered, &script, |converter, runner, shown| {
            let mut lent = librarys_runner(*runner);
            let answer = gorzhani::tick(converter, &mut lent, shown);
            *runner = checkers_runner(lent);
            answer.map_err(|Refused(number)| number)
        });
        calls += script.len();
        done += ran.unwrap_or_else(|broken| panic!("{broken:?}: {made:?} {converter:?}"));
    }
    assert!(done > calls / 2 && done < calls, "{done} of {calls}");
}
