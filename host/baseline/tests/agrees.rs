//! The baseline against the second checker: the same answers and the same
//! bytes; what the search finds is judged well by the other.

#[path = "../../checker/tests/typed/mod.rs"]
mod typed;

use std::array::from_fn;

use checker::bytes::{
    converter_bytes, idle_side, positions, read_blocks, read_design, write_blocks, Design, Formula,
    State, Transition, BLOCK_BYTES, BLOCK_RECORDS, PROPOSITIONS, RECORD_BYTES, SIDES, SIDE_LABELS,
};
use checker::generate::{
    any_bytes, any_converter, any_design, any_ranges, any_text, block_file, damage, damage_text,
    damaged_converter, design, every_name, flawed_list, loose_converter, matched_converter,
    ruled_design, script, sound_text, text_at_limits, token_text, waiting_design, Random, Shape,
};
use checker::judge::failing_rules;
use checker::ranges::list_bytes;
use typed::{at_the_limits, long_texts, orders, refused_with_19, refused_with_20, rows};

/// Bytes that aren't zero.
fn pattern(length: usize) -> Vec<u8> {
    (0..length).map(|at| (at % 251 + 1) as u8).collect()
}

/// A length that is mostly enough, at times one short, at times more.
fn about(random: &mut Random, enough: usize) -> usize {
    match random.below(12) {
        0 => enough.saturating_sub(1),
        1 => enough + random.below(100),
        _ => enough,
    }
}

/// A search.
type Search = fn(&[u8], &mut [u8], &mut [u8]) -> Result<usize, u8>;

/// Searches by the fast baseline, by the proved search's steps and by the
/// checker. The checker's answer, 0 for a converter.
fn search_agrees(bytes: &[u8], table_length: usize, work_length: usize) -> u8 {
    let (mut other_table, mut other_work) = (pattern(table_length), pattern(work_length));
    let other = checker::search(bytes, &mut other_table, &mut other_work);
    let searches: [Search; 2] = [baseline::search, baseline::same::search];
    for search in searches {
        let (mut table, mut work) = (pattern(table_length), pattern(work_length));
        let answer = search(bytes, &mut table, &mut work);
        assert_eq!(answer.is_ok(), other.is_ok(), "{answer:?} {other:?} {:?}", read_design(bytes));
        assert!(work == other_work);
        match answer {
            Ok(records) => found_agrees(bytes, &table, records),
            Err(_) => {
                assert_eq!(answer, other);
                assert!(table == pattern(table_length));
            }
        }
    }
    other.err().unwrap_or(0)
}

/// What was found is judged well by the checker, and the table behind it is as
/// it was.
fn found_agrees(bytes: &[u8], table: &[u8], records: usize) {
    let size = positions(&read_design(bytes).unwrap()) as usize;
    assert!((1..=size).contains(&records));
    let found = &table[..RECORD_BYTES * records];
    let judged = judge_agrees(bytes, found, 16 * records, 16);
    assert!(judged.is_ok(), "{judged:?} {:?}", read_design(bytes));
    assert!(table[RECORD_BYTES * records..] == pattern(table.len())[RECORD_BYTES * records..]);
}

/// Judges by both. The waits that were written, or the number.
fn judge_agrees(
    bytes: &[u8],
    converter: &[u8],
    work_length: usize,
    waits_length: usize,
) -> Result<Vec<u32>, u8> {
    let (mut work, mut other_work) = (pattern(work_length), pattern(work_length));
    // No wait is so long, but for that of a rule that is no until.
    let first = |at: usize| 1_000_000_000 + at as u32;
    let mut waits: Vec<u32> = (0..waits_length).map(first).collect();
    let mut other_waits = waits.clone();
    let answer = baseline::judge(bytes, converter, &mut work, &mut waits);
    let other = checker::judge(bytes, converter, &mut other_work, &mut other_waits);
    assert_eq!(answer, other);
    assert!(work == other_work);
    assert_eq!(waits, other_waits, "{converter:?} {:?}", read_design(bytes));
    answer?;
    waits.truncate(read_design(bytes)?.rules.len());
    Ok(waits)
}

#[test]
fn searches() {
    let mut random = Random::new(201);
    let mut answers = [0; 18];
    for round in 0..16_000 {
        let made = match round % 4 {
            0 => any_design(&mut random),
            1 => ruled_design(&mut random, &Shape::TINY),
            2 => ruled_design(&mut random, &Shape::SMALL),
            _ => ruled_design(&mut random, &Shape { formulas: 20, rules: 5, ..Shape::SMALL }),
        };
        let mut bytes = made.to_bytes();
        if round % 4 == 0 {
            damage(&mut random, &mut bytes);
        }
        let size = read_design(&bytes).map_or(4, |made| positions(&made).min(1 << 13) as usize);
        let table_length = about(&mut random, RECORD_BYTES * size);
        let work_length = about(&mut random, 16 * size);
        answers[usize::from(search_agrees(&bytes, table_length, work_length))] += 1;
    }
    for number in [0, 1, 2, 3, 4, 5, 6, 7, 8, 9, 12, 13, 16] {
        assert!(answers[number] > 10, "{number}: {answers:?}");
    }
    assert!(answers[0] > 2_000 && answers[16] > 2_000, "{answers:?}");
}

#[test]
fn larger_searches() {
    let mut random = Random::new(202);
    let mut answers = [0; 18];
    let mut round = 0;
    while round < 150 {
        let shape =
            Shape { transitions: 4, propositions: 3, formulas: 24, rules: 5, ..Shape::FULL };
        let made = ruled_design(&mut random, &shape);
        let size = positions(&made);
        if !(4_096..=65_536).contains(&size) {
            continue;
        }
        round += 1;
        let size = size as usize;
        answers[usize::from(search_agrees(&made.to_bytes(), RECORD_BYTES * size, 16 * size))] += 1;
    }
    assert!(answers[0] > 10 && answers[16] > 10, "{answers:?}");
}

/// Two rings, one of which must be led round while the other stays behind.
#[test]
fn rings() {
    let ring = |states: u8, bit: u16| -> Vec<State> {
        let place = |event, target| Transition { event, target };
        let state = |own| State {
            label: if own + 1 == states { bit } else { 0 },
            transitions: vec![place(0, (own + 1) % states), place(1, own)],
        };
        (0..states).map(state).collect()
    };
    let formulas = vec![
        Formula::True,
        Formula::Proposition(0),
        Formula::Proposition(17),
        Formula::And(1, 2),
        Formula::Until(0, 3),
        Formula::Always(4),
        Formula::Until(0, 1),
        Formula::Always(6),
    ];
    for (first, second) in [(16, 15), (7, 5), (16, 16), (1, 16)] {
        let sides = [ring(first, 1), ring(second, 2), idle_side()];
        let made = Design { sides, formulas: formulas.clone(), rules: vec![5, 7] };
        let size = positions(&made) as usize;
        assert_eq!(search_agrees(&made.to_bytes(), RECORD_BYTES * size, 16 * size), 0);
    }
}

/// A proposition is a bit of the label words of one side; there are 16 for each side.
#[test]
fn propositions() {
    let each_side = |number| (0..SIDES).map(move |side| (number, side));
    for (number, labelled) in (0..=255).flat_map(each_side) {
        let side = |own| {
            let bit = usize::from(number) % SIDE_LABELS;
            let label = if own == labelled { 1 << bit } else { 0 };
            vec![State { label, transitions: vec![Transition { event: 0, target: 0 }] }]
        };
        let formulas = vec![Formula::Proposition(number)];
        let made = Design { sides: from_fn(side), formulas, rules: vec![0] };
        let expected = match usize::from(number) {
            number if number >= PROPOSITIONS => 7,
            number if number / SIDE_LABELS == labelled => 0,
            _ => 16,
        };
        let size = positions(&made) as usize;
        assert_eq!(search_agrees(&made.to_bytes(), RECORD_BYTES * size, 16 * size), expected);
    }
}

#[test]
fn judgements() {
    let mut random = Random::new(203);
    let mut answers = [0; 18];
    for round in 0..40_000 {
        let made = if round % 8 == 0 {
            design(&mut random, &Shape::FULL)
        } else {
            any_design(&mut random)
        };
        let converter = any_converter(&mut random, &made);
        let mut bytes = made.to_bytes();
        if round % 16 == 0 {
            damage(&mut random, &mut bytes);
        }
        let work_length = about(&mut random, 16 * (converter.len() / RECORD_BYTES));
        let waits_length = about(&mut random, made.rules.len());
        let answer = judge_agrees(&bytes, &converter, work_length, waits_length);
        answers[usize::from(answer.err().unwrap_or(0))] += 1;
    }
    for number in [0, 1, 2, 5, 7, 8, 10, 11, 12, 13, 14, 15] {
        assert!(answers[number] > 20, "{number}: {answers:?}");
    }
}

/// Untils that hold under a matched converter, beside other rules: those that are met at the start
/// and those that aren't.
#[test]
fn waits() {
    let mut random = Random::new(208);
    let (mut none, mut at_once, mut later) = (0, 0, [0; 4]);
    for _ in 0..12_000 {
        let mut made = any_design(&mut random);
        made.formulas.truncate(31);
        let lower = made.formulas.len();
        made.formulas.push(Formula::True);
        for b in 0..lower {
            let a = if random.once_in(2) { lower } else { random.below(lower) };
            made.formulas.push(Formula::Until(a, b));
        }
        let spare = random.below(40);
        let converter = matched_converter(&mut random, &made, spare);
        made.rules = (0..made.formulas.len() as u8).collect();
        let failing = failing_rules(&made, &converter);
        // Every until that isn't met at the start, and some of the other rules.
        made.rules.retain(|&rule| {
            let rule = usize::from(rule);
            let waits = rule > lower && failing.contains(&(rule - lower - 1));
            !failing.contains(&rule) && (waits || random.once_in(8))
        });
        made.rules.truncate(16);
        let bytes = converter_bytes(&converter);
        let judged = judge_agrees(&made.to_bytes(), &bytes, 16 * converter.len(), 16);
        for wait in judged.expect("the rules hold") {
            match wait {
                u32::MAX => none += 1,
                0 => at_once += 1,
                wait => later[wait.min(4) as usize - 1] += 1,
            }
        }
    }
    println!(
        "{none} rules don't wait, {at_once} are met at once, 1, 2, 3 ticks or more: {later:?}"
    );
    assert!(none > 1_000 && at_once > 1_000, "{none} {at_once}");
    assert!(later.iter().all(|&waits| waits > 50), "{later:?}");
}

#[test]
fn files() {
    let mut random = Random::new(204);
    let mut answers = [0; 18];
    for round in 0..20_000 {
        let mut file = block_file(&mut random, 40);
        if round % 2 == 0 {
            damage(&mut random, &mut file);
        }
        let length =
            about(&mut random, RECORD_BYTES * BLOCK_RECORDS * file.len().div_ceil(BLOCK_BYTES));
        let (mut memory, mut other_memory) = (pattern(length), pattern(length));
        let answer = baseline::read(&file, &mut memory);
        assert_eq!(answer, read_blocks(&file, &mut other_memory));
        assert!(memory == other_memory);
        answers[usize::from(answer.err().unwrap_or(0))] += 1;

        let records = random.from_to(1, 40);
        let made = loose_converter(&mut random, records);
        let converter = match round % 2 {
            0 => damaged_converter(&mut random, &made),
            _ => converter_bytes(&made),
        };
        let length = about(&mut random, BLOCK_BYTES * records.div_ceil(BLOCK_RECORDS));
        let (mut blocks, mut other_blocks) = (pattern(length), pattern(length));
        assert_eq!(
            baseline::write(&converter, &mut blocks),
            write_blocks(&converter, &mut other_blocks)
        );
        assert!(blocks == other_blocks);
    }
    for number in [0, 1, 2, 3, 4, 8, 11] {
        assert!(answers[number] > 20, "{number}: {answers:?}");
    }
}

#[test]
fn ticks() {
    let mut random = Random::new(205);
    let mut answers = [0; 18];
    for _ in 0..4_000 {
        let made = any_design(&mut random);
        let converter = any_converter(&mut random, &made);
        let mut runner = baseline::Runner::default();
        let mut other = checker::tick::Runner { record: 0, delivered: [0; SIDES] };
        for shown in script(&mut random, &made, &converter, 20) {
            if random.once_in(40) {
                runner.record = random.below(1 + converter.len() / 30) as u16;
                other.record = usize::from(runner.record);
            }
            let answer = baseline::tick(&converter, &mut runner, shown);
            assert_eq!(answer, checker::tick(&converter, &mut other, shown));
            assert_eq!(usize::from(runner.record), other.record);
            assert_eq!(runner.delivered, other.delivered);
            answers[usize::from(answer.err().unwrap_or(0))] += 1;
        }
    }
    assert!([0, 10, 11, 17].iter().all(|&number| answers[number] > 100), "{answers:?}");
}

#[test]
fn ranges() {
    let mut random = Random::new(206);
    let mut answers = [0; 24];
    for round in 0..30_000 {
        let made = waiting_design(&mut random);
        let (mut bytes, ranges) = (any_bytes(&mut random, &made), any_ranges(&mut random, &made));
        let list = match round % 4 {
            0 => flawed_list(&mut random, &made, &ranges).0,
            _ => list_bytes(&ranges),
        };
        if random.once_in(8) {
            damage(&mut random, &mut bytes);
        }
        let length = about(&mut random, bytes.len());
        let (mut result, mut other_result) = (pattern(length), pattern(length));
        let answer = baseline::ranges(&bytes, &list, &mut result);
        let other = checker::ranges(&bytes, &list, &mut other_result);
        assert_eq!(answer, other, "{list:?} {:?}", read_design(&bytes));
        assert!(result == other_result, "{list:?} {:?}", read_design(&bytes));
        answers[usize::from(answer.err().unwrap_or(0))] += 1;
    }
    for number in [0, 1, 2, 3, 4, 5, 6, 7, 8, 12, 22, 23] {
        assert!(answers[number] > 20, "{number}: {answers:?}");
    }
    assert!(answers[0] > 10_000, "{answers:?}");
}

/// Reads a text by both. The answer, 0 where it is read.
fn rules_agree(text: &[u8], length: usize) -> u8 {
    let (mut blocks, mut other_blocks) = (pattern(length), pattern(length));
    let answer = baseline::rules(text, &mut blocks);
    let shown = String::from_utf8_lossy(&text[..text.len().min(300)]);
    assert_eq!(answer, checker::rules(text, &mut other_blocks), "{shown:?}");
    assert!(blocks == other_blocks, "{shown:?}");
    answer.err().unwrap_or(0)
}

#[test]
fn rules() {
    let mut random = Random::new(207);
    let mut answers = [0; 24];
    for round in 0..60_000 {
        let text = match round % 6 {
            0 => sound_text(&mut random, &every_name(), 16, 64).bytes,
            1 => any_text(&mut random).bytes,
            2 => text_at_limits(&mut random).bytes,
            3 => token_text(&mut random),
            _ => {
                let mut text = any_text(&mut random).bytes;
                damage_text(&mut random, &mut text);
                text
            }
        };
        let length = about(&mut random, 1_024);
        answers[usize::from(rules_agree(&text, length))] += 1;
    }
    for number in [0, 12, 19, 20, 21] {
        assert!(answers[number] > 1_000, "{number}: {answers:?}");
    }
}

#[test]
fn rules_that_are_written_out() {
    for row in rows() {
        assert_eq!(rules_agree(row.text.as_bytes(), 1_024), 0, "{}", row.text);
    }
    for (number, texts) in [(19, refused_with_19()), (20, refused_with_20())] {
        texts.iter().for_each(|text| assert_eq!(rules_agree(text, 1_024), number));
    }
    for (text, number, _) in at_the_limits() {
        assert_eq!(rules_agree(text.as_bytes(), 1_030), number);
    }
    for (name, text, number, _) in long_texts() {
        assert_eq!(rules_agree(text.as_bytes(), 1_024), number, "{name}");
    }
    for (text, length, expected) in orders() {
        assert_eq!(rules_agree(text.as_bytes(), length), expected.unwrap_or(0), "{text}");
    }
}
