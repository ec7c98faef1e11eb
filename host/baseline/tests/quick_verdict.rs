//! The verdict alone by the baseline, against the second checker: the same answers, the same work,
//! and the same rule to blame.

use checker::bytes::{converter_bytes, read_converter_memory, read_design, RECORD_BYTES};
use checker::generate::{
    any_converter, any_design, damage, design, matched_converter, Random, Shape,
};
use checker::judge::failing_rules;
use checker::verdict::Verdict;

/// Bytes that aren't zero.
fn pattern(length: usize) -> Vec<u8> {
    (0..length).map(|at| (at % 251 + 1) as u8).collect()
}

/// The verdict of the baseline, and that of the checker: its judge's with a list that is long
/// enough, and the first of the rules that fail. The place of that rule, none after a yes, or the
/// number of another refusal.
fn verdict_agrees(bytes: &[u8], converter: &[u8], work_length: usize) -> Result<Option<u8>, u8> {
    let (mut work, mut other_work) = (pattern(work_length), pattern(work_length));
    let unnamed = 99;
    let mut rule = unnamed;
    let answer = baseline::verdict(bytes, converter, &mut work, &mut rule);
    let other = checker::judge(bytes, converter, &mut other_work, &mut [0; 16]);
    assert_eq!(answer, other);
    assert!(work == other_work);
    let other = checker::verdict(bytes, converter, &mut pattern(work_length));
    assert_eq!(other.unblamed(), answer);
    if answer != Err(15) {
        assert_eq!(rule, unnamed);
        return answer.map(|()| None);
    }
    assert_eq!(other, Verdict::Fails(usize::from(rule)));
    let (design, records) = (read_design(bytes)?, read_converter_memory(converter)?);
    assert_eq!(usize::from(rule), failing_rules(&design, &records)[0], "{records:?} {design:?}");
    Ok(Some(rule))
}

#[test]
fn judgements() {
    let mut random = Random::new(203);
    let mut answers = [0; 18];
    for round in 0..40_000 {
        let made = if round % 8 == 0 {
            design(&mut random, &Shape::FULL)
        } else {
            any_design(&mut random)
        };
        let converter = any_converter(&mut random, &made);
        let mut bytes = made.to_bytes();
        if round % 16 == 0 {
            damage(&mut random, &mut bytes);
        }
        let enough = 16 * (converter.len() / RECORD_BYTES);
        let work_length = match random.below(12) {
            0 => enough.saturating_sub(1),
            1 => enough + random.below(100),
            _ => enough,
        };
        let number = match verdict_agrees(&bytes, &converter, work_length) {
            Ok(None) => 0,
            Ok(Some(_)) => 15,
            Err(number) => number,
        };
        answers[usize::from(number)] += 1;
    }
    for number in [0, 1, 2, 5, 7, 8, 10, 11, 13, 14, 15] {
        assert!(answers[number] > 20, "{number}: {answers:?}");
    }
}

/// So many rules hold, the next one fails, and whatever stands behind it; or sixteen hold.
#[test]
fn verdicts() {
    let mut random = Random::new(209);
    let mut places = [0; 17];
    for round in 0..17_000 {
        let mut made = any_design(&mut random);
        let spare = random.below(40);
        let converter = matched_converter(&mut random, &made, spare);
        made.rules = (0..made.formulas.len() as u8).collect();
        let failing = failing_rules(&made, &converter);
        let (fails, holds): (Vec<u8>, Vec<u8>) =
            made.rules.iter().copied().partition(|&rule| failing.contains(&usize::from(rule)));
        let place = round % 17;
        if fails.is_empty() || holds.is_empty() {
            continue;
        }
        let mut rules: Vec<u8> = (0..place).map(|_| *random.pick(&holds)).collect();
        rules.push(*random.pick(&fails));
        let behind = random.below(16);
        rules.extend((0..behind).map(|_| *random.pick(&made.rules)));
        rules.truncate(16);
        made.rules = rules;
        let bytes = converter_bytes(&converter);
        let answer = verdict_agrees(&made.to_bytes(), &bytes, 16 * converter.len());
        assert_eq!(answer, Ok((place < 16).then_some(place as u8)));
        places[place] += 1;
    }
    println!(
        "so many times the first rule that fails was at this place, or none failed: {places:?}"
    );
    assert!(places.iter().all(|&times| times > 200), "{places:?}");
}
