//! How long rules wait, by the library: against the second checker over seeded designs and
//! converters, and in rows whose numbers are found by hand.

mod common;
#[path = "../../checker/tests/samples/mod.rs"]
mod samples;

use checker::bytes::{
    converter_bytes, positions, read_converter_memory, seal, Design, Formula, Record, SIDES,
};
use checker::generate::{
    any_bytes, any_design, damage, damaged_converter, design, matched_converter,
    nearly_matched_converter, progress_design, ruled_design, Random, Shape,
};
use checker::judge::failing_rules;
use common::graphs::{self, graph, holding, sides, waiting};
use common::{about, found, rule_count, waits_agree, Answers};
use gorzhani::{CELL, MOST, MOST_FORMULAS, MOST_RULES, NO_WAIT, RECORD};
use samples::{figure_five, handshake, record, ruled_handshake, state, viewer_once, with_faults};

/// How many judgements there were, what they answered, and the waits of those that are yes.
#[derive(Default)]
struct Seen {
    answers: Answers,
    /// Judgements that are yes and have a rule that is an until, and those where one waits.
    with_until: usize,
    waiting: usize,
    /// Rules that are untils, by how long they wait: 0, 1, 2, 3 to 9, more.
    untils: [usize; 5],
    /// Rules of another kind.
    others: usize,
    longest: u32,
}

impl Seen {
    /// Judges by both, and counts.
    fn judge(&mut self, bytes: &[u8], converter: &[u8], [work, waits]: [usize; 2]) -> u8 {
        let answer = waits_agree(bytes, converter, work, waits);
        let number = answer.as_ref().err().copied().unwrap_or(0);
        self.answers.count(number);
        let waits = answer.unwrap_or_default();
        self.with_until += usize::from(waits.iter().any(|&wait| wait != NO_WAIT));
        self.waiting += usize::from(waits.iter().any(|wait| (1..NO_WAIT).contains(wait)));
        for wait in waits {
            match wait {
                NO_WAIT => {
                    self.others += 1;
                    continue;
                }
                0..=2 => self.untils[wait as usize] += 1,
                3..=9 => self.untils[3] += 1,
                _ => self.untils[4] += 1,
            }
            self.longest = self.longest.max(wait);
        }
        number
    }

    /// Prints the counts.
    fn tell(&self, name: &str) {
        println!(
            "{name}: {} judgements, {:?}; {} with an until, {} with one that waits; untils that \
             wait 0, 1, 2, 3 to 9, more: {:?}, at the most {}; other rules: {}",
            self.answers.total(),
            self.answers.counts(),
            self.with_until,
            self.waiting,
            self.untils,
            self.longest,
            self.others
        );
    }
}

/// Puts some untils behind the formulas, over any of them, half of them with "true" before what is
/// to come.
fn with_untils(random: &mut Random, formulas: &mut Vec<Formula>) {
    formulas.truncate(MOST_FORMULAS / 2);
    formulas.push(Formula::True);
    let always_true = formulas.len() - 1;
    for _ in 0..random.from_to(1, MOST_FORMULAS / 2 - 1) {
        let (a, b) = (random.below(formulas.len()), random.below(formulas.len()));
        let before = if random.once_in(2) { always_true } else { a };
        formulas.push(Formula::Until(before, b));
    }
}

/// Gives a design rules that hold under a converter which is matched to it, most of them untils
/// and, where there are any, untils that aren't met at the start; at times one that may fail.
fn with_kept_rules(random: &mut Random, design: &mut Design, converter: &[Record]) {
    let all: Vec<u8> = (0..design.formulas.len() as u8).collect();
    design.rules = all.clone();
    let failing = failing_rules(design, converter);
    let fails = |formula: usize| failing.contains(&formula);
    let mut kept = all.clone();
    kept.retain(|&rule| !fails(usize::from(rule)));
    let mut untils = kept.clone();
    untils.retain(|&rule| matches!(design.formulas[usize::from(rule)], Formula::Until(..)));
    let mut later = kept.clone();
    later.retain(|&rule| match design.formulas[usize::from(rule)] {
        Formula::Until(_, b) => fails(b),
        _ => false,
    });
    let most = if random.once_in(8) { MOST_RULES } else { 4 };
    let rule = |random: &mut Random| {
        let wanted = match random.below(40) {
            0 => &all,
            1..=10 => &kept,
            11..=20 => &untils,
            _ => &later,
        };
        let some = [wanted, &untils, &kept, &all].into_iter().find(|rules| !rules.is_empty());
        *random.pick(some.expect("there are formulas"))
    };
    design.rules = (0..random.from_to(1, most)).map(|_| rule(random)).collect();
}

/// A design of any sort and a converter matched to it, under which its rules hold, mostly.
fn matched(random: &mut Random, round: usize) -> (Design, Vec<Record>) {
    let mut made = match round % 16 {
        0 => design(random, &Shape::FULL),
        1..=5 => design(random, &Shape::SMALL),
        _ => any_design(random),
    };
    with_untils(random, &mut made.formulas);
    let spare = random.below(12);
    let converter = matched_converter(random, &made, spare);
    with_kept_rules(random, &mut made, &converter);
    (made, converter)
}

/// A design, of whose rules some are untils, and the converter that the library finds for it, if it
/// does.
fn searched(random: &mut Random, round: usize) -> Option<(Design, Vec<Record>)> {
    let mut made = match round % 3 {
        0 => progress_design(random, &Shape::TINY),
        1 => ruled_design(random, &Shape::TINY),
        _ => ruled_design(random, &Shape::SMALL),
    };
    if random.once_in(2) {
        made.rules.clear();
    }
    let at = made.formulas.len();
    if at + 2 > MOST_FORMULAS {
        return None;
    }
    made.formulas.extend([Formula::True, Formula::Until(at, random.below(at))]);
    made.rules.insert(random.below(made.rules.len() + 1), at as u8 + 1);
    if positions(&made) > 1 << 10 {
        return None;
    }
    let table = found(&made.to_bytes())?;
    Some((made, read_converter_memory(&table).expect("a converter found is right in itself")))
}

/// Places from each of which one to three lead on, none of them far, the last to itself.
fn leading_on(random: &mut Random, places: usize) -> Vec<Vec<usize>> {
    let far = random.from_to(1, 6);
    let ahead = |random: &mut Random, at: usize| (at + random.from_to(1, far)).min(places - 1);
    (0..places).map(|at| (0..random.from_to(1, 3)).map(|_| ahead(random, at)).collect()).collect()
}

/// A converter in the shape of a graph, and rules that hold under it, mostly.
fn in_no_order(random: &mut Random, round: usize) -> (Design, Vec<Record>) {
    let places = random.from_to(2, 60);
    let next = if round % 3 == 0 { graph(random, places) } else { leading_on(random, places) };
    let mut held = holding(random, places);
    held[places - 1][0] = 1;
    let mut made = Design { sides: sides(), formulas: waiting(random), rules: vec![] };
    with_untils(random, &mut made.formulas);
    let converter = graphs::converter(random, &next, &held);
    with_kept_rules(random, &mut made, &converter);
    (made, converter)
}

#[test]
fn waits_agree_with_the_second_checker() {
    let mut random = Random::new(1_501);
    let mut seen = Seen::default();
    let (mut converters_found, mut round) = (0, 0);
    while seen.answers.total() < 48_000 {
        round += 1;
        let is_found = round % 3 == 0;
        let (made, records) = match round % 3 {
            0 => match searched(&mut random, round / 3) {
                Some(searched) => searched,
                None => continue,
            },
            1 => matched(&mut random, round / 3),
            _ => in_no_order(&mut random, round / 3),
        };
        let bytes = any_bytes(&mut random, &made);
        let spare = random.below(3);
        let lengths = [CELL * records.len(), made.rules.len() + spare];
        let answer = seen.judge(&bytes, &converter_bytes(&records), lengths);
        if is_found {
            assert_eq!(answer, 0, "{made:?}");
            converters_found += 1;
        }
    }
    seen.tell("sound designs and matched converters");
    println!("converters found: {converters_found}");
    seen.answers.are(&[0, 15], 500);
    assert!(seen.with_until > 36_000 && seen.waiting > 10_000 && converters_found > 5_000);
    assert!(seen.untils.iter().all(|&untils| untils > 1_000) && seen.others > 5_000);
    assert!(seen.longest > 30, "{}", seen.longest);
}

/// Damaged designs and converters, and lengths that are short or not, one by one and together.
#[test]
fn damaged_and_short() {
    let mut random = Random::new(1_502);
    let mut seen = Seen::default();
    for round in 0..24_000 {
        let (made, records) = match round % 2 {
            0 => matched(&mut random, round / 2),
            _ => in_no_order(&mut random, round / 2),
        };
        let mut bytes = any_bytes(&mut random, &made);
        if random.once_in(3) {
            damage(&mut random, &mut bytes);
        }
        let converter = match random.below(6) {
            0 => damaged_converter(&mut random, &records),
            1 => converter_bytes(&nearly_matched_converter(&mut random, &made, 3)),
            _ => converter_bytes(&records),
        };
        let work = about(&mut random, CELL * (converter.len() / RECORD));
        let waits = random.below(rule_count(&bytes) + 3);
        seen.judge(&bytes, &converter, [work, waits]);
    }
    seen.tell("damaged, or lent too little");
    seen.answers.are(&[0, 1, 2, 3, 4, 5, 6, 7, 8, 10, 11, 12, 13, 14, 15], 50);
}

/// Every length of the list up to two more than are needed, with enough work, one byte less and
/// none: 12 comes behind 11 and before 13.
#[test]
fn every_length_of_the_list() {
    let mut random = Random::new(1_503);
    let mut seen = Seen::default();
    for round in 0..1_500 {
        let (made, records) = match round % 2 {
            0 => matched(&mut random, round / 2),
            _ => in_no_order(&mut random, round / 2),
        };
        let converter = match random.below(4) {
            0 => damaged_converter(&mut random, &records),
            1 => converter_bytes(&nearly_matched_converter(&mut random, &made, 3)),
            _ => converter_bytes(&records),
        };
        let mut bytes = any_bytes(&mut random, &made);
        if random.once_in(8) {
            damage(&mut random, &mut bytes);
        }
        let (rules, work) = (rule_count(&bytes), CELL * (converter.len() / RECORD));
        let enough = seen.judge(&bytes, &converter, [work, rules]);
        assert!(![12, 13].contains(&enough));
        for waits in 0..=rules + 2 {
            for work in [work, work.saturating_sub(1), 0] {
                let short = work < CELL * (converter.len() / RECORD);
                let expected = match enough {
                    1..=11 => enough,
                    _ if waits < rules => 12,
                    _ if short => 13,
                    _ => enough,
                };
                assert_eq!(seen.judge(&bytes, &converter, [work, waits]), expected);
            }
        }
    }
    seen.tell("every length of the list");
    assert!(seen.answers.total() > 20_000 && seen.waiting > 500);
    let often: Vec<usize> =
        seen.answers.counts().iter().filter(|came| came.1 > 1_000).map(|came| came.0).collect();
    assert!([0, 11, 12, 13].iter().all(|number| often.contains(number)), "{often:?}");
}

/// H with the four rules and F, with every set of faults: the lowest number is answered.
#[test]
fn order_of_the_refusals() {
    let tried = [1, 2, 3, 4, 5, 6, 7, 8, 10, 11, 12, 13, 14, 15];
    let mut answers = Answers::default();
    for bits in 0..1 << tried.len() {
        let wrong: Vec<u8> =
            (0..tried.len()).filter(|at| bits >> at & 1 == 1).map(|at| tried[at]).collect();
        let has = |number: u8| wrong.contains(&number);
        let mut records = figure_five();
        if has(14) {
            // Record 0 doesn't let s0 wait.
            records[0].links.truncate(1);
        }
        let mut converter = converter_bytes(&records);
        if has(11) {
            // The zero in a used place of the last record.
            converter[2 * RECORD + 7] = 1;
        }
        if has(10) {
            converter.push(0);
        }
        // As printed, the fourth rule fails under F.
        let design = ruled_handshake(has(15)).to_bytes();
        let bytes = with_faults(design, 1, has);
        let (work, waits) = (CELL * 3 - usize::from(has(13)), 4 - usize::from(has(12)));
        let answer = waits_agree(&bytes, &converter, work, waits);
        let expected = wrong.first().map_or(Ok(vec![NO_WAIT; 4]), |&first| Err(first));
        assert_eq!(answer, expected, "{wrong:?}");
        answers.count(answer.err().unwrap_or(0));
    }
    answers.are(&[0, 1, 2, 3, 4, 5, 6, 7, 8, 10, 11, 12, 13, 14, 15], 1);
}

/// The waits of the rules under a converter, with as much lent as is needed.
fn waits(design: &Design, converter: &[Record]) -> Result<Vec<u32>, u8> {
    let (work, rules) = (CELL * converter.len(), design.rules.len());
    waits_agree(&design.to_bytes(), &converter_bytes(converter), work, rules)
}

/// A converter that goes through all its records and stays at the last, where 0 holds; the next
/// record of each is told by the order in which they are passed. Four rules: what is reached at the
/// start, then 0 by two untils, and one that isn't an until.
fn chain(order: &[usize]) -> (Design, Vec<Record>) {
    let walking = vec![state(&[], &[(0, 0), (1, 1)]), state(&[0], &[(0, 1)])];
    let formulas = vec![
        Formula::True,
        Formula::Proposition(0),
        Formula::NotProposition(0),
        Formula::Until(0, 2),
        Formula::Until(0, 1),
        Formula::Until(2, 1),
        Formula::Always(4),
    ];
    let mut records = vec![record([0], &[]); order.len()];
    let last = order.len() - 1;
    for (at, &own) in order.iter().enumerate() {
        let event = if at + 1 == last { -1 } else { 0 };
        let next = order[last.min(at + 1)] as u16;
        records[own] = record([u8::from(at == last)], &[([event], next)]);
    }
    (samples::design([walking], formulas, vec![3, 4, 5, 6]), records)
}

/// The chain of 100 records, byte by byte.
#[test]
fn a_chain_of_a_hundred_records() {
    // The kernel's state 0 stays by a tick and reads 1 to get to state 1, which has label 0.
    let mut design = vec![0; 2_048];
    design[..2].copy_from_slice(&[1, 2]);
    design[4..12].copy_from_slice(&[0, 0, 2, 0, 0, 0, 1, 1]);
    design[24..30].copy_from_slice(&[1, 0, 1, 0, 0, 1]);
    // The host ticks.
    design[512..514].copy_from_slice(&[2, 1]);
    design[518] = 1;
    // True, proposition 0, A(true U 0); the last is the rule.
    design[1_024..1_026].copy_from_slice(&[3, 3]);
    design[1_028..1_040].copy_from_slice(&[1, 0, 0, 0, 3, 0, 0, 0, 8, 0, 1, 0]);
    design[1_536..1_538].copy_from_slice(&[4, 1]);
    design[1_540] = 2;
    seal(&mut design);
    // Each record ticks on to the next; the last but one gives 1 to the kernel, and the last stays.
    let mut converter = vec![0; 52 * 100];
    for (own, record) in converter.chunks_mut(52).enumerate() {
        record[3] = 1;
        record[8] = (own as u8 + 1).min(99);
    }
    converter[52 * 98 + 4] = 255;
    converter[52 * 99] = 1;
    assert_eq!(waits_agree(&design, &converter, 1_600, 1), Ok(vec![99]));
    assert_eq!(waits_agree(&design, &converter, 1_600, 3), Ok(vec![99]));
    assert_eq!(waits_agree(&design, &converter, 1_600, 0), Err(12));
    assert_eq!(waits_agree(&design, &converter, 1_599, 0), Err(12));
    assert_eq!(waits_agree(&design, &converter, 1_599, 1), Err(13));
    // A record in the middle may stay where it is: the until fails.
    let (place, second) = (52 * 50, [255_u8, 0, 0, 0, 99, 0]);
    converter[place + 3] = 2;
    converter[place + 4..place + 10].copy_from_slice(&[0, 0, 0, 0, 50, 0]);
    converter[place + 10..place + 16].copy_from_slice(&second);
    assert_eq!(waits_agree(&design, &converter, 1_600, 1), Err(15));
}

/// As many records as there may be, in the order in which they are passed and against it, and in
/// no order: the longest wait that there is.
#[test]
fn the_longest_wait() {
    let mut random = Random::new(1_504);
    for records in [2, 3, 4, 1_000, MOST] {
        let ahead: Vec<usize> = (0..records).collect();
        let mut back = ahead.clone();
        back[1..].reverse();
        let mut mixed = ahead.clone();
        random.shuffle(&mut mixed[1..]);
        for order in [ahead, back, mixed] {
            let (design, converter) = chain(&order);
            let longest = records as u32 - 1;
            assert_eq!(waits(&design, &converter), Ok(vec![0, longest, longest, NO_WAIT]));
        }
    }
    // With one record there is nothing to wait for.
    let (mut design, _) = chain(&[0, 1]);
    design.sides[0][0].label = 1;
    let alone = record([0], &[([0], 0)]);
    assert_eq!(waits(&design, &[alone.clone()]), Err(15));
    design.rules.remove(0);
    assert_eq!(waits(&design, &[alone]), Ok(vec![0, 0, NO_WAIT]));
}

/// H with states that wait as a list says.
fn handshake_with(list: &[[u8; 4]], formulas: Vec<Formula>, rules: Vec<u8>) -> Design {
    let old = handshake(formulas, rules).to_bytes();
    let mut new = vec![0; old.len()];
    assert_eq!(gorzhani::ranges(&old, &list.concat(), &mut new), Ok(()));
    checker::bytes::read_design(&new).expect("the new design is sound")
}

/// Formulas over H, by their numbers: 0 is true, 1 to 4 are the propositions 0, 1, 18 and 19.
fn over_h(more: &[Formula]) -> Vec<Formula> {
    let mut formulas = vec![Formula::True];
    formulas.extend([0, 1, 18, 19].map(Formula::Proposition));
    formulas.extend(more);
    formulas
}

/// F stays at record 0 for as long as s0 waits: what isn't reached at the start may never be.
#[test]
fn the_handshake_pair_under_figure_five() {
    let untils = [
        // A(true U 0), A(true U 18), A(19 U 18), A(0 U 0).
        Formula::Until(0, 1),
        Formula::Until(0, 3),
        Formula::Until(4, 3),
        Formula::Until(1, 1),
    ];
    let reached = handshake(over_h(&untils), vec![5, 6, 7, 8]);
    assert_eq!(waits(&reached, &figure_five()), Ok(vec![0; 4]));
    // A(true U 1), A(true U 19).
    for later in [Formula::Until(0, 2), Formula::Until(0, 4)] {
        assert_eq!(waits(&handshake(over_h(&[later]), vec![5]), &figure_five()), Err(15));
    }
}

/// H where neither s0 nor s1 waits, and F without the waits: records 0, 1, 2, 1, 2 and so on.
fn at_once(formulas: &[Formula], rules: &[u8]) -> Result<Vec<u32>, u8> {
    let list = [[0, 0, 0, 0], [0, 1, 0, 0]];
    let converter = [
        record([0, 0], &[([1, 0], 1)]),
        record([1, 0], &[([2, -1], 2)]),
        record([0, 1], &[([1, -2], 1)]),
    ];
    waits(&handshake_with(&list, over_h(formulas), rules.to_vec()), &converter)
}

#[test]
fn waits_of_none_one_and_two() {
    let untils = [
        // A(true U 0): 0 holds at the start. A(true U 1): s1 comes with the first tick.
        Formula::Until(0, 1),
        Formula::Until(0, 2),
        // A(true U 19), A(18 U 19): t1 comes with the second tick, and until then t0 is there.
        Formula::Until(0, 4),
        Formula::Until(3, 4),
        // A(0 U 1); A(0 U 19) fails, since s1 comes between.
        Formula::Until(1, 2),
        Formula::Until(1, 4),
    ];
    assert_eq!(at_once(&untils, &[5, 6, 7, 8, 9]), Ok(vec![0, 1, 2, 2, 1]));
    // By the rules' order, and as often as one is named.
    assert_eq!(at_once(&untils, &[7, 5, 7, 6]), Ok(vec![2, 0, 2, 1]));
    assert_eq!(at_once(&untils, &[7, 10]), Err(15));
    assert_eq!(at_once(&untils, &[10]), Err(15));
    assert_eq!(at_once(&untils, &[]), Ok(vec![]));
    assert_eq!(at_once(&untils, &[8; MOST_RULES]), Ok(vec![2; MOST_RULES]));
}

/// Rules of every kind but "false", which never holds: an until alone has a wait.
#[test]
fn rules_of_other_kinds() {
    let kinds = [
        Formula::NotProposition(19),
        Formula::And(1, 3),
        Formula::Or(4, 1),
        Formula::Next(2),
        Formula::Until(0, 4),
        Formula::Always(0),
        Formula::False,
    ];
    let none = NO_WAIT;
    let expected = vec![none, none, none, none, none, none, 2, none];
    assert_eq!(at_once(&kinds, &[0, 1, 5, 6, 7, 8, 9, 10]), Ok(expected));
    assert_eq!(at_once(&kinds, &[9, 11]), Err(15));
    // The paper's four rules are of kind 9.
    assert_eq!(waits(&ruled_handshake(false), &figure_five()), Ok(vec![none; 4]));
}

/// A(true U 19) is number 5, a rule or not, and stands inside others.
#[test]
fn an_until_inside_another_formula() {
    let formulas = [
        Formula::Until(0, 4),
        Formula::Always(5),
        Formula::And(5, 0),
        Formula::Or(1, 5),
        Formula::Next(5),
        // A(A(true U 19) U 1): s1 comes with the first tick.
        Formula::Until(5, 2),
        // A(true U A(true U 19)): what is to come holds at the start.
        Formula::Until(0, 5),
        // 19 and AX 1; A(true U (19 and AX 1)).
        Formula::Next(2),
        Formula::And(4, 12),
        Formula::Until(0, 13),
        // The same as number 5, once more.
        Formula::Until(0, 4),
    ];
    let none = NO_WAIT;
    let inside = [6, 7, 8, 9, 10, 11];
    assert_eq!(at_once(&formulas, &inside), Ok(vec![none, none, none, none, 1, 0]));
    let beside = [[5].as_slice(), &inside, &[5, 14, 15]].concat();
    assert_eq!(at_once(&formulas, &beside), Ok(vec![2, none, none, none, none, 1, 0, 2, 2, 2]));
}

/// H with s0 at 0 to 2 and A(true U 1), with a converter under which the host only ticks: two waits,
/// then the send. On the shortest path s1 comes with the first tick.
#[test]
fn the_longest_path_counts() {
    let formulas = || over_h(&[Formula::Until(0, 2), Formula::Until(1, 2)]);
    let patient = handshake_with(&[[0, 0, 0, 2]], formulas(), vec![5, 6]);
    let s1 = record([1, 0], &[([2, 0], 0), ([0, 0], 1)]);
    let converter = [
        record([0, 0], &[([1, 0], 1), ([0, 0], 2)]),
        s1.clone(),
        record([2, 0], &[([1, 0], 1), ([0, 0], 3)]),
        record([3, 0], &[([1, 0], 1)]),
    ];
    assert_eq!(waits(&patient, &converter), Ok(vec![3, 3]));
    // The same with the send behind the wait, and records in another order.
    let other = [
        record([0, 0], &[([0, 0], 3), ([1, 0], 2)]),
        record([3, 0], &[([1, 0], 2)]),
        record([1, 0], &[([0, 0], 2), ([2, 0], 0)]),
        record([2, 0], &[([0, 0], 1), ([1, 0], 2)]),
    ];
    assert_eq!(waits(&patient, &other), Ok(vec![3, 3]));
    // Where s0 waits once at the most, s1 comes in two ticks.
    let once = handshake_with(&[[0, 0, 0, 1]], formulas(), vec![5, 6]);
    let converter =
        [record([0, 0], &[([1, 0], 1), ([0, 0], 2)]), s1, record([2, 0], &[([1, 0], 1)])];
    assert_eq!(waits(&once, &converter), Ok(vec![2, 2]));
}

/// H with s0 at any range that fits: whatever converter is found for A(true U 1), s0 may wait as
/// often as it does at the most, and sends with the next tick.
#[test]
fn s0_waits_as_often_as_it_may() {
    let mut tried = 0;
    for greatest in 0..=14 {
        for least in 0..=greatest {
            let design = handshake_with(
                &[[0, 0, least, greatest]],
                over_h(&[Formula::Until(0, 2)]),
                vec![5],
            );
            let table = found(&design.to_bytes()).expect("s1 comes");
            let records = read_converter_memory(&table).expect("it is right in itself");
            assert_eq!(waits(&design, &records), Ok(vec![u32::from(greatest) + 1]), "{least}");
            tried += 1;
        }
    }
    assert_eq!(tried, 120);
}

/// The viewer without a third side: w1 is a tick away, and a converter may take two, or never get
/// there. Its rule is A(true U (16 and not 32)).
#[test]
fn the_viewer() {
    let once = viewer_once(checker::bytes::idle_side());
    let read = |next| ([0, -1, 0], next);
    let tick = |next| ([0; SIDES], next);
    let shown = |next| record([0, 1, 0], &[tick(next)]);
    let waiting = |links: &[([i8; SIDES], u16)]| record([0; SIDES], links);
    assert_eq!(waits(&once, &[waiting(&[read(1)]), shown(0)]), Ok(vec![1]));
    let twice = [waiting(&[tick(1)]), waiting(&[read(2)]), shown(0)];
    assert_eq!(waits(&once, &twice), Ok(vec![2]));
    let either = [waiting(&[read(2), tick(1)]), waiting(&[read(2)]), shown(0)];
    assert_eq!(waits(&once, &either), Ok(vec![2]));
    assert_eq!(waits(&once, &[waiting(&[read(1), tick(0)]), shown(0)]), Err(15));
}
