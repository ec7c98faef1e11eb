//! The verdict alone, by the library: against the second checker and against the library's own
//! judge over seeded designs and converters, sound and damaged, and in rows whose answers are found
//! by hand. The byte of the rule, which the wrapper keeps to itself, is lent here.

mod common;
#[path = "../../checker/tests/samples/mod.rs"]
mod samples;

use checker::bytes::{converter_bytes, read_design, seal, Design, Formula, Record};
use checker::generate::{any_bytes, damage, Random};
use checker::judge::failing_rules;
use common::graphs::{chain, orders, sides};
use common::pairs::{drawn, mostly_sound, searched};
use common::{about, judged_work, verdict_agrees, verdict_number, Answers, Lent};
use gorzhani::Verdict::{Fails, Yes};
use gorzhani::{Refused, Verdict, BLOCK, CELL, MOST, MOST_RULES, RECORD};
use samples::{
    enabling, figure_five, figure_five_with_faults, handshake, next_sixteen_next_seventeen, record,
    ruled_handshake, subsets, two_inputs, with_faults,
};

// The library's function, to be lent the byte of the rule.
extern "C" {
    fn gorzhani_verdict(
        design: *const u8,
        design_len: usize,
        converter: *const u8,
        converter_len: usize,
        work: *mut u8,
        work_len: usize,
        rule: *mut u8,
    ) -> i32;
}

/// The verdict with lent work of this length: by both, by the call itself and beside the judge.
fn verdict(bytes: &[u8], converter: &[u8], work_length: usize) -> Verdict {
    let verdict = verdict_agrees(bytes, converter, work_length);
    for first in [0x5A, 0xA5] {
        rule_lent(bytes, converter, (work_length, first), verdict);
    }
    beside_the_judge(bytes, converter, work_length, verdict);
    verdict
}

/// Makes the call with work and the byte of the rule lent, all of which hold `first`. It answers
/// this verdict, and the byte changes where a rule is to blame, and nowhere else.
fn rule_lent(bytes: &[u8], converter: &[u8], (work_length, first): (usize, u8), verdict: Verdict) {
    let (design, lent) = (Lent::holding(bytes), Lent::holding(converter));
    let (mut work, mut rule) = (Lent::holding(&vec![first; work_length]), Lent::holding(&[first]));
    let (read, judged) = (design.part(), lent.part());
    let written = work.part_mut();
    // SAFETY: the pointers are those of slices that live on, and nothing else refers to what is
    // written.
    let answer = unsafe {
        gorzhani_verdict(
            read.as_ptr(),
            read.len(),
            judged.as_ptr(),
            judged.len(),
            written.as_mut_ptr(),
            written.len(),
            rule.part_mut().as_mut_ptr(),
        )
    };
    let number = verdict_number(verdict);
    assert_eq!(answer, -i32::from(number), "{:?} {converter:?}", read_design(bytes));
    assert!(design.untouched() && lent.untouched());
    assert!(judged_work(&work, number, converter), "{verdict:?} {first}");
    let blamed = match verdict {
        Fails(place) => vec![place],
        _ => vec![],
    };
    assert!(rule.holds(&blamed), "{verdict:?} {first} {:?}", rule.part());
}

/// Asks the library's judge, with a list of waits that is long enough: its answer is this verdict,
/// and it leaves the same work. To the rules before the one to blame it says yes, and 15 to that one
/// alone.
fn beside_the_judge(bytes: &[u8], converter: &[u8], work_length: usize, verdict: Verdict) {
    let judge = |bytes: &[u8]| {
        let mut work = Lent::new(work_length);
        let judged = gorzhani::judge(bytes, converter, work.part_mut(), &mut [7; MOST_RULES]);
        let number = judged.err().map_or(0, |Refused(number)| number);
        assert!(judged_work(&work, number, converter), "{judged:?}");
        number
    };
    assert_eq!(judge(bytes), verdict_number(verdict), "{:?} {converter:?}", read_design(bytes));
    if let Fails(place) = verdict {
        let (rules, place) = (rules(bytes), usize::from(place));
        let said = [&rules[..place], &rules[place..=place]].map(|part| judge(&ruled(bytes, part)));
        assert_eq!(said, [0, 15], "{place} {:?} {converter:?}", read_design(bytes));
    }
}

/// The rules of a sound design, as they stand in its last block.
fn rules(bytes: &[u8]) -> &[u8] {
    let block = &bytes[bytes.len() - BLOCK..];
    &block[4..4 + usize::from(block[1])]
}

/// The bytes of a design with these rules in place of its own.
fn ruled(bytes: &[u8], rules: &[u8]) -> Vec<u8> {
    let mut bytes = bytes.to_vec();
    let at = bytes.len() - BLOCK;
    let block = &mut bytes[at..];
    block[1] = rules.len() as u8;
    block[4..].fill(0);
    block[4..4 + rules.len()].copy_from_slice(rules);
    seal(block);
    bytes
}

/// How many verdicts there were, what they were, and which rules were to blame.
#[derive(Default)]
struct Seen {
    answers: Answers,
    /// How often the rule at each place was to blame.
    blamed: [usize; MOST_RULES],
    /// Verdicts with a rule to blame behind which another rule fails.
    others_fail: usize,
}

impl Seen {
    /// Asks for a verdict, and counts.
    fn verdict(&mut self, bytes: &[u8], converter: &[u8], work_length: usize) -> Verdict {
        let verdict = verdict(bytes, converter, work_length);
        self.answers.count(verdict_number(verdict));
        if let Fails(place) = verdict {
            self.blamed[usize::from(place)] += 1;
            let behind = ruled(bytes, &rules(bytes)[usize::from(place) + 1..]);
            let fails = |verdict| matches!(verdict, Fails(_));
            self.others_fail += usize::from(fails(verdict_agrees(&behind, converter, work_length)));
        }
        verdict
    }

    /// Prints the counts.
    fn tell(&self, name: &str) {
        println!(
            "{name}: {} verdicts, {:?}; the rule to blame by its place: {:?}; {} times one behind \
             it fails too",
            self.answers.total(),
            self.answers.counts(),
            self.blamed,
            self.others_fail
        );
    }
}

/// Gives a design rules of which the first that fails under a converter, which is matched to it,
/// may stand at any place. The rules before it are in any order, or in that of the formulas, or in
/// the opposite one. The verdict.
fn with_rules(random: &mut Random, design: &mut Design, converter: &[Record]) -> Verdict {
    let all: Vec<u8> = (0..design.formulas.len() as u8).collect();
    design.rules = all.clone();
    let failing = failing_rules(design, converter);
    let (failing, kept): (Vec<u8>, Vec<u8>) =
        all.iter().partition(|&&rule| failing.contains(&usize::from(rule)));
    let most = if kept.is_empty() { 0 } else { random.below(MOST_RULES + 1) };
    let mut before: Vec<u8> = (0..most).map(|_| *random.pick(&kept)).collect();
    match random.below(3) {
        0 => before.sort(),
        1 => before.sort_by(|a, b| b.cmp(a)),
        _ => {}
    }
    if before.len() == MOST_RULES || failing.is_empty() || random.once_in(8) {
        design.rules = before;
        return Yes;
    }
    let place = before.len();
    before.push(*random.pick(&failing));
    before.extend((0..random.below(MOST_RULES - place)).map(|_| *random.pick(&all)));
    design.rules = before;
    Fails(place as u8)
}

#[test]
fn verdicts_agree_with_the_second_checker() {
    let mut random = Random::new(1_601);
    let mut seen = Seen::default();
    let (mut converters_found, mut round) = (0, 0);
    while seen.answers.total() < 48_000 {
        round += 1;
        let (mut made, records) = match round % 3 {
            0 => match searched(&mut random, round / 3) {
                Some(searched) => searched,
                None => continue,
            },
            _ => drawn(&mut random, round),
        };
        let (converter, work) = (converter_bytes(&records), CELL * records.len());
        if round % 3 == 0 {
            let bytes = any_bytes(&mut random, &made);
            assert_eq!(seen.verdict(&bytes, &converter, work), Yes, "{made:?}");
            converters_found += 1;
        }
        let expected = with_rules(&mut random, &mut made, &records);
        let bytes = any_bytes(&mut random, &made);
        let spare = random.below(3);
        assert_eq!(seen.verdict(&bytes, &converter, work + spare), expected, "{made:?}");
    }
    seen.tell("sound designs and matched converters");
    println!("converters found: {converters_found}");
    seen.answers.are(&[0, 15], 10_000);
    assert!(seen.blamed.iter().all(|&times| times > 500) && converters_found > 5_000);
    assert!(seen.others_fail > 5_000);
}

/// Damaged designs and converters, and work that is short or not, one by one and together.
#[test]
fn damaged_and_short() {
    let mut random = Random::new(1_602);
    let mut seen = Seen::default();
    for round in 0..24_000 {
        let (mut made, records) = drawn(&mut random, round);
        with_rules(&mut random, &mut made, &records);
        let mut bytes = any_bytes(&mut random, &made);
        if random.once_in(3) {
            damage(&mut random, &mut bytes);
        }
        let converter = mostly_sound(&mut random, &made, &records, 6);
        let work = about(&mut random, CELL * (converter.len() / RECORD));
        seen.verdict(&bytes, &converter, work);
    }
    seen.tell("damaged, or lent too little");
    seen.answers.are(&[0, 1, 2, 3, 4, 5, 6, 7, 8, 10, 11, 13, 14, 15], 50);
    assert!(seen.blamed.iter().all(|&times| times > 50));
}

/// H with the four rules and F, with every set of faults: the lowest number is answered. As printed,
/// the fourth rule fails.
#[test]
fn order_of_the_refusals() {
    let mut answers = Answers::default();
    for wrong in subsets(&[1, 2, 3, 4, 5, 6, 7, 8, 10, 11, 13, 14, 15]) {
        let has = |number: u8| wrong.contains(&number);
        let bytes = with_faults(ruled_handshake(has(15)).to_bytes(), 1, has);
        let converter = figure_five_with_faults(has);
        let expected = match wrong.first() {
            None => Yes,
            Some(15) => Fails(3),
            Some(&first) => Verdict::Refused(Refused(first)),
        };
        let work = CELL * 3 - usize::from(has(13));
        assert_eq!(verdict(&bytes, &converter, work), expected, "{wrong:?}");
        answers.count(verdict_number(expected));
    }
    assert_eq!(answers.total(), 1 << 13);
    answers.are(&[0, 1, 2, 3, 4, 5, 6, 7, 8, 10, 11, 13, 14, 15], 1);
}

/// Every length of work up to some more than F needs: 13 comes behind 11 and before 14.
#[test]
fn every_length_of_the_work() {
    let mut unmatched = figure_five();
    unmatched[0].links.truncate(1);
    let converters = [figure_five(), unmatched].map(|records| converter_bytes(&records));
    let designs = [true, false].map(|as_printed| ruled_handshake(as_printed).to_bytes());
    let mut damaged = converters[0].clone();
    damaged[2 * RECORD + 7] = 1;
    for work in 0..=CELL * 3 + 20 {
        let said = |design: &[u8], converter: &[u8]| verdict(design, converter, work);
        let short = work < 48;
        let enough = |enough| if short { Verdict::Refused(Refused::SHORT_WORK) } else { enough };
        assert_eq!(said(&designs[0], &converters[0]), enough(Fails(3)));
        assert_eq!(said(&designs[1], &converters[0]), enough(Yes));
        let unmatched = enough(Verdict::Refused(Refused::UNMATCHED));
        assert_eq!(said(&designs[0], &converters[1]), unmatched);
        assert_eq!(said(&designs[1], &damaged), Verdict::Refused(Refused::RECORD));
    }
}

#[test]
fn a_verdict_has_its_refusal() {
    assert_eq!(gorzhani::verdict(&[0; 2_047], &[], &mut []), Verdict::Refused(Refused::LENGTH));
}

/// The kind and the proposition of a literal's formula.
type Literal = [u8; 2];

/// H with rules AG(a and b implies AX(c or d)), byte by byte: for each rule a and b, and c and d.
fn handshake_bytes(rules: &[([u8; 2], [Literal; 2])]) -> Vec<u8> {
    let mut design = vec![0; 2_048];
    // s0 has label 0 and waits, or sends 1 and goes to s1; s1 has label 1 and waits, or sends 2 and
    // goes back.
    design[..2].copy_from_slice(&[1, 2]);
    design[4..12].copy_from_slice(&[1, 0, 2, 0, 0, 0, 255, 1]);
    design[24..32].copy_from_slice(&[2, 0, 2, 0, 0, 1, 254, 0]);
    // t0 has label 2 of the host and waits, or reads 1 and goes to t1; t1 has label 3, and reads 2
    // and goes back.
    design[512..514].copy_from_slice(&[2, 2]);
    design[516..524].copy_from_slice(&[4, 0, 2, 0, 0, 0, 1, 1]);
    design[536..542].copy_from_slice(&[8, 0, 1, 0, 2, 0]);
    design[1_024..1_026].copy_from_slice(&[3, 9 * rules.len() as u8]);
    design[1_536..1_538].copy_from_slice(&[4, rules.len() as u8]);
    for (place, &([a, b], [[c_kind, c], [d_kind, d]])) in rules.iter().enumerate() {
        let at = 9 * place as u8;
        let formulas = [
            [4, a, 0, 0],
            [4, b, 0, 0],
            [6, at, at + 1, 0],
            [c_kind, c, 0, 0],
            [d_kind, d, 0, 0],
            [6, at + 3, at + 4, 0],
            [7, at + 5, 0, 0],
            [6, at + 2, at + 6, 0],
            [9, at + 7, 0, 0],
        ];
        let formulas_at = 1_028 + 36 * place;
        design[formulas_at..formulas_at + 36].copy_from_slice(formulas.as_flattened());
        design[1_540 + place] = at + 8;
    }
    seal(&mut design);
    design
}

/// F against the paper's four rules, byte by byte.
#[test]
fn figure_five_against_the_four_rules() {
    let three =
        [([0, 18], [[3, 1], [4, 19]]), ([19, 1], [[3, 0], [4, 18]]), ([1, 18], [[3, 19], [4, 0]])];
    let [printed, meant] = [4, 3].map(|kind| ([0, 19], [[4, 1], [kind, 18]]));
    let with_fourth = |fourth, place| {
        let mut rules = three.to_vec();
        rules.insert(place, fourth);
        handshake_bytes(&rules)
    };
    let mut converter = vec![0; 156];
    // s0 and t0: (1, 0) to 1, (0, 0) to 0. s1 and t0: (2, -1) to 2, (0, 0) to 1. s0 and t1: (1, -2)
    // to 1, (0, -2) to 0.
    converter[..16].copy_from_slice(&[0, 0, 0, 2, 1, 0, 0, 0, 1, 0, 0, 0, 0, 0, 0, 0]);
    converter[52..68].copy_from_slice(&[1, 0, 0, 2, 2, 255, 0, 0, 2, 0, 0, 0, 0, 0, 1, 0]);
    converter[104..120].copy_from_slice(&[0, 1, 0, 2, 1, 254, 0, 0, 1, 0, 0, 254, 0, 0, 0, 0]);

    assert_eq!(verdict(&with_fourth(printed, 3), &converter, 48), Fails(3));
    assert_eq!(verdict(&with_fourth(meant, 3), &converter, 48), Yes);
    for place in 0..=3 {
        assert_eq!(verdict(&with_fourth(printed, place), &converter, 49), Fails(place as u8));
        assert_eq!(verdict(&with_fourth(meant, place), &converter, 100), Yes);
    }
    assert_eq!(verdict(&handshake_bytes(&three), &converter, 48), Yes);
    assert_eq!(verdict(&handshake_bytes(&[printed; 7]), &converter, 48), Fails(0));
    assert_eq!(verdict(&handshake_bytes(&[]), &converter, 48), Yes);

    // Without (0, 0) in record 0.
    let mut without = converter.clone();
    without[3] = 1;
    for fourth in [printed, meant] {
        let said = |work| verdict(&with_fourth(fourth, 3), &without, work);
        assert_eq!(said(48), Verdict::Refused(Refused::UNMATCHED));
        assert_eq!(said(47), Verdict::Refused(Refused::SHORT_WORK));
    }
}

/// The verdict with as much lent as is needed.
fn said(design: &Design, converter: &[Record]) -> Verdict {
    verdict(&design.to_bytes(), &converter_bytes(converter), CELL * converter.len())
}

/// Both inputs of h0 are enabled, and neither 16 nor 17 holds on both paths.
#[test]
fn the_fork_with_both_inputs() {
    let mut formulas = next_sixteen_next_seventeen();
    formulas.push(Formula::Or(2, 3));
    let to_h1 = ([0, -1], 1);
    let both = enabling(&[to_h1, ([0, -2], 2)]);
    assert_eq!(said(&two_inputs(formulas.clone(), vec![4]), &both), Fails(0));
    // With the first alone, AX 17 is what fails.
    for (rules, expected) in [
        (vec![4], Yes),
        (vec![4, 2], Yes),
        (vec![2, 3], Fails(1)),
        (vec![3, 2], Fails(0)),
        (vec![2, 4, 3], Fails(2)),
    ] {
        let fork = two_inputs(formulas.clone(), rules);
        assert_eq!(said(&fork, &enabling(&[to_h1])), expected);
    }
}

/// H, with formulas of every kind: those of even number hold under F, those of odd number don't.
fn even_hold(rules: &[u8]) -> Design {
    let formulas = vec![
        Formula::True,
        Formula::False,
        Formula::Proposition(0),
        Formula::Proposition(1),
        Formula::NotProposition(19),
        Formula::NotProposition(18),
        // 0 or 1; 0 and 1.
        Formula::Or(2, 3),
        Formula::And(2, 3),
        // AX(0 or 1); AX 0: s1 may come with the first tick.
        Formula::Next(6),
        Formula::Next(2),
        // A(true U 0); A(true U 1): s0 may wait for ever.
        Formula::Until(0, 2),
        Formula::Until(0, 3),
        // AG(0 or 1); AG not 19: t1 may come.
        Formula::Always(6),
        Formula::Always(4),
        // A(true U (0 or 1)); AX false.
        Formula::Until(0, 6),
        Formula::Next(1),
        // AG A(true U (0 or 1)); A(AG(0 or 1) U AX false).
        Formula::Always(14),
        Formula::Until(12, 15),
    ];
    handshake(formulas, rules.to_vec())
}

/// F under rules of which those of odd number fail.
fn under_figure_five(rules: &[u8]) -> Verdict {
    said(&even_hold(rules), &figure_five())
}

#[test]
fn sixteen_rules_of_which_several_fail() {
    let rules = [0, 2, 4, 6, 8, 10, 12, 14, 16, 0, 2, 11, 4, 3, 17, 1];
    assert_eq!(under_figure_five(&rules), Fails(11));
    let back: Vec<u8> = rules.iter().rev().copied().collect();
    assert_eq!(under_figure_five(&back), Fails(0));
    for (fails, holds) in [(1, 0), (3, 2), (9, 8), (11, 10), (13, 12), (15, 14), (17, 16)] {
        assert_eq!(under_figure_five(&[fails; MOST_RULES]), Fails(0));
        assert_eq!(under_figure_five(&[holds; MOST_RULES]), Yes);
        for place in 0..MOST_RULES {
            let mut rules = [holds; MOST_RULES];
            rules[place] = fails;
            assert_eq!(under_figure_five(&rules), Fails(place as u8));
            rules[place..].fill(fails);
            assert_eq!(under_figure_five(&rules), Fails(place as u8));
            assert_eq!(under_figure_five(&rules[..place]), Yes);
        }
    }
}

/// Each formula alone, then all of them by their numbers, up and down.
#[test]
fn rules_by_the_numbers_of_their_formulas() {
    for number in 0..18 {
        let expected = if number % 2 == 0 { Yes } else { Fails(0) };
        assert_eq!(under_figure_five(&[number]), expected, "{number}");
    }
    let up: Vec<u8> = (0..16).collect();
    assert_eq!(under_figure_five(&up), Fails(1));
    let down: Vec<u8> = (2..18).rev().collect();
    assert_eq!(under_figure_five(&down), Fails(0));
    assert_eq!(under_figure_five(&down[1..]), Fails(1));
    // Those that hold, downwards, and one that fails among them.
    let holding: Vec<u8> = (0..9).rev().map(|half| 2 * half).collect();
    assert_eq!(under_figure_five(&holding), Yes);
    for place in 0..=holding.len() {
        for fails in (1..18).step_by(2) {
            let mut rules = holding.clone();
            rules.insert(place, fails);
            assert_eq!(under_figure_five(&rules), Fails(place as u8), "{fails}");
        }
    }
}

/// Twelve rules, each of which holds or fails.
#[test]
fn every_set_of_rules_that_fail() {
    for bits in 0..1_u16 << 12 {
        let rules: Vec<u8> =
            (0..12).map(|at| 2 * (5 * at % 9) + u8::from(bits >> at & 1 == 1)).collect();
        let first = bits.trailing_zeros();
        let expected = if bits == 0 { Yes } else { Fails(first as u8) };
        assert_eq!(under_figure_five(&rules), expected, "{rules:?}");
    }
}

#[test]
fn no_rules() {
    assert_eq!(said(&handshake(vec![], vec![]), &figure_five()), Yes);
    // Formulas that no rule needs, and which fail.
    assert_eq!(under_figure_five(&[]), Yes);
    assert_eq!(said(&handshake(vec![Formula::False; 64], vec![]), &figure_five()), Yes);
    let mut unmatched = figure_five();
    unmatched[2].links.truncate(1);
    assert_eq!(said(&even_hold(&[]), &unmatched), Verdict::Refused(Refused::UNMATCHED));
}

/// Each number is tried over the whole input, also behind a rule that fails.
#[test]
fn behind_the_rule_that_fails() {
    let converter = converter_bytes(&figure_five());
    let bytes = even_hold(&[1, 0]).to_bytes();
    assert_eq!(verdict(&bytes, &converter, 48), Fails(0));
    // A rule that names no formula; a byte behind the rules.
    for (at, number) in [(5, 7), (6, 8)] {
        let mut damaged = bytes.clone();
        damaged[1_536 + at] = 18;
        seal(&mut damaged);
        assert_eq!(verdict(&damaged, &converter, 48), Verdict::Refused(Refused(number)));
    }
    // A record that no path reaches, and that is matched or isn't.
    let mut unreached = figure_five();
    unreached.push(record([1, 1], &[([2, -2], 0), ([0, -2], 1)]));
    assert_eq!(said(&even_hold(&[1, 0]), &unreached), Fails(0));
    unreached[3].links.truncate(1);
    assert_eq!(said(&even_hold(&[1, 0]), &unreached), Verdict::Refused(Refused::UNMATCHED));
}

/// As many records as there may be, in the order in which they are passed and against it, and in
/// none: the first rule fails, or the last alone, or none.
#[test]
fn long_chains() {
    let mut random = Random::new(1_603);
    let formulas = vec![
        Formula::True,
        Formula::Proposition(0),
        Formula::NotProposition(0),
        // 0 comes, and until then it doesn't hold; and it comes from every record on.
        Formula::Until(0, 1),
        Formula::Until(2, 1),
        Formula::Always(3),
        // Once it has come, 0 holds for ever.
        Formula::Always(1),
        Formula::Until(0, 6),
        // 0 never comes: that fails.
        Formula::Always(2),
        // 16 comes, which fails too; and so does that 16 comes wherever 0 holds.
        Formula::Proposition(16),
        Formula::Until(0, 9),
        Formula::Or(2, 10),
        Formula::Always(11),
    ];
    let holding = [7, 5, 4, 3];
    for records in [2, 3, 1_000, MOST] {
        for order in orders(&mut random, records) {
            let converter = chain(&order);
            let under = |rules: &[u8]| {
                let (formulas, rules) = (formulas.clone(), rules.to_vec());
                said(&Design { sides: sides(), formulas, rules }, &converter)
            };
            assert_eq!(under(&holding), Yes);
            for fails in [8, 10, 12] {
                assert_eq!(under(&[&[fails][..], &holding, &[8]].concat()), Fails(0));
                assert_eq!(under(&[&holding[..], &[fails]].concat()), Fails(4));
            }
            let mut most = [3; MOST_RULES];
            most[MOST_RULES - 1] = 12;
            assert_eq!(under(&most), Fails(15));
        }
    }
}
