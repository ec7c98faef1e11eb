//! Explanations on random designs and matched converters, held against the second checker.

use std::collections::{BTreeMap, BTreeSet};

use checker::bytes::{converter_bytes, read_design, Design as Checked, Record as CheckedRecord};
use checker::generate::{
    any_bytes, matched_converter, nearly_matched_converter, progress_design, ruled_design, Random,
    Shape,
};
use checker::judge::{failing_rules, matched, model};
use desk::design::{from_bytes, Design};
use desk::explain::{first_failing, holds_at, rule_fails};
use desk::formulas::{Formula, Formulas};
use desk::records::{from_bytes as records_from, Record};
use desk::unmatched::unmatched;

/// A design and a converter, as the checker and as the desk have them.
struct Sample {
    checked: Checked,
    checked_records: Vec<CheckedRecord>,
    design: Design,
    records: Vec<Record>,
}

impl Sample {
    fn new(random: &mut Random, checked: Checked, checked_records: Vec<CheckedRecord>) -> Sample {
        let design = from_bytes(&any_bytes(random, &checked), "");
        let records = records_from(&converter_bytes(&checked_records));
        Sample { checked, checked_records, design, records }
    }

    fn ruled(random: &mut Random) -> Sample {
        let design = match random.below(20) {
            0 => ruled_design(random, &Shape { states: 6, ..Shape::FULL }),
            1..=5 => ruled_design(random, &Shape::TINY),
            6..=10 => progress_design(random, &Shape::SMALL),
            _ => ruled_design(random, &Shape::SMALL),
        };
        let spare = random.below(12);
        let records = matched_converter(random, &design, spare);
        Sample::new(random, design, records)
    }

    /// A sample whose rules are typed: every form stands in them.
    fn typed(random: &mut Random) -> Sample {
        let mut sample = Sample::ruled(random);
        let design = &mut sample.design;
        (design.formulas, design.numbers) = (Formulas::default(), Vec::new());
        design.rules.truncate(2);
        for rule in &mut design.rules {
            rule.formula = typed(random, &mut design.formulas, 4, true);
        }
        let rules: Vec<usize> = design.rules.iter().map(|rule| rule.formula).collect();
        design.blocks = design.blocks_of(&rules).expect("the rules are read");
        sample.checked = read_design(&design.bytes()).expect("the design is read");
        sample
    }

    /// For each formula the records at which it holds: as the file's formula, or typed alone.
    fn holding(&self) -> Vec<BTreeSet<usize>> {
        let model = model(&self.checked, &self.checked_records);
        let of_file = model.holding(&self.checked.formulas);
        let holding = |formula: usize| match self.design.numbers.get(formula) {
            Some(&Some(number)) => of_file[usize::from(number)].clone(),
            _ => {
                let bytes = self.design.with_rules(&[formula]).expect("the formula is read");
                let alone = read_design(&bytes).expect("the design is read");
                model.holding(&alone.formulas).swap_remove(usize::from(alone.rules[0]))
            }
        };
        (0..self.design.formulas.len()).map(holding).collect()
    }

    /// The same by the texts of the formulas.
    fn by_text(&self) -> BTreeMap<String, BTreeSet<usize>> {
        let texts = (0..self.design.formulas.len()).map(|formula| self.design.text(formula));
        texts.zip(self.holding()).collect()
    }
}

/// A formula as people type it, of at most this depth: temporal parts stand neither under `!` nor
/// left of `->`.
fn typed(random: &mut Random, formulas: &mut Formulas, depth: usize, temporal: bool) -> usize {
    let kinds = match (depth, temporal) {
        (0, _) => 6,
        (_, false) => 11,
        (_, true) => 18,
    };
    let kind = random.below(kinds);
    let mut part = |temporal: bool| typed(random, formulas, depth - 1, temporal);
    let formula = match kind {
        0 => [Formula::True, Formula::False][random.below(2)],
        1..=5 => Formula::Label((16 * random.below(3) + random.below(3)) as u8),
        6 => Formula::Not(part(false)),
        7 => Formula::And(part(temporal), part(temporal)),
        8 => Formula::Or(part(temporal), part(temporal)),
        9..=10 => Formula::Implies(part(false), part(temporal)),
        11 => Formula::Next(part(true)),
        12..=13 => Formula::Always(part(true)),
        14..=15 => Formula::Finally(part(true)),
        _ => Formula::Until(part(true), part(true)),
    };
    formulas.add(formula)
}

/// The words of a line of a run: its tick, what each side did, its record; or a remark.
enum Line {
    Tick(usize, Vec<String>, usize),
    Remark(String),
}

fn read_line(line: &str, sides: usize) -> Line {
    if let Some(remark) = line.strip_prefix("        ") {
        return Line::Remark(remark.to_string());
    }
    let mut words = line.split_whitespace();
    let mut next = || words.next().expect(line).to_string();
    let tick: usize = next().parse().expect(line);
    let mut done = Vec::new();
    for _ in 0..sides {
        next();
        if tick > 0 {
            done.push(match next() {
                word if word == "tick" => word,
                word => format!("{word} {}", next()),
            });
        }
    }
    Line::Tick(tick, done, next().trim_end_matches('*').parse().expect(line))
}

/// Holds an explanation against the records and the checker's labelling: each tick is a transition
/// of the record before it, and what fails "here" does. Answers how many ticks and claims there are.
fn check(
    sample: &Sample,
    holding: &BTreeMap<String, BTreeSet<usize>>,
    text: &str,
) -> (usize, usize) {
    let (mut ticks, mut claims) = (0, 0);
    let mut at: Vec<usize> = Vec::new();
    for line in text.lines().skip(3) {
        match read_line(line, sample.design.sides.len()) {
            Line::Tick(tick, done, record) => {
                // A run that went back goes on from the last line of the tick before.
                assert!(tick <= at.len(), "{text}");
                at.truncate(tick);
                if let Some(&before) = at.last() {
                    let fits = sample.records[before].links.iter().any(|link| {
                        let events = link.events.iter().map(|&event| sample.design.event(event));
                        usize::from(link.next) == record && events.take(done.len()).eq(done.clone())
                    });
                    assert!(fits, "tick {tick} of {text}");
                    ticks += 1;
                }
                at.push(record);
            }
            Line::Remark(remark) => {
                let back =
                    remark.strip_prefix("back at tick ").and_then(|rest| rest.split_once(": "));
                let (tick, rest) = match back {
                    Some((tick, rest)) => (tick.parse().expect(text), rest),
                    None => (at.len() - 1, &remark[..]),
                };
                at.truncate(tick + 1);
                let failing = [" fails here:", " fails:", " doesn't hold here"]
                    .iter()
                    .find_map(|end| rest.strip_suffix(end))
                    .map(|part| part.split_once(" here, and ").map_or(part, |(_, part)| part));
                if let Some(states) = failing.and_then(|part| holding.get(part)) {
                    assert!(!states.contains(&at[tick]), "{remark} of {text}");
                    claims += 1;
                }
                for (words, sign) in [(" fails before ", false), (" holds before ", true)] {
                    let Some((f, _)) = remark.split_once(words) else { continue };
                    if let Some(states) = holding.get(f) {
                        assert_eq!(states.contains(&at[tick]), sign, "{remark} of {text}");
                        claims += 1;
                    }
                }
                if let Some((_, g)) = remark.split_once("for ever, and ") {
                    let g = g.strip_suffix(" never holds").expect(text);
                    let begin: usize = remark
                        .split_once("as at tick ")
                        .and_then(|(_, rest)| rest.split_once(':')?.0.parse().ok())
                        .expect(text);
                    assert!(begin < tick && at[begin] == at[tick], "{remark} of {text}");
                    if let Some(states) = holding.get(g) {
                        assert!(
                            at[begin..].iter().all(|record| !states.contains(record)),
                            "{text}"
                        );
                        claims += 1;
                    }
                }
            }
        }
    }
    (ticks, claims)
}

/// Explains every rule that fails on so many samples.
fn explain(seed: u64, samples: usize, made: fn(&mut Random) -> Sample) -> usize {
    let mut random = Random::new(seed);
    let (mut failing, mut ticks, mut claims, mut went_back, mut loops) = (0, 0, 0, 0, 0);
    for number in 0..samples {
        let sample = made(&mut random);
        let rules = failing_rules(&sample.checked, &sample.checked_records);
        let first = rules.first().copied();
        assert_eq!(first_failing(&sample.design, &sample.records), first, "sample {number}");
        if rules.is_empty() {
            continue;
        }
        let holding = sample.by_text();
        for &rule in &rules {
            let text = rule_fails(&sample.design, &sample.records, rule);
            assert!(text.starts_with(&format!("Rule {} fails: ", rule + 1)), "{text}");
            assert!(!text.contains("doesn't confirm"), "sample {number}: {text}");
            let (done, said) = check(&sample, &holding, &text);
            (failing, ticks, claims) = (failing + 1, ticks + done, claims + said);
            went_back += usize::from(text.contains("back at tick"));
            loops += usize::from(text.contains("for ever"));
        }
    }
    println!("{failing} rules: {ticks} ticks, {claims} claims; {went_back} go back, {loops} loops");
    assert!(ticks > failing / 2 && claims > failing && went_back > 50 && loops > failing / 10);
    failing
}

#[test]
fn designs_from_bytes() {
    assert!(explain(1, 4_000, Sample::ruled) > 3_000);
}

#[test]
fn typed_designs() {
    assert!(explain(2, 4_000, Sample::typed) > 2_000);
}

#[test]
fn held_at_records() {
    let mut random = Random::new(3);
    let mut asked = 0;
    for number in 0..500 {
        let sample = if number % 2 == 0 { Sample::ruled } else { Sample::typed }(&mut random);
        if sample.records.len() > 24 {
            continue;
        }
        for (formula, holding) in sample.holding().iter().enumerate() {
            for record in 0..sample.records.len() {
                let answer = holds_at(&sample.design, &sample.records, formula, record);
                assert_eq!(answer, Ok(holding.contains(&record)), "sample {number}");
                asked += 1;
            }
        }
    }
    println!("{asked} asked");
    assert!(asked > 20_000);
}

#[test]
fn unmatched_records() {
    let mut random = Random::new(4);
    let mut wrong = 0;
    for number in 0..10_000 {
        let checked = ruled_design(&mut random, &Shape::SMALL);
        let spare = random.below(5);
        let records = nearly_matched_converter(&mut random, &checked, spare);
        let sample = Sample::new(&mut random, checked, records);
        let told = unmatched(&sample.design, &sample.records);
        let right = matched(&sample.checked, &sample.checked_records);
        assert_eq!(told.is_empty(), right, "sample {number}: {told:?}");
        wrong += usize::from(!right);
    }
    println!("{wrong} wrong");
    assert!(wrong > 3_000);
}
