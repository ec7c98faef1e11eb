//! The quick verdict: rows by hand, the refusals in every combination, and random designs and
//! converters, sound and damaged, against the judge.

mod drawn;
#[allow(dead_code)]
mod kept;
mod samples;

use std::array::from_fn;
use std::collections::BTreeMap;

use checker::bytes::{
    converter_bytes, read_converter_memory, read_design, seal, Design, Formula, Record,
};
use checker::generate::{
    any_bytes, any_converter, any_design, damage, formulas, matched_converter, ruled_design,
    Random, Shape,
};
use checker::judge::{failing_rules, model};
use checker::verdict::{Paths, Verdict};
use drawn::{
    braid, chain, drawn, free_design, free_sides, leading_far, small_structures, TRUE_UNTIL_0,
};
use kept::kept;
use samples::{
    enabling, figure_five, figure_five_with_faults, four_rules, handshake, judged, judged_waits,
    leading_on, lock_and_menu, lock_and_menu_converter, mistaken_labels,
    next_sixteen_next_seventeen, pattern, record, ruled_handshake, subsets, ticking_in_turn,
    two_inputs, wait_leading_to, with_faults, work_after, BEYOND,
};

/// Asks for the verdict, and holds every byte of work against the specification.
fn answered(design: &[u8], converter: &[u8], work_length: usize) -> Verdict {
    let mut work = pattern(work_length);
    let verdict = checker::verdict(design, converter, &mut work);
    let expected = work_after(verdict.unblamed(), work_length, converter.len() / 52);
    assert_eq!(work, expected, "work after {verdict:?}");
    verdict
}

/// The same with work to spare.
fn answered_well(design: &Design, converter: &[Record]) -> Verdict {
    let work = 16 * converter.len() + BEYOND;
    answered(&design.to_bytes(), &converter_bytes(converter), work)
}

#[test]
fn figure_five_against_the_four_rules() {
    assert_eq!(answered_well(&ruled_handshake(true), &figure_five()), Verdict::Fails(3));
    assert_eq!(answered_well(&ruled_handshake(false), &figure_five()), Verdict::Yes);
    // As printed, the fourth is blamed wherever it stands, and the others never are.
    let (formulas, rules) = four_rules(true);
    let with_rules = |rules: &[u8]| handshake(formulas.clone(), rules.to_vec());
    for place in 0..4 {
        let mut moved = rules.clone();
        moved.swap(place, 3);
        assert_eq!(answered_well(&with_rules(&moved), &figure_five()), Verdict::Fails(place));
    }
    assert_eq!(answered_well(&with_rules(&rules[..3]), &figure_five()), Verdict::Yes);
    assert_eq!(answered_well(&with_rules(&rules[3..]), &figure_five()), Verdict::Fails(0));
}

#[test]
fn figure_five_unmatched() {
    for design in [handshake(vec![], vec![]), ruled_handshake(true), ruled_handshake(false)] {
        let mut without = figure_five();
        without[0] = record([0, 0], &[([1, 0], 1)]);
        assert_eq!(answered_well(&design, &without), Verdict::Refused(14));
        let mut fourth = figure_five();
        fourth[0] = record([0, 0], &[([1, 0], 1), ([0, 0], 0), ([0, -1], 3)]);
        fourth.push(record([0, 1], &[([1, -2], 1), ([0, -2], 0)]));
        assert_eq!(answered_well(&design, &fourth), Verdict::Refused(14));
    }
}

#[test]
fn the_two_inputs() {
    let (first, second) = (([0, -1], 1), ([0, -2], 2));
    let [both, one, other] = [&[first, second][..], &[first], &[second]].map(enabling);
    // AX 16, AX 17, and either.
    let mut formulas = next_sixteen_next_seventeen();
    formulas.push(Formula::Or(2, 3));
    let rows: [(&[u8], [Verdict; 3]); 5] = [
        (&[4], [Verdict::Fails(0), Verdict::Yes, Verdict::Yes]),
        (&[2, 3], [Verdict::Fails(0), Verdict::Fails(1), Verdict::Fails(0)]),
        (&[3, 2], [Verdict::Fails(0), Verdict::Fails(0), Verdict::Fails(1)]),
        (&[4, 2], [Verdict::Fails(0), Verdict::Yes, Verdict::Fails(1)]),
        (&[4, 4, 3], [Verdict::Fails(0), Verdict::Fails(2), Verdict::Yes]),
    ];
    for (rules, expected) in rows {
        let design = two_inputs(formulas.clone(), rules.to_vec());
        let verdicts = [&both, &one, &other].map(|converter| answered_well(&design, converter));
        assert_eq!(verdicts, expected, "{rules:?}");
    }
}

#[test]
fn other_rows_of_the_specification() {
    // A(true U 1): s0 may wait for ever.
    let formulas = vec![Formula::True, Formula::Proposition(1), Formula::Until(0, 1)];
    assert_eq!(answered_well(&handshake(formulas, vec![0, 2]), &figure_five()), Verdict::Fails(1));
    let turning = vec![record([0], &[([0], 1)]), record([1], &[([0], 0)])];
    assert_eq!(answered_well(&ticking_in_turn(), &turning), Verdict::Yes);
    let converter = lock_and_menu_converter();
    assert_eq!(answered_well(&lock_and_menu(), &converter), Verdict::Yes);
    for mistaken in mistaken_labels() {
        assert_eq!(answered_well(&mistaken, &converter), Verdict::Fails(0));
    }
    assert_eq!(answered_well(&wait_leading_to(1), &leading_on()), Verdict::Yes);
}

/// Formulas of which those with even numbers hold at the start of H under F, and no others.
fn every_other_holds() -> Vec<Formula> {
    vec![
        Formula::True,
        Formula::False,
        Formula::Proposition(0),
        Formula::Proposition(1),
        // s0 is there at once; s1 may never come.
        Formula::Until(0, 2),
        Formula::Until(0, 3),
        // The kernel is in s0 or s1, and never in both; from s0 it may go to s1.
        Formula::Or(3, 2),
        Formula::And(2, 3),
        Formula::Next(6),
        Formula::Next(2),
        Formula::Always(6),
        Formula::Always(2),
    ]
}

/// What is said of F where these are the rules of H.
fn with_rules_of_h(rules: &[u8]) -> Verdict {
    answered_well(&handshake(every_other_holds(), rules.to_vec()), &figure_five())
}

#[test]
fn the_first_that_fails_is_blamed() {
    // Every set of places of ten rules, and every two of sixteen.
    for bits in 0..1_u32 << 10 {
        let rules: Vec<u8> =
            (0..10).map(|at| 2 * (at % 6) + u8::from(bits >> at & 1 == 1)).collect();
        let place = bits.trailing_zeros() as usize;
        let expected = if bits == 0 { Verdict::Yes } else { Verdict::Fails(place) };
        assert_eq!(with_rules_of_h(&rules), expected, "{rules:?}");
    }
    for (first, second) in (0..16).flat_map(|first| (first..16).map(move |second| (first, second)))
    {
        let mut rules = vec![8; 16];
        (rules[first], rules[second]) = (5, 11);
        assert_eq!(with_rules_of_h(&rules), Verdict::Fails(first), "{rules:?}");
    }
}

#[test]
fn a_place_is_one_among_the_rules() {
    // Not a formula's number, and not in the order of the formulas.
    let rows: [(&[u8], Verdict); 13] = [
        (&[], Verdict::Yes),
        (&[10, 8, 6, 4, 2, 0], Verdict::Yes),
        (&[0, 1, 2, 3, 4, 5, 6, 7, 8, 9, 10, 11], Verdict::Fails(1)),
        (&[11, 10, 9, 8, 7, 6, 5, 4, 3, 2, 1, 0], Verdict::Fails(0)),
        (&[10, 9, 8, 7, 6, 5, 4, 3, 2, 1, 0], Verdict::Fails(1)),
        (&[8, 6, 4, 11, 2, 1], Verdict::Fails(3)),
        (&[10, 8, 1], Verdict::Fails(2)),
        // One rule twice, whether it holds or fails.
        (&[5, 5], Verdict::Fails(0)),
        (&[4, 5, 4, 5], Verdict::Fails(1)),
        (&[4, 4, 4, 9], Verdict::Fails(3)),
        (&[1; 16], Verdict::Fails(0)),
        (&[4; 16], Verdict::Yes),
        (&[0, 0, 0, 0, 0, 0, 0, 0, 0, 0, 0, 0, 0, 0, 0, 1], Verdict::Fails(15)),
    ];
    for (rules, expected) in rows {
        assert_eq!(with_rules_of_h(rules), expected, "{rules:?}");
    }
    // Without formulas there are no rules.
    assert_eq!(answered_well(&handshake(vec![], vec![]), &figure_five()), Verdict::Yes);
}

#[test]
fn from_each_state_of_a_row() {
    // 0 to 1, 1 to itself or 2, 2 to 3, 3 to itself. In state 2 proposition 1 holds, in state 3
    // both 0 and 1.
    let next: [&[usize]; 4] = [&[1], &[1, 2], &[3], &[3]];
    let labels = [0, 0, 2, 3];
    // Each formula with the states in which it holds.
    let rows: [(Formula, &[usize]); 22] = [
        (Formula::Proposition(0), &[3]),
        (Formula::Proposition(1), &[2, 3]),
        (Formula::NotProposition(1), &[0, 1]),
        (Formula::True, &[0, 1, 2, 3]),
        (Formula::False, &[]),
        (Formula::Next(1), &[2, 3]),
        (Formula::Next(2), &[0]),
        (Formula::Always(1), &[2, 3]),
        (Formula::Always(2), &[]),
        // State 1 may stay; state 0 is never there again.
        (Formula::Until(3, 1), &[2, 3]),
        (Formula::Until(3, 6), &[0]),
        // The first part on the way, or nowhere.
        (Formula::Until(1, 0), &[2, 3]),
        (Formula::Until(2, 0), &[3]),
        (Formula::Until(4, 1), &[2, 3]),
        (Formula::Until(2, 7), &[2, 3]),
        (Formula::Always(9), &[2, 3]),
        (Formula::And(2, 6), &[0]),
        (Formula::Or(6, 1), &[0, 2, 3]),
        (Formula::Always(17), &[2, 3]),
        // State 3 stays where it is.
        (Formula::Until(17, 2), &[0, 1]),
        (Formula::Or(2, 5), &[0, 1, 2, 3]),
        (Formula::Always(20), &[0, 1, 2, 3]),
    ];
    let formulas = rows.map(|(formula, _)| formula);
    for start in 0..4 {
        // Record 0 is the start's, which changes places with state 0.
        let place = |at: usize| match at {
            0 => start,
            _ if at == start => 0,
            _ => at,
        };
        let records: Vec<(u8, Vec<usize>)> = (0..4)
            .map(|at| (at as u8, next[place(at)].iter().map(|&to| place(to)).collect()))
            .collect();
        let sides = free_sides(from_fn(|at| if at < 4 { labels[place(at)] } else { 0 }));
        for pair in (0..rows.len() * rows.len()).map(|at| [at / rows.len(), at % rows.len()]) {
            let fails = |&rule: &usize| !rows[rule].1.contains(&start);
            let expected = pair.iter().position(fails).map_or(Verdict::Yes, Verdict::Fails);
            let rules = pair.map(|rule| rule as u8).to_vec();
            let design = Design { sides: sides.clone(), formulas: formulas.to_vec(), rules };
            assert_eq!(answered_well(&design, &drawn(&records)), expected, "{pair:?} at {start}");
        }
    }
}

#[test]
fn rows_of_small_structures() {
    // In each of them some path comes to a record with 0.
    let [truth, goal, until] = TRUE_UNTIL_0;
    let formulas = [truth, goal, until, Formula::NotProposition(0), Formula::Always(3)];
    for (records, ticks) in small_structures() {
        let place = if ticks.is_some() { 1 } else { 0 };
        let verdict = answered_well(&free_design(&formulas, &[2, 4]), &drawn(&records));
        assert_eq!(verdict, Verdict::Fails(place), "{records:?}");
        let verdict = answered_well(&free_design(&formulas, &[0, 2]), &drawn(&records));
        let expected = if ticks.is_some() { Verdict::Yes } else { Verdict::Fails(1) };
        assert_eq!(verdict, expected, "{records:?}");
    }
}

#[test]
fn an_always_that_a_way_back_breaks() {
    // 0 holds at record 2 alone. From record 1 a path gets there by way of the start, and a path
    // between these two never comes to where 0 doesn't hold any more.
    let formulas =
        [Formula::True, Formula::NotProposition(0), Formula::Always(1), Formula::Until(0, 2)];
    let design = free_design(&formulas, &[0, 3]);
    for from_start in [vec![1, 2], vec![2, 1]] {
        let mut records = vec![(0, from_start), (0, vec![0]), (1, vec![3]), (0, vec![3])];
        assert_eq!(answered_well(&design, &drawn(&records)), Verdict::Fails(1), "{records:?}");
        // Where record 1 leads on instead, every path comes there.
        records[1].1 = vec![3];
        assert_eq!(answered_well(&design, &drawn(&records)), Verdict::Yes, "{records:?}");
    }
}

#[test]
fn long_paths() {
    let formulas = [
        Formula::True,
        Formula::Proposition(0),
        Formula::Until(0, 1),
        Formula::NotProposition(0),
        Formula::Always(3),
        Formula::Always(2),
        Formula::Always(1),
        Formula::Until(3, 6),
        Formula::Until(3, 4),
    ];
    let said = |records: &[(u8, Vec<usize>)], rules: &[u8]| {
        answered_well(&free_design(&formulas, rules), &drawn(records))
    };
    // 0 comes and stays.
    for records in [chain(65_536), braid(65_536, 8)] {
        assert_eq!(said(&records, &[2, 5, 7]), Verdict::Yes);
        assert_eq!(said(&records, &[7, 5, 2, 8, 4]), Verdict::Fails(3));
        assert_eq!(said(&records, &[5, 4]), Verdict::Fails(1));
    }
    // A ring: 0 comes again and again, and never stays.
    let mut ring = chain(65_536);
    ring[65_535].1 = vec![0];
    assert_eq!(said(&ring, &[2, 5, 7]), Verdict::Fails(2));
    // 0 never comes.
    ring[65_535].0 = 0;
    assert_eq!(said(&ring, &[4, 8]), Verdict::Yes);
    assert_eq!(said(&ring, &[4, 8, 2]), Verdict::Fails(2));
}

#[test]
fn deep_formulas() {
    // Each of 63 formulas has the one before it twice.
    let joined: [fn(usize, usize) -> Formula; 3] = [Formula::And, Formula::Or, Formula::Until];
    for join in joined {
        for (first, expected) in [
            (Formula::NotProposition(0), Verdict::Yes),
            (Formula::Proposition(0), Verdict::Fails(0)),
        ] {
            let formulas: Vec<Formula> =
                [first].into_iter().chain((0..63).map(|below| join(below, below))).collect();
            let design = free_design(&formulas, &[63]);
            assert_eq!(answered_well(&design, &drawn(&[(0, vec![0])])), expected);
        }
    }
    // AX 63 times: in a braid of eight strands, record 504 is as far as 63 ticks go.
    let next: Vec<Formula> = (0..63).map(Formula::Next).collect();
    let formulas = [&[Formula::NotProposition(0)], &next[..]].concat();
    let design = free_design(&formulas, &[63]);
    assert_eq!(answered_well(&design, &drawn(&braid(506, 8))), Verdict::Yes);
    assert_eq!(answered_well(&design, &drawn(&braid(505, 8))), Verdict::Fails(0));
}

#[test]
fn every_set_of_faults() {
    let tried = [1, 2, 3, 4, 5, 6, 7, 8, 10, 11, 13, 14, 15];
    let mut answers: BTreeMap<u8, usize> = BTreeMap::new();
    for set in subsets(&tried) {
        let wrong = |number: u8| set.contains(&number);
        let design = ruled_handshake(wrong(15));
        let converter = figure_five_with_faults(wrong);
        let work = 48 - usize::from(wrong(13));
        let first = set.first().copied();
        let expected = match first {
            None => Verdict::Yes,
            Some(15) => Verdict::Fails(3),
            Some(number) => Verdict::Refused(number),
        };
        // With a list that is too short, the judge says 12 from 13 on.
        let short = first.filter(|&number| number < 12).unwrap_or(12);
        for (bytes, side) in [(design.to_bytes(), 1), (design.to_five_blocks(), 2)] {
            let bytes = with_faults(bytes, side, wrong);
            assert_eq!(answered(&bytes, &converter, work), expected, "{set:?}");
            assert_eq!(judged_waits(&bytes, &converter, work, 3), Err(short), "{set:?}");
        }
        *answers.entry(first.unwrap_or(0)).or_default() += 1;
    }
    // Of all sets half have the first number, of the others half have the second, and so on.
    let halves = tried.iter().enumerate().map(|(at, &number)| (number, 1 << (12 - at)));
    assert_eq!(answers, halves.chain([(0, 1)]).collect());
}

#[test]
fn lengths_of_the_work() {
    let converter = converter_bytes(&figure_five());
    for (as_printed, expected) in [(false, Verdict::Yes), (true, Verdict::Fails(3))] {
        let design = ruled_handshake(as_printed).to_bytes();
        for work in 0..=48 + BEYOND {
            let expected = if work < 48 { Verdict::Refused(13) } else { expected };
            assert_eq!(answered(&design, &converter, work), expected, "{work}");
        }
    }
}

/// The design with other rules: its last block is written anew, with its check.
fn with_rules(design: &[u8], rules: &[u8]) -> Vec<u8> {
    let mut bytes = design.to_vec();
    let start = bytes.len() - 512;
    let block = &mut bytes[start..];
    block[1] = rules.len() as u8;
    block[4..510].fill(0);
    block[4..4 + rules.len()].copy_from_slice(rules);
    seal(block);
    bytes
}

/// What was compared.
#[derive(Debug, Default)]
struct Compared {
    /// Answers by their number, where a yes is 0.
    answers: BTreeMap<u8, usize>,
    /// Rules to blame, by their place.
    places: [usize; 16],
    /// Those behind which another rule fails, and those behind which one with a lower number does.
    before_others: [usize; 2],
    /// Formulas of kinds 8 and 9 at a record, those that hold and those that fail.
    records: [usize; 2],
}

impl Compared {
    /// Holds the verdict against the judge's.
    fn count(&mut self, design: &[u8], converter: &[u8], work: usize) -> Verdict {
        let judged = judged(design, converter, work);
        let verdict = answered(design, converter, work);
        assert_eq!(verdict.unblamed(), judged, "{design:?} {converter:?} {work}");
        *self.answers.entry(judged.err().unwrap_or(0)).or_default() += 1;
        if let Verdict::Fails(place) = verdict {
            self.blamed(design, converter, work, place);
        }
        verdict
    }

    /// Holds the rule to blame against the judge: with the rules before it alone it says yes, and
    /// with this one alone 15.
    fn blamed(&mut self, design: &[u8], converter: &[u8], work: usize, place: usize) {
        let made = read_design(design).expect("it was judged");
        let rules = &made.rules;
        let judged = |rules: &[u8]| judged(&with_rules(design, rules), converter, work);
        assert_eq!(judged(&rules[..place]), Ok(()), "{design:?} {converter:?}");
        assert_eq!(judged(&rules[place..=place]), Err(15), "{design:?} {converter:?}");
        let records = read_converter_memory(converter).expect("it was judged");
        let failing = failing_rules(&made, &records);
        assert_eq!(failing[0], place, "{design:?} {converter:?}");
        self.places[place] += 1;
        self.before_others[0] += usize::from(failing.len() > 1);
        let lower = failing.iter().any(|&other| rules[other] < rules[place]);
        self.before_others[1] += usize::from(lower);
    }

    /// Asks for every formula at every record, in any order, and holds it against the states in
    /// which it holds.
    fn every_record(&mut self, random: &mut Random, design: &Design, converter: &[Record]) {
        let holding = model(design, converter).holding(&design.formulas);
        let mut asked: Vec<(usize, usize)> = (0..design.formulas.len())
            .flat_map(|formula| (0..converter.len()).map(move |record| (formula, record)))
            .collect();
        random.shuffle(&mut asked);
        let mut paths = Paths::new(design, converter);
        for (formula, record) in asked {
            let holds = paths.holds(formula, record);
            let expected = holding[formula].contains(&record);
            assert_eq!(holds, expected, "{formula} at {record} of {design:?} under {converter:?}");
            if matches!(design.formulas[formula], Formula::Until(..) | Formula::Always(_)) {
                self.records[usize::from(!holds)] += 1;
            }
        }
    }
}

/// How much work is lent: too little, as much as is demanded, or more.
fn any_work(random: &mut Random, converter: &[u8]) -> usize {
    let demanded = 16 * (converter.len() / 52);
    match random.below(10) {
        0 => random.below(demanded.max(1)),
        1..=5 => demanded,
        _ => demanded + random.from_to(1, BEYOND),
    }
}

#[test]
fn random_designs_and_converters() {
    let mut random = Random::new(61);
    let mut compared = Compared::default();
    for _ in 0..12_000 {
        let made = any_design(&mut random);
        let mut bytes = any_bytes(&mut random, &made);
        if random.once_in(3) {
            damage(&mut random, &mut bytes);
        }
        let converter = any_converter(&mut random, &made);
        let work = any_work(&mut random, &converter);
        compared.count(&bytes, &converter, work);
    }
    println!("{compared:?}");
    let come = [0, 1, 2, 3, 4, 5, 6, 7, 8, 10, 11, 13, 14, 15];
    assert!(compared.answers.keys().eq(&come), "{compared:?}");
    assert!(compared.answers.values().all(|&times| times > 10), "{compared:?}");
}

/// Gives a design up to sixteen rules, of which the first few hold under a converter.
fn rule(random: &mut Random, design: &mut Design, converter: &[Record]) {
    let holding = model(design, converter).holding(&design.formulas);
    let holds = |number: &u8| holding[usize::from(*number)].contains(&0);
    let all: Vec<u8> = (0..design.formulas.len() as u8).collect();
    let held: Vec<u8> = all.iter().copied().filter(holds).collect();
    let count = random.from_to(1, 16).max(random.from_to(1, 16));
    let few = random.below(count + 1);
    let pool = |at: usize| if at < few && !held.is_empty() { &held } else { &all };
    design.rules = (0..count).map(|at| *random.pick(pool(at))).collect();
}

#[test]
fn random_rules_to_blame() {
    let mut random = Random::new(62);
    let mut compared = Compared::default();
    let shapes = [
        Shape::TINY,
        Shape::SMALL,
        Shape { states: 8, formulas: 20, ..Shape::SMALL },
        Shape { formulas: 64, ..Shape::SMALL },
    ];
    for round in 0..10_000 {
        let shape = &shapes[round % shapes.len()];
        let mut made = ruled_design(&mut random, shape);
        let spare = random.below(12);
        let converter = matched_converter(&mut random, &made, spare);
        rule(&mut random, &mut made, &converter);
        let bytes = any_bytes(&mut random, &made);
        compared.count(&bytes, &converter_bytes(&converter), 16 * converter.len());
        compared.every_record(&mut random, &made, &converter);
    }
    check_blames(&compared);
}

#[test]
fn random_chains_and_braids() {
    let mut random = Random::new(63);
    let mut compared = Compared::default();
    let shape = Shape { sides: 1, ..Shape::SMALL };
    for _ in 0..8_000 {
        let records = random.from_to(1, 40);
        let converter = drawn(&leading_far(&mut random, records));
        let sides = free_sides(from_fn(|_| random.below(8) as u16));
        let count = random.from_to(1, 20);
        let formulas = formulas(&mut random, &shape, count);
        let mut made = Design { sides, formulas, rules: vec![] };
        rule(&mut random, &mut made, &converter);
        let bytes = any_bytes(&mut random, &made);
        compared.count(&bytes, &converter_bytes(&converter), 16 * converter.len());
        compared.every_record(&mut random, &made, &converter);
    }
    check_blames(&compared);
}

/// Shows what was compared. Every place was blamed, and both answers came.
fn check_blames(compared: &Compared) {
    println!("{compared:?}");
    let Compared { answers, places, before_others, records } = compared;
    assert!(answers.keys().eq(&[0, 15]), "{answers:?}");
    assert!(answers.values().chain(before_others).all(|&times| times > 1_000), "{compared:?}");
    assert!(places.iter().all(|&times| times > 30), "{places:?}");
    assert!(records.iter().all(|&times| times > 100_000), "{records:?}");
}

#[test]
fn verdicts_kept_as_data() {
    let mut compared = Compared::default();
    for (number, kept) in kept().iter().enumerate() {
        let converter = converter_bytes(&kept.converter);
        let work = 16 * kept.converter.len() + BEYOND;
        let verdict = compared.count(&kept.design.to_bytes(), &converter, work);
        assert_eq!(verdict.unblamed(), kept.judged, "{number}");
    }
    println!("{compared:?}");
    assert_eq!(compared.answers, BTreeMap::from([(0, 449), (14, 162), (15, 389)]));
}
