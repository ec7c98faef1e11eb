//! How long rules wait: rows by hand, the list's length and its place among the refusals, and
//! random converters, whose waits are found again by rounds and by their paths.

mod samples;

use std::array::from_fn;

use checker::bytes::{converter_bytes, read_design, Design, Formula, Record, State, SIDES};
use checker::ctl::{Model, States};
use checker::generate::{any_bytes, design, matched_converter, Random, Shape};
use checker::judge::model;
use checker::waits::wait;
use samples::{
    figure_five, handshake, judged_waits, leading_on, lock_and_menu, lock_and_menu_converter,
    numbers, record, searched, state, thumbnails, ticking_in_turn, viewer_once, wait_leading_to,
    with_faults, BEYOND,
};

/// What a rule gets that isn't of kind 8.
const OTHER: u32 = 4_294_967_295;

/// Judges with work and a list to spare, and answers the rules' numbers.
fn waits(design: &Design, converter: &[Record]) -> Result<Vec<u32>, u8> {
    let work = 16 * converter.len() + BEYOND;
    judged_waits(&design.to_bytes(), &converter_bytes(converter), work, design.rules.len() + BEYOND)
}

/// Sides that leave it to the converter where to go: each of the kernel's eight states goes to
/// state n where it reads n, and the host has one state, which reads any of 0 to 7.
fn free_sides(labels: [u16; 8]) -> [Vec<State>; SIDES] {
    let to_each: Vec<(i8, u8)> = (0..8).map(|number| (number, number as u8)).collect();
    let kernel = labels.map(|label| State { label, ..state(&[], &to_each) }).to_vec();
    let host = state(&[], &to_each.iter().map(|&(event, _)| (event, 0)).collect::<Vec<_>>());
    [kernel, vec![host], vec![state(&[], &[(0, 0)])]]
}

/// A converter for free sides: for each record the kernel's state, and the records to which its
/// transitions lead.
fn drawn(records: &[(u8, Vec<usize>)]) -> Vec<Record> {
    let drawn_record = |(named, next): &(u8, Vec<usize>)| {
        let link = |(place, &to): (usize, &usize)| {
            ([-(records[to].0 as i8), -(place as i8), 0], to as u16)
        };
        let links: Vec<([i8; SIDES], u16)> = next.iter().enumerate().map(link).collect();
        record([*named, 0, 0], &links)
    };
    records.iter().map(drawn_record).collect()
}

/// Judges a drawn converter whose rules are these formulas. The number of the kernel's state is
/// its label word, so that no proposition holds at the start.
fn drawn_waits(
    records: &[(u8, Vec<usize>)],
    formulas: &[Formula],
    rules: &[u8],
) -> Result<Vec<u32>, u8> {
    let sides = free_sides(from_fn(|number| number as u16));
    let design = Design { sides, formulas: formulas.to_vec(), rules: rules.to_vec() };
    waits(&design, &drawn(records))
}

/// Number 2 is A(true U 0).
const TRUE_UNTIL_0: [Formula; 3] = [Formula::True, Formula::Proposition(0), Formula::Until(0, 1)];

/// A chain: each record leads to the next, and 0 holds at the last alone, which stays.
fn chain(records: usize) -> Vec<(u8, Vec<usize>)> {
    let last = records - 1;
    (0..records).map(|at| (u8::from(at == last), vec![(at + 1).min(last)])).collect()
}

#[test]
fn chains() {
    for (records, ticks) in [(2, 1), (3, 2), (100, 99), (5_000, 4_999), (65_536, 65_535)] {
        assert_eq!(drawn_waits(&chain(records), &TRUE_UNTIL_0, &[2]), Ok(vec![ticks]));
    }
}

#[test]
fn a_braid() {
    // Each record leads to the next eight, and the slowest path goes through all.
    let last = 65_535;
    let next = |at: usize| (1..=8).map(|more| (at + more).min(last)).collect();
    let braid: Vec<_> = (0..=last).map(|at| (u8::from(at == last), next(at))).collect();
    assert_eq!(drawn_waits(&braid, &TRUE_UNTIL_0, &[2]), Ok(vec![65_535]));
}

#[test]
fn small_structures() {
    // The kernel's states and the next records; 0 holds in states 1 and 3.
    let rows: [(&[(u8, &[usize])], u32); 15] = [
        (&[(0, &[1]), (1, &[1])], 1),
        (&[(0, &[1]), (0, &[2]), (1, &[2])], 2),
        // Back to the start, or where it doesn't hold any more, once it has held.
        (&[(0, &[1]), (1, &[0])], 1),
        (&[(0, &[1]), (1, &[2]), (0, &[2])], 1),
        // Two transitions to one record.
        (&[(0, &[1, 1]), (1, &[1])], 1),
        (&[(0, &[1, 1]), (2, &[2, 2]), (3, &[0])], 2),
        // Two ends, and two ways to one end.
        (&[(0, &[1, 2]), (1, &[1]), (3, &[2])], 1),
        (&[(0, &[1, 2]), (0, &[3]), (2, &[3]), (1, &[3])], 2),
        // A short way and a long one, whichever stands first.
        (&[(0, &[1, 3]), (0, &[2]), (0, &[3]), (1, &[3])], 3),
        (&[(0, &[3, 1]), (0, &[2]), (0, &[3]), (1, &[3])], 3),
        (&[(0, &[1, 3]), (1, &[1]), (1, &[2]), (0, &[2])], 2),
        // Record 2 comes after one tick and again after two; below, record 3 after two to four.
        (&[(0, &[1, 2]), (0, &[2]), (0, &[3]), (1, &[3])], 3),
        (&[(0, &[2, 1, 4]), (0, &[4]), (0, &[1, 3]), (1, &[3]), (0, &[3])], 4),
        // Records that nothing leads to: for ever without 0, and longer on the way to it.
        (&[(0, &[1]), (1, &[1]), (0, &[2])], 1),
        (&[(0, &[2]), (0, &[0]), (1, &[2]), (0, &[1])], 1),
    ];
    for (records, ticks) in rows {
        let records: Vec<_> = records.iter().map(|(named, next)| (*named, next.to_vec())).collect();
        assert_eq!(drawn_waits(&records, &TRUE_UNTIL_0, &[2]), Ok(vec![ticks]), "{records:?}");
    }
    // Where a path stays without 0, the rule fails.
    let rows: [&[(u8, &[usize])]; 4] = [
        &[(0, &[0, 1]), (1, &[1])],
        &[(0, &[1, 2]), (1, &[1]), (0, &[2])],
        &[(0, &[1, 2]), (2, &[0]), (1, &[1])],
        &[(0, &[1, 3]), (0, &[2]), (0, &[1]), (1, &[3])],
    ];
    for records in rows {
        let records: Vec<_> = records.iter().map(|(named, next)| (*named, next.to_vec())).collect();
        assert_eq!(drawn_waits(&records, &TRUE_UNTIL_0, &[2]), Err(15), "{records:?}");
    }
}

#[test]
fn at_every_state_of_a_row() {
    // 0 to 1, 1 to itself or 2, 2 to 3, 3 to itself.
    let next = vec![vec![1], vec![1, 2], vec![3], vec![3]];
    let row = Model::new(vec![[0; SIDES]; 4], next);
    let all: &[usize] = &[0, 1, 2, 3];
    // The first part's states, the second part's, and how long each state waits.
    let rows: [(&[usize], &[usize], [Option<usize>; 4]); 7] = [
        (all, &[3], [None, None, Some(1), Some(0)]),
        (all, &[2], [None, None, Some(0), None]),
        (all, &[1], [Some(1), Some(0), None, None]),
        (all, &[1, 3], [Some(1), Some(0), Some(1), Some(0)]),
        (all, &[], [None; 4]),
        (&[], &[1, 3], [None, Some(0), None, Some(0)]),
        (&[0], &[1, 3], [Some(1), Some(0), None, Some(0)]),
    ];
    for (a, b, expected) in rows {
        let [first, second] = [a, b].map(|part| part.iter().copied().collect::<States>());
        assert_eq!(from_fn(|state| wait(&row, state, &first, &second)), expected, "{a:?} {b:?}");
    }
}

#[test]
fn reached_at_the_start() {
    // Nothing is asked of what comes after the start, nor of the first part.
    let formulas = [
        Formula::True,
        Formula::False,
        Formula::NotProposition(0),
        Formula::Until(0, 2),
        Formula::Until(1, 2),
        Formula::Until(2, 0),
    ];
    for records in [vec![(0, vec![0])], chain(2), chain(100), vec![(0, vec![1]), (1, vec![1, 0])]] {
        let answer = drawn_waits(&records, &formulas, &[3, 4, 5]);
        assert_eq!(answer, Ok(vec![0, 0, 0]), "{records:?}");
    }
}

#[test]
fn the_first_part_decides_and_counts_for_nothing() {
    let formulas = [Formula::NotProposition(1), Formula::Proposition(0), Formula::Until(0, 1)];
    let through = |middle: u8, end: u8| vec![(0, vec![1]), (middle, vec![2]), (end, vec![2])];
    assert_eq!(drawn_waits(&through(0, 1), &formulas, &[2]), Ok(vec![2]));
    assert_eq!(drawn_waits(&through(4, 1), &formulas, &[2]), Ok(vec![2]));
    // At the end both parts may hold, or the second alone; on the way the first has to.
    assert_eq!(drawn_waits(&through(0, 3), &formulas, &[2]), Ok(vec![2]));
    assert_eq!(drawn_waits(&through(2, 1), &formulas, &[2]), Err(15));
}

#[test]
fn each_kind_of_rule() {
    // On a chain of a hundred records, whose last alone has 0.
    let rows: Vec<(Formula, Option<u32>)> = vec![
        (Formula::True, Some(OTHER)),
        (Formula::Proposition(0), None),
        (Formula::Until(0, 1), Some(99)),
        (Formula::NotProposition(0), Some(OTHER)),
        // One tick and two ticks earlier, and where it holds from then on.
        (Formula::Next(1), None),
        (Formula::Until(0, 4), Some(98)),
        (Formula::Next(4), None),
        (Formula::Until(3, 6), Some(97)),
        (Formula::Always(1), None),
        (Formula::Until(3, 8), Some(99)),
        // An until of an until, which holds at once.
        (Formula::Until(0, 2), Some(0)),
        (Formula::Until(2, 1), Some(99)),
        // Untils inside other formulas.
        (Formula::And(2, 5), Some(OTHER)),
        (Formula::Or(2, 1), Some(OTHER)),
        (Formula::Next(2), Some(OTHER)),
        (Formula::Always(2), Some(OTHER)),
        (Formula::And(2, 2), Some(OTHER)),
        // The same formula under another number.
        (Formula::Until(0, 1), Some(99)),
    ];
    let formulas: Vec<Formula> = rows.iter().map(|row| row.0).collect();
    for (number, &(formula, expected)) in rows.iter().enumerate() {
        let expected = expected.map(|number| vec![number]).ok_or(15);
        let answer = drawn_waits(&chain(100), &formulas, &[number as u8]);
        assert_eq!(answer, expected, "{formula:?}");
    }
    // All of those that hold, in one list; at most sixteen rules.
    let holding = || rows.iter().enumerate().filter_map(|(number, row)| Some((number, row.1?)));
    let (rules, expected): (Vec<u8>, Vec<u32>) =
        holding().map(|(number, wait)| (number as u8, wait)).unzip();
    assert!(rules.len() < 16);
    assert_eq!(drawn_waits(&chain(100), &formulas, &rules), Ok(expected.clone()));
    // The order of the list is that of the rules, not of the formulas.
    let turned: Vec<u8> = rules.iter().rev().copied().collect();
    let expected: Vec<u32> = expected.into_iter().rev().collect();
    assert_eq!(drawn_waits(&chain(100), &formulas, &turned), Ok(expected));
    // One rule twice, beside a rule that has it inside.
    let twice = drawn_waits(&chain(100), &formulas, &[2, 15, 2, 12, 2]);
    assert_eq!(twice, Ok(vec![99, OTHER, 99, OTHER, 99]));
}

#[test]
fn rows_of_the_specification() {
    // H and F: 0 and 18 hold at the start, where s0 may wait for ever.
    let formulas = vec![
        Formula::True,
        Formula::Proposition(0),
        Formula::Proposition(1),
        Formula::Proposition(18),
        Formula::Until(0, 1),
        Formula::Until(2, 3),
        Formula::Until(0, 2),
        Formula::Always(0),
    ];
    let with_rules = |rules: &[u8]| handshake(formulas.clone(), rules.to_vec());
    assert_eq!(waits(&with_rules(&[4, 5, 7]), &figure_five()), Ok(vec![0, 0, OTHER]));
    assert_eq!(waits(&with_rules(&[4, 6]), &figure_five()), Err(15));
    // Two states that tick to each other: the untils stand as rules and inside the third.
    let turning = vec![record([0], &[([0], 1)]), record([1], &[([0], 0)])];
    let design = Design { rules: vec![3, 4, 6], ..ticking_in_turn() };
    assert_eq!(waits(&design, &turning), Ok(vec![0, 1, OTHER]));
    // Lock and menu under T: the menu is open one tick later, the lock is held at first.
    let mut design = lock_and_menu();
    design.formulas.extend([Formula::True, Formula::Until(3, 1), Formula::Until(1, 0)]);
    design.rules.extend([4, 5]);
    assert_eq!(waits(&design, &lock_and_menu_converter()), Ok(vec![OTHER, OTHER, 1, 0]));
    // Both the send and the wait lead on.
    assert_eq!(waits(&wait_leading_to(1), &leading_on()), Ok(vec![1]));
    // The viewer: the picture comes at once where v0 waits, else after v1.
    let converter = vec![
        record([0, 0, 0], &[([0, -1, 0], 1), ([0, 0, 1], 2)]),
        record([0, 1, 0], &[([0, 0, 0], 0), ([0, 0, 1], 2)]),
        record([0, 0, 1], &[([0, -1, 2], 1)]),
    ];
    assert_eq!(waits(&viewer_once(thumbnails(false)), &converter), Ok(vec![2]));
}

#[test]
fn h_waits_as_long_as_its_range_says() {
    // s0 sends after its greatest count of waits at the latest; s1 comes with the send. No
    // converter changes this.
    for greatest in 0..=14 {
        for least in [0, greatest / 2, greatest] {
            let formulas = vec![Formula::True, Formula::Proposition(1), Formula::Until(0, 1)];
            let old = handshake(formulas, vec![2]);
            let mut new = vec![0; 2_048];
            assert_eq!(
                checker::ranges(&old.to_bytes(), &[0, 0, least, greatest], &mut new),
                Ok(())
            );
            let new = read_design(&new).expect("it is sound");
            let converter = searched(&new).expect("s0 doesn't wait for ever");
            assert_eq!(waits(&new, &converter), Ok(vec![u32::from(greatest) + 1]), "{least}");
        }
    }
}

/// H under F with these lengths of work and of the list.
fn lent(rules: &[u8], work: usize, list: usize) -> Result<Vec<u32>, u8> {
    let design = handshake(TRUE_UNTIL_0.to_vec(), rules.to_vec());
    judged_waits(&design.to_bytes(), &converter_bytes(&figure_five()), work, list)
}

#[test]
fn lengths_of_the_list() {
    for rules in 0..=16 {
        let named: Vec<u8> = (0..rules).map(|at| [2, 0][at % 2]).collect();
        let expected: Vec<u32> = (0..rules).map(|at| [0, OTHER][at % 2]).collect();
        for list in 0..=18 {
            let answer = if list < rules { Err(12) } else { Ok(expected.clone()) };
            assert_eq!(lent(&named, 48, list), answer, "{rules} {list}");
            // It comes before too little work.
            let answer = if list < rules { Err(12) } else { Err(13) };
            assert_eq!(lent(&named, 47, list), answer, "{rules} {list}");
        }
    }
    // Without rules the list may be empty, and one that isn't stays as it is.
    let design = handshake(vec![], vec![]).to_bytes();
    let converter = converter_bytes(&figure_five());
    assert_eq!(checker::judge(&design, &converter, &mut [0; 48], &mut []), Ok(()));
    let mut list = numbers(3);
    assert_eq!(checker::judge(&design, &converter, &mut [0; 48], &mut list), Ok(()));
    assert_eq!(list, numbers(3));
    // Behind the rules' numbers too.
    let design = handshake(TRUE_UNTIL_0.to_vec(), vec![2, 0]).to_bytes();
    assert_eq!(checker::judge(&design, &converter, &mut [0; 48], &mut list), Ok(()));
    assert_eq!(list, [0, OTHER, numbers(3)[2]]);
}

/// Every set of some numbers, in their order.
fn subsets(numbers: &[u8]) -> Vec<Vec<u8>> {
    let mut sets = vec![vec![]];
    for &number in numbers {
        let with: Vec<Vec<u8>> = sets.iter().map(|set| [&set[..], &[number]].concat()).collect();
        sets.extend(with);
    }
    sets
}

#[test]
fn order_beside_other_faults() {
    // Whatever is wrong, the lowest number answers, and the list is as it was.
    let of_the_design: Vec<Vec<u8>> =
        [vec![]].into_iter().chain((1..=8).map(|n| vec![n])).collect();
    let others = subsets(&[10, 11, 12, 13, 14, 15]);
    let mut formulas = TRUE_UNTIL_0.to_vec();
    formulas.extend([Formula::Proposition(1), Formula::Until(0, 3)]);
    let mut answered = [0; 16];
    let pairs = of_the_design.iter().flat_map(|a| others.iter().map(move |b| [&a[..], b].concat()));
    for set in pairs {
        let wrong = |number: u8| set.contains(&number);
        let rules = vec![2, if wrong(15) { 4 } else { 2 }, 0];
        let design = handshake(formulas.clone(), rules);
        let mut records = figure_five();
        if wrong(14) {
            records[0].links.pop();
        }
        let mut converter = converter_bytes(&records);
        if wrong(11) {
            converter[52 + 7] = 1;
        }
        if wrong(10) {
            converter.pop();
        }
        let work = 48 - usize::from(wrong(13));
        let list = 3 - usize::from(wrong(12));
        let first = set.first().copied();
        let expected = first.map_or(Ok(vec![0, 0, OTHER]), Err);
        for (bytes, side) in [(design.to_bytes(), 1), (design.to_five_blocks(), 2)] {
            let bytes = with_faults(bytes, side, wrong);
            assert_eq!(judged_waits(&bytes, &converter, work, list), expected, "{set:?}");
        }
        answered[usize::from(first.unwrap_or(0))] += 1;
    }
    // Of the sets of six numbers half have the first, of the others half have the second.
    assert_eq!(answered[10..], [32, 16, 8, 4, 2, 1]);
}

/// How long A(a U b) takes at each state, by rounds: in round 0 the states of `b`, in each later
/// one those of `a` whose next states all came before it.
fn by_rounds(next: &[Vec<usize>], a: &States, b: &States) -> Vec<Option<usize>> {
    let mut rounds: Vec<Option<usize>> =
        (0..next.len()).map(|state| b.contains(&state).then_some(0)).collect();
    for round in 1.. {
        let whole = |&&state: &&usize| {
            let followers = &next[state];
            rounds[state].is_none() && followers.iter().all(|&next| rounds[next].is_some())
        };
        let fresh: Vec<usize> = a.iter().filter(whole).copied().collect();
        if fresh.is_empty() {
            break;
        }
        for state in fresh {
            rounds[state] = Some(round);
        }
    }
    rounds
}

/// Every path from a state goes on by itself until it reaches `b`: the ticks after which none is
/// left, or none where one comes to a state outside both or is longer than there are states. No
/// answer at all where there are too many paths.
fn by_paths(
    next: &[Vec<usize>],
    start: usize,
    a: &States,
    b: &States,
) -> Result<Option<usize>, TooMany> {
    let mut ends = vec![start];
    for ticks in 0..=next.len() {
        ends.retain(|end| !b.contains(end));
        if ends.is_empty() {
            return Ok(Some(ticks));
        }
        if ends.iter().any(|end| !a.contains(end)) {
            return Ok(None);
        }
        if ends.len() > 2_000 {
            return Err(TooMany);
        }
        ends = ends.iter().flat_map(|&end| next[end].iter().copied()).collect();
    }
    Ok(None)
}

/// There are too many paths to follow each.
#[derive(Debug)]
struct TooMany;

/// Whether a formula is an until or has one inside.
fn has_until(formulas: &[Formula], number: usize) -> bool {
    match formulas[number] {
        Formula::Until(..) => true,
        Formula::And(a, b) | Formula::Or(a, b) => has_until(formulas, a) || has_until(formulas, b),
        Formula::Next(a) | Formula::Always(a) => has_until(formulas, a),
        _ => false,
    }
}

/// What was compared.
#[derive(Debug, Default)]
struct Compared {
    /// Designs with a converter and a rule of kind 8.
    judged: usize,
    /// Rules of kind 8, by how long they wait: 0, 1, 2, 3 to 9, 10 and more.
    waits: [usize; 5],
    /// Those whose paths were followed.
    followed: usize,
    /// Those that wait, and for as many ticks as there are records, less one.
    longest: usize,
    /// Rules of other kinds, without an until inside and with one.
    others: [usize; 2],
    /// Untils at a record, those that hold and those that fail.
    records: [usize; 2],
}

impl Compared {
    /// Judges a converter that keeps the rules, and finds each wait by the other ways too. Every
    /// until of the design is held against rounds at every record.
    fn count(&mut self, random: &mut Random, design: &Design, converter: &[Record]) {
        let model = model(design, converter);
        let holding = model.holding(&design.formulas);
        let next: Vec<Vec<usize>> = converter
            .iter()
            .map(|record| record.links.iter().map(|link| usize::from(link.next)).collect())
            .collect();
        let bytes = any_bytes(random, design);
        let list = design.rules.len() + random.below(3);
        let judged = judged_waits(&bytes, &converter_bytes(converter), 16 * converter.len(), list);
        let waits = judged.expect("the rules were chosen among what holds");
        assert_eq!(waits.len(), design.rules.len());
        for (&rule, &wait) in design.rules.iter().zip(&waits) {
            let Formula::Until(a, b) = design.formulas[usize::from(rule)] else {
                assert_eq!(wait, OTHER, "{rule} of {design:?}");
                self.others[usize::from(has_until(&design.formulas, usize::from(rule)))] += 1;
                continue;
            };
            let ticks = wait as usize;
            let rounds = by_rounds(&next, &holding[a], &holding[b]);
            assert_eq!(rounds[0], Some(ticks), "{rule} of {design:?} under {converter:?}");
            if let Ok(slowest) = by_paths(&next, 0, &holding[a], &holding[b]) {
                assert_eq!(slowest, Some(ticks), "{rule} of {design:?} under {converter:?}");
                self.followed += 1;
            }
            assert!(ticks < converter.len(), "{rule} of {design:?} under {converter:?}");
            assert_eq!(ticks == 0, holding[b].contains(&0), "{rule} of {design:?}");
            let sort = match ticks {
                0..=2 => ticks,
                3..=9 => 3,
                _ => 4,
            };
            self.waits[sort] += 1;
            self.longest += usize::from(ticks > 0 && ticks + 1 == converter.len());
        }
        self.judged += 1;
        self.every_record(design, &model, &next, &holding);
    }

    /// Holds every until of a design against rounds, at every record.
    fn every_record(
        &mut self,
        design: &Design,
        model: &Model,
        next: &[Vec<usize>],
        holding: &[States],
    ) {
        for number in design.untils() {
            let Formula::Until(a, b) = design.formulas[number] else { continue };
            let rounds = by_rounds(next, &holding[a], &holding[b]);
            for (state, &ticks) in rounds.iter().enumerate() {
                let found = wait(model, state, &holding[a], &holding[b]);
                assert_eq!(found, ticks, "{number} at {state} of {next:?}");
                assert_eq!(found.is_some(), holding[number].contains(&state), "{number} {state}");
                self.records[usize::from(found.is_none())] += 1;
            }
        }
    }
}

/// Gives a design rules that hold under a converter, of which one at least is of kind 8; or none
/// such holds.
fn ruled(random: &mut Random, design: &mut Design, converter: &[Record], most: usize) -> bool {
    let holding = model(design, converter).holding(&design.formulas);
    let holds = |number: &usize| holding[*number].contains(&0);
    let all: Vec<usize> = (0..design.formulas.len()).filter(holds).collect();
    let untils: Vec<usize> = design.untils().into_iter().filter(holds).collect();
    if untils.is_empty() {
        return false;
    }
    // Mostly untils that aren't met at the start.
    let later: Vec<usize> = untils
        .iter()
        .copied()
        .filter(|&number| match design.formulas[number] {
            Formula::Until(_, b) => !holding[b].contains(&0),
            _ => false,
        })
        .collect();
    let first = if later.is_empty() { &untils } else { &later };
    design.rules = vec![*random.pick(first) as u8];
    for _ in 0..random.below(most) {
        let pool = *random.pick(&[&all, &untils, first]);
        design.rules.push(*random.pick(pool) as u8);
    }
    random.shuffle(&mut design.rules);
    true
}

#[test]
fn random_designs() {
    let mut random = Random::new(51);
    let mut compared = Compared::default();
    let shapes = [
        Shape::TINY,
        Shape::SMALL,
        Shape { states: 8, formulas: 20, rules: 8, ..Shape::SMALL },
        Shape { formulas: 64, rules: 16, ..Shape::SMALL },
    ];
    while compared.judged < 12_000 {
        let shape = random.pick(&shapes);
        let mut made = design(&mut random, shape);
        let spare = random.below(12);
        let converter = matched_converter(&mut random, &made, spare);
        if ruled(&mut random, &mut made, &converter, shape.rules) {
            compared.count(&mut random, &made, &converter);
        }
    }
    println!("{compared:?}");
    let Compared { waits, followed, others, records, .. } = compared;
    assert_eq!(followed, waits.iter().sum::<usize>(), "every path was followed");
    assert!(waits[..4].iter().chain(&others).all(|&rules| rules > 200), "{waits:?} {others:?}");
    assert!(records.iter().all(|&times| times > 100_000), "{records:?}");
}

/// A converter for free sides that mostly leads on, to one of the next few records.
fn leading_far(random: &mut Random, records: usize) -> Vec<(u8, Vec<usize>)> {
    let (reach, back) = (random.from_to(1, 4), random.from_to(5, 200));
    let next = |random: &mut Random, at: usize| {
        if random.once_in(back) {
            random.below(records)
        } else {
            (at + random.from_to(1, reach)).min(records - 1)
        }
    };
    let most = random.from_to(1, 4);
    let mut record = |at: usize| {
        let named = if at == 0 { 0 } else { random.below(8) as u8 };
        let count = random.from_to(1, most);
        (named, (0..count).map(|_| next(random, at)).collect())
    };
    (0..records).map(&mut record).collect()
}

#[test]
fn random_chains_and_braids() {
    let mut random = Random::new(52);
    let mut compared = Compared::default();
    while compared.judged < 10_000 {
        let records = random.from_to(1, 40);
        let drawn_records = leading_far(&mut random, records);
        // The kernel's last states have label 0, and each has one of the others at times.
        let rare = random.from_to(1, 7);
        let labels = from_fn(|number| {
            let others = 2 * u16::from(random.once_in(12)) + 4 * u16::from(random.once_in(3));
            others + u16::from(number > rare)
        });
        let formulas = vec![
            Formula::True,
            Formula::Proposition(0),
            Formula::Until(0, 1),
            Formula::NotProposition(1),
            Formula::Until(3, 1),
            Formula::Proposition(2),
            Formula::And(1, 5),
            Formula::Until(0, 6),
            Formula::Next(1),
            Formula::Until(3, 8),
            Formula::Always(3),
            Formula::Until(2, 7),
            Formula::Always(2),
            Formula::Until(7, 12),
            Formula::Next(6),
            Formula::And(1, 14),
            Formula::Until(0, 15),
        ];
        let mut made = Design { sides: free_sides(labels), formulas, rules: vec![] };
        let converter = drawn(&drawn_records);
        if ruled(&mut random, &mut made, &converter, 16) {
            compared.count(&mut random, &made, &converter);
        }
    }
    println!("{compared:?}");
    let Compared { waits, followed, longest, .. } = compared;
    assert!(followed > 70_000, "{followed}");
    assert!(waits.iter().all(|&rules| rules > 2_000) && longest > 500, "{waits:?} {longest}");
}
