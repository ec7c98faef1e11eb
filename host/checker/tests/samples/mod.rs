//! The designs and converters of the specification's rows, and calls that hold
//! every lent byte against what the specification says of it.
//!
//! Most rows have two sides. Beside them the third side is one ticking state without
//! labels, and their converters have zeros for it.

// Each test file uses some of these.
#![allow(dead_code)]

use std::array::from_fn;

use checker::bytes::{
    converter_bytes, positions, read_converter_memory, read_design, seal, Design, Formula, Link,
    Record, State, Transition, SIDES,
};
use checker::joined::proposition;

/// A state from the bits of its label word and its transitions.
pub fn state(bits: &[u8], transitions: &[(i8, u8)]) -> State {
    State {
        label: bits.iter().map(|&bit| 1 << bit).sum(),
        transitions: transitions
            .iter()
            .map(|&(event, target)| Transition { event, target })
            .collect(),
    }
}

/// What is said of the first sides, with zeros for the others.
pub fn with_zeros<T: Copy + Default, const N: usize>(first: [T; N]) -> [T; SIDES] {
    from_fn(|side| first.get(side).copied().unwrap_or_default())
}

/// A design whose first sides are these. Each of the others is one ticking state without
/// labels.
pub fn design<const N: usize>(
    first: [Vec<State>; N],
    formulas: Vec<Formula>,
    rules: Vec<u8>,
) -> Design {
    let ticking = vec![state(&[], &[(0, 0)])];
    let sides = from_fn(|side| first.get(side).unwrap_or(&ticking).clone());
    Design { sides, formulas, rules }
}

/// One ticking state on each side, with these label words.
pub fn ticking(labels: [u16; SIDES]) -> [Vec<State>; SIDES] {
    labels.map(|label| vec![State { label, ..state(&[], &[(0, 0)]) }])
}

/// A converter record from the states that it names and its transitions, of the first
/// sides.
pub fn record<const N: usize>(states: [u8; N], links: &[([i8; N], u16)]) -> Record {
    let link = |&(events, next): &([i8; N], u16)| Link { events: with_zeros(events), next };
    Record { states: with_zeros(states), links: links.iter().map(link).collect() }
}

/// The handshake pair H.
pub fn handshake(formulas: Vec<Formula>, rules: Vec<u8>) -> Design {
    let handshake = vec![state(&[0], &[(0, 0), (-1, 1)]), state(&[1], &[(0, 1), (-2, 0)])];
    let serial = vec![state(&[2], &[(0, 0), (1, 1)]), state(&[3], &[(2, 0)])];
    design([handshake, serial], formulas, rules)
}

/// Converter F.
pub fn figure_five() -> Vec<Record> {
    vec![
        record([0, 0], &[([1, 0], 1), ([0, 0], 0)]),
        record([1, 0], &[([2, -1], 2), ([0, 0], 1)]),
        record([0, 1], &[([1, -2], 1), ([0, -2], 0)]),
    ]
}

/// A rule AG(a and b implies AX(c or d)), with its formulas put after those
/// that are there. A literal is a proposition and whether it holds.
fn rule(formulas: &mut Vec<Formula>, a: u8, b: u8, c: (u8, bool), d: (u8, bool)) -> u8 {
    let literal =
        |(p, holds)| if holds { Formula::Proposition(p) } else { Formula::NotProposition(p) };
    let at = formulas.len();
    formulas.extend([
        literal((a, false)),
        literal((b, false)),
        Formula::Or(at, at + 1),
        literal(c),
        literal(d),
        Formula::Or(at + 3, at + 4),
        Formula::Next(at + 5),
        Formula::Or(at + 2, at + 6),
        Formula::Always(at + 7),
    ]);
    (at + 8) as u8
}

/// The paper's four rules, the fourth as printed or as its words say.
pub fn four_rules(as_printed: bool) -> (Vec<Formula>, Vec<u8>) {
    let mut formulas = Vec::new();
    let rules = vec![
        rule(&mut formulas, 0, 18, (1, true), (19, false)),
        rule(&mut formulas, 19, 1, (0, true), (18, false)),
        rule(&mut formulas, 1, 18, (19, true), (0, false)),
        rule(&mut formulas, 0, 19, (1, false), (18, !as_printed)),
    ];
    (formulas, rules)
}

/// H with the four rules.
pub fn ruled_handshake(as_printed: bool) -> Design {
    let (formulas, rules) = four_rules(as_printed);
    handshake(formulas, rules)
}

/// Where a state record of a side begins, in a design.
pub fn state_at(side: usize, state: usize) -> usize {
    512 * side + 4 + 20 * state
}

/// How many bytes the records of a block take, where these are the blocks of a design.
pub fn record_bytes(design: &[u8], block: usize) -> usize {
    let header = &design[512 * block..];
    let each = match header[0] {
        3 => 4,
        4 => 1,
        _ => 20,
    };
    each * usize::from(header[1])
}

/// The bytes of H with rules, in four blocks or in five, with the faults of some of the numbers 1
/// to 8. Those of 5 and 8 are in this side's block.
pub fn with_faults(mut bytes: Vec<u8>, side: usize, wrong: impl Fn(u8) -> bool) -> Vec<u8> {
    let (formulas, rules) = (bytes.len() - 1_024, bytes.len() - 512);
    let changes = [
        (3, formulas, 4),
        (4, formulas + 1, 65),
        // A tick leads nowhere; s1 reads and sends; a rule names no formula.
        (5, state_at(side, 0) + 5, 2),
        (6, state_at(0, 1) + 4, 7),
        (7, rules + 4, 64),
        (8, 512 * side + 509, 1),
    ];
    for (number, at, value) in changes {
        if wrong(number) {
            bytes[at] = value;
        }
    }
    seal(&mut bytes);
    if wrong(2) {
        bytes[rules + 511] ^= 255;
    }
    if wrong(1) {
        bytes.push(0);
    }
    bytes
}

/// The bytes of F with the faults of some of the numbers 10, 11 and 14.
pub fn figure_five_with_faults(wrong: impl Fn(u8) -> bool) -> Vec<u8> {
    let mut records = figure_five();
    if wrong(14) {
        records[0].links.pop();
    }
    let mut bytes = converter_bytes(&records);
    if wrong(11) {
        bytes[52 * 2 + 7] = 1;
    }
    if wrong(10) {
        bytes.push(0);
    }
    bytes
}

/// Every set of some numbers, in their order.
pub fn subsets(numbers: &[u8]) -> Vec<Vec<u8>> {
    let mut sets = vec![vec![]];
    for &number in numbers {
        let with: Vec<Vec<u8>> = sets.iter().map(|set| [&set[..], &[number]].concat()).collect();
        sets.extend(with);
    }
    sets
}

/// s0 sends 1 and goes to s1, or waits and goes to this state; s1 ticks. Its rule is that every
/// path comes to s1, where 0 holds.
pub fn wait_leading_to(target: u8) -> Design {
    let side = vec![state(&[], &[(-1, 1), (0, target)]), state(&[0], &[(0, 1)])];
    let formulas = vec![Formula::True, Formula::Proposition(0), Formula::Until(0, 1)];
    design([side], formulas, vec![2])
}

/// The converter for the wait that leads to s1.
pub fn leading_on() -> Vec<Record> {
    vec![record([0], &[([1], 1), ([0], 1)]), record([1], &[([0], 1)])]
}

/// Two states ticking in turn beside one ticking state, each label again and again.
pub fn ticking_in_turn() -> Design {
    let turning = vec![state(&[0], &[(0, 1)]), state(&[1], &[(0, 0)])];
    let formulas = vec![
        Formula::True,
        Formula::Proposition(0),
        Formula::Proposition(1),
        Formula::Until(0, 1),
        Formula::Until(0, 2),
        Formula::And(3, 4),
        Formula::Always(5),
    ];
    design([turning], formulas, vec![6])
}

/// One ticking state beside h0, h1 and h2.
pub fn two_inputs(formulas: Vec<Formula>, rules: Vec<u8>) -> Design {
    let host = vec![state(&[], &[(1, 1), (2, 2)]), state(&[0], &[(0, 1)]), state(&[1], &[(0, 2)])];
    design([vec![state(&[], &[(0, 0)])], host], formulas, rules)
}

/// A converter for the two inputs that enables some of them.
pub fn enabling(inputs: &[([i8; 2], u16)]) -> Vec<Record> {
    vec![record([0, 0], inputs), record([0, 1], &[([0, 0], 1)]), record([0, 2], &[([0, 0], 2)])]
}

/// AX 16, then AX 17.
pub fn next_sixteen_next_seventeen() -> Vec<Formula> {
    vec![Formula::Proposition(16), Formula::Proposition(17), Formula::Next(0), Formula::Next(1)]
}

/// The sides of lock and menu, which only tick, from each state to the other: k0 and
/// m1 have bit 3.
fn lock_and_menu_sides() -> [Vec<State>; 2] {
    [
        vec![state(&[3], &[(0, 1)]), state(&[], &[(0, 0)])],
        vec![state(&[], &[(0, 1)]), state(&[3], &[(0, 0)])],
    ]
}

/// Lock and menu: 3 and AX 19.
pub fn lock_and_menu() -> Design {
    let formulas = vec![Formula::Proposition(3), Formula::Proposition(19), Formula::Next(1)];
    design(lock_and_menu_sides(), formulas, vec![0, 2])
}

/// The same with a rule that takes the label of one side for the other's: 19, or AX 3.
pub fn mistaken_labels() -> [Design; 2] {
    let host_first = vec![Formula::Proposition(19)];
    let kernel_next = vec![Formula::Proposition(3), Formula::Next(0)];
    [
        design(lock_and_menu_sides(), host_first, vec![0]),
        design(lock_and_menu_sides(), kernel_next, vec![1]),
    ]
}

/// The converter T: both sides tick, from (k0, m0) to (k1, m1) and back.
pub fn lock_and_menu_converter() -> Vec<Record> {
    vec![record([0, 0], &[([0, 0], 1)]), record([1, 1], &[([0, 0], 0)])]
}

/// One input state that reads 1 to 3 and goes to the state of that number; in state
/// n proposition 15 + n holds, and each comes back to state 0 by a tick.
pub fn hub(formulas: Vec<Formula>, rules: Vec<u8>) -> Design {
    let hub = vec![
        state(&[], &[(1, 1), (2, 2), (3, 3)]),
        state(&[0], &[(0, 0)]),
        state(&[1], &[(0, 0)]),
        state(&[2], &[(0, 0)]),
    ];
    design([vec![state(&[], &[(0, 0)])], hub], formulas, rules)
}

/// Two rings of sixteen states, each of which ticks on or reads 1 and stays.
/// State 15 has bit 0 on side 1 and bit 1 on side 2: propositions 0 and 17. Eight
/// formulas are kept: 2, 3, 4, 5, 6, 8, 11 and 15.
pub fn rings(last: Formula) -> Design {
    let ring = |bit: u8| {
        let bits = |own: u8| if own == 15 { vec![bit] } else { vec![] };
        (0..16).map(|own: u8| state(&bits(own), &[(0, (own + 1) % 16), (1, own)])).collect()
    };
    let formulas = vec![
        Formula::True,
        Formula::Proposition(0),
        Formula::Until(0, 1),
        Formula::Always(2),
        Formula::Proposition(17),
        Formula::NotProposition(17),
        Formula::NotProposition(0),
        Formula::Or(6, 5),
        Formula::Always(7),
        Formula::Next(6),
        Formula::Or(6, 9),
        Formula::Always(10),
        Formula::Next(5),
        Formula::Next(4),
        Formula::Or(13, 12),
        last,
    ];
    design([ring(0), ring(1)], formulas, vec![3, 8, 11, 15])
}

/// The viewer: a host that reads 1 and shows a picture (16) for one tick, beside this third
/// side. Every path shows pictures again and again, and none while 32 holds.
pub fn viewer(third: Vec<State>) -> Design {
    let host = vec![state(&[], &[(0, 0), (1, 1)]), state(&[0], &[(0, 0)])];
    let formulas = vec![
        Formula::True,
        Formula::Proposition(16),
        Formula::Until(0, 1),
        Formula::Always(2),
        Formula::NotProposition(16),
        Formula::NotProposition(32),
        Formula::Or(4, 5),
        Formula::Always(6),
    ];
    let kernel = vec![state(&[], &[(0, 0)])];
    Design { sides: [kernel, host, third], formulas, rules: vec![3, 7] }
}

/// The same, where one picture is enough, at a time when 32 doesn't hold.
pub fn viewer_once(third: Vec<State>) -> Design {
    let formulas = vec![
        Formula::True,
        Formula::Proposition(16),
        Formula::NotProposition(32),
        Formula::And(1, 2),
        Formula::Until(0, 3),
    ];
    Design { formulas, rules: vec![4], ..viewer(third) }
}

/// The thumbnails: v0 waits, or sends 1 and goes to v1, where 32 holds; v1 sends 2 and
/// goes back, or it may wait there too.
pub fn thumbnails(may_wait: bool) -> Vec<State> {
    let back: &[(i8, u8)] = if may_wait { &[(0, 1), (-2, 0)] } else { &[(-2, 0)] };
    vec![state(&[], &[(0, 0), (-1, 1)]), state(&[0], back)]
}

/// One state, with these events.
pub fn one_state(events: &[i8]) -> Vec<State> {
    let transitions: Vec<(i8, u8)> = events.iter().map(|&event| (event, 0)).collect();
    vec![state(&[], &transitions)]
}

/// A converter of one record, whose transitions have these events.
pub fn one_record(events: &[[i8; SIDES]]) -> Vec<Record> {
    let links: Vec<([i8; SIDES], u16)> = events.iter().map(|&events| (events, 0)).collect();
    vec![record([0; SIDES], &links)]
}

/// A kernel and a third side that send or tick, beside a host that reads 1 or 2.
pub fn four_choices() -> Design {
    let sides = [one_state(&[0, -1]), one_state(&[1, 2]), one_state(&[-3, 0])];
    Design { sides, formulas: vec![], rules: vec![] }
}

/// Events that a record for the four choices may have, each with whether it is matched.
pub fn events_at_four_choices() -> Vec<(Vec<[i8; SIDES]>, bool)> {
    let right = [[0, -1, 0], [1, -2, 0], [0, -2, 3], [1, -1, 3]];
    let mut tried = vec![(right.to_vec(), true)];
    for at in 0..4 {
        // One choice is left out.
        let mut fewer = right.to_vec();
        fewer.remove(at);
        tried.push((fewer, false));
        // The other input at a choice: beside the first, in its place, in another's place.
        let mut other = right[at];
        other[1] = -3 - other[1];
        tried.push(([&right[..], &[other]].concat(), false));
        for place in 0..4 {
            let mut exchanged = right.to_vec();
            exchanged[place] = other;
            tried.push((exchanged, place == at));
        }
    }
    tried
}

/// Three sides that send or tick.
pub fn three_delayed() -> Design {
    let sides = [one_state(&[0, -1]), one_state(&[-2, 0]), one_state(&[0, -3])];
    Design { sides, formulas: vec![], rules: vec![] }
}

/// Events that a record for the three delayed sides may have, each with whether it is
/// matched: all eight, and these without one.
pub fn events_of_three_delayed() -> Vec<(Vec<[i8; SIDES]>, bool)> {
    let moves: Vec<[i8; SIDES]> =
        (0..8).map(|bits: i8| [bits & 1, 2 * (bits >> 1 & 1), 3 * (bits >> 2)]).collect();
    let without = |left_out: usize| {
        let mut fewer = moves.clone();
        fewer.remove(left_out);
        (fewer, false)
    };
    [(moves.clone(), true)].into_iter().chain((0..8).map(without)).collect()
}

/// Three rings of sixteen states, each of which ticks on or reads 1 and stays. State 15
/// has bit 0, 1 or 2 of its side: propositions 0, 17 and 34. Four formulas are kept: 2, 3,
/// 7 and 10.
pub fn three_rings(last: Formula) -> Design {
    let ring = |bit: usize| {
        let bits = |own: u8| if own == 15 { vec![bit as u8] } else { vec![] };
        (0..16).map(|own: u8| state(&bits(own), &[(0, (own + 1) % 16), (1, own)])).collect()
    };
    let formulas = vec![
        Formula::True,
        Formula::Proposition(0),
        Formula::Until(0, 1),
        Formula::Always(2),
        Formula::NotProposition(0),
        Formula::NotProposition(17),
        Formula::Or(4, 5),
        Formula::Always(6),
        Formula::NotProposition(34),
        Formula::Or(5, 8),
        last,
    ];
    Design { sides: from_fn(ring), formulas, rules: vec![3, 7, 10] }
}

/// Every order of three sides.
pub const ORDERS: [[usize; SIDES]; 6] =
    [[0, 1, 2], [0, 2, 1], [1, 0, 2], [1, 2, 0], [2, 0, 1], [2, 1, 0]];

/// The design with its sides in another order: each of these is the side that comes there.
/// Formulas name the labels by their new sides.
pub fn reordered(design: &Design, order: [usize; SIDES]) -> Design {
    let place = |side: usize| order.iter().position(|&from| from == side).unwrap();
    let renamed = |p: u8| proposition(place(usize::from(p) / 16), usize::from(p) % 16);
    let formula = |&formula: &Formula| match formula {
        Formula::Proposition(p) => Formula::Proposition(renamed(p)),
        Formula::NotProposition(p) => Formula::NotProposition(renamed(p)),
        other => other,
    };
    Design {
        sides: order.map(|from| design.sides[from].clone()),
        formulas: design.formulas.iter().map(formula).collect(),
        rules: design.rules.clone(),
    }
}

/// A converter for the sides in another order.
pub fn reordered_converter(converter: &[Record], order: [usize; SIDES]) -> Vec<Record> {
    let link = |link: &Link| Link { events: order.map(|from| link.events[from]), next: link.next };
    let record = |record: &Record| Record {
        states: order.map(|from| record.states[from]),
        links: record.links.iter().map(link).collect(),
    };
    converter.iter().map(record).collect()
}

/// Bytes that aren't zero and that differ from their neighbours.
pub fn pattern(length: usize) -> Vec<u8> {
    (0..length).map(|at| (at % 251 + 1) as u8).collect()
}

/// Bytes lent beyond those demanded.
pub const BEYOND: usize = 53;

/// Numbers that no rule gets and that differ from each other.
pub fn numbers(length: usize) -> Vec<u32> {
    (0..length).map(|at| 1_000_000 + at as u32).collect()
}

/// What work that is lent as a pattern has to be after a verdict on a converter of so many records:
/// the bytes that 13 demands are zero after a yes, 14 and 15.
pub fn work_after(answer: Result<(), u8>, work_length: usize, records: usize) -> Vec<u8> {
    let mut work = pattern(work_length);
    if matches!(answer, Ok(()) | Err(14 | 15)) {
        work[..16 * records].fill(0);
    }
    work
}

/// Judges with a list that is long enough, and holds every byte of work and every number of the
/// list against the specification.
pub fn judged(design: &[u8], converter: &[u8], work_length: usize) -> Result<(), u8> {
    judged_waits(design, converter, work_length, 16 + BEYOND).map(|_| ())
}

/// Judges, and holds every byte of work and every number of the list against the specification.
/// After a yes these are the rules' numbers: an until waits for fewer ticks than there are records,
/// and what isn't one doesn't wait. How long each waits is left to the caller.
pub fn judged_waits(
    design: &[u8],
    converter: &[u8],
    work_length: usize,
    list_length: usize,
) -> Result<Vec<u32>, u8> {
    let (mut work, mut waits) = (pattern(work_length), numbers(list_length));
    let answer = checker::judge(design, converter, &mut work, &mut waits);
    let records = converter.len() / 52;
    let mut expected = pattern(work_length);
    if matches!(answer, Ok(()) | Err(14 | 15)) {
        expected[..16 * records].fill(0);
    }
    assert_eq!(work, expected, "work after {answer:?}");
    let rules: Vec<Formula> = match answer {
        Ok(()) => {
            let Design { formulas, rules, .. } = read_design(design)?;
            rules.iter().map(|&rule| formulas[usize::from(rule)]).collect()
        }
        Err(_) => vec![],
    };
    assert_eq!(waits[rules.len()..], numbers(list_length)[rules.len()..], "list after {answer:?}");
    answer?;
    waits.truncate(rules.len());
    for (rule, &wait) in rules.iter().zip(&waits) {
        let right = match rule {
            Formula::Until(..) => (wait as usize) < records,
            _ => wait == u32::MAX,
        };
        assert!(right, "{wait} of {rule:?} under {records} records");
    }
    Ok(waits)
}

/// Judges with work to spare.
pub fn judged_well(design: &Design, converter: &[u8]) -> Result<(), u8> {
    judged(&design.to_bytes(), converter, 16 * (converter.len() / 52) + BEYOND)
}

/// Searches with the demanded lengths and some bytes beyond, and holds every
/// lent byte against the specification. A converter found is matched and keeps the rules.
pub fn searched(design: &Design) -> Result<Vec<Record>, u8> {
    let positions = usize::try_from(positions(design)).unwrap();
    let (table_length, work_length) = (52 * positions + BEYOND, 16 * positions + BEYOND);
    let (mut table, mut work) = (pattern(table_length), pattern(work_length));
    let answer = checker::search(&design.to_bytes(), &mut table, &mut work);
    if matches!(answer, Ok(_) | Err(16)) {
        let mut zeroed = pattern(work_length);
        zeroed[..16 * positions].fill(0);
        assert_eq!(work, zeroed, "work after {answer:?}");
    } else {
        assert_eq!(work, pattern(work_length), "work after {answer:?}");
    }
    let written = 52 * answer.unwrap_or(0);
    assert_eq!(table[written..], pattern(table_length)[written..], "table after {answer:?}");
    answer?;
    assert!(written <= 52 * positions);
    assert_eq!(judged_well(design, &table[..written]), Ok(()), "the converter found");
    read_converter_memory(&table[..written])
}
