//! Converters in the shape of any graph, whose records stand in any order, and formulas for them.

use std::array::from_fn;

use checker::bytes::{Formula, Link, Record, State, Transition, SIDES};
use checker::generate::Random;

/// A side of two states, the second with label 0, each of which `each` events lead to.
fn side(each: u8) -> Vec<State> {
    let transition = |event: u8| Transition { event: event as i8, target: event / each };
    let state = |label| State { label, transitions: (0..2 * each).map(transition).collect() };
    vec![state(0), state(1)]
}

/// Sides whose states are all input; each state of the kernel has four events.
pub fn sides() -> [Vec<State>; SIDES] {
    [side(4), side(1), side(1)]
}

/// The converter that goes from each place to those that `next` lists, at most
/// four, and in whose places the propositions 0, 16 and 32 hold as `holding` says;
/// it is matched to these sides. The places are records in any order,
/// but that the first is record 0.
pub fn converter(random: &mut Random, next: &[Vec<usize>], holding: &[[u8; SIDES]]) -> Vec<Record> {
    let mut number: Vec<usize> = (0..next.len()).collect();
    random.shuffle(&mut number[1..]);
    let mut records = vec![Record { states: [0; SIDES], links: vec![] }; next.len()];
    for (place, targets) in next.iter().enumerate() {
        let link = |(at, &to): (usize, &usize)| {
            let [kernel, host, third] = holding[to].map(|holds| holds as i8);
            let events = [4 * kernel + at as i8, host, third].map(|event| -event);
            Link { events, next: number[to] as u16 }
        };
        let links = targets.iter().enumerate().map(link).collect();
        records[number[place]] = Record { states: holding[place], links };
    }
    records
}

/// The converter that goes through the records in this order, the first of them 0, and stays at the
/// last, where alone 0 holds.
pub fn chain(order: &[usize]) -> Vec<Record> {
    let last = order.len() - 1;
    let mut records = vec![Record { states: [0; SIDES], links: vec![] }; order.len()];
    for (at, &own) in order.iter().enumerate() {
        let to = last.min(at + 1);
        // The kernel's event 4 leads to its second state, where 0 holds.
        let event = if to == last { -4 } else { 0 };
        let link = Link { events: [event, 0, 0], next: order[to] as u16 };
        records[own] = Record { states: [u8::from(at == last), 0, 0], links: vec![link] };
    }
    records
}

/// So many records in the order of their numbers; in the opposite one, behind record 0; and in none.
pub fn orders(random: &mut Random, records: usize) -> [Vec<usize>; 3] {
    let ahead: Vec<usize> = (0..records).collect();
    let (mut back, mut mixed) = (ahead.clone(), ahead.clone());
    back[1..].reverse();
    random.shuffle(&mut mixed[1..]);
    [ahead, back, mixed]
}

/// Graphs of so many places, of which some make an order of the records matter.
pub fn graph(random: &mut Random, places: usize) -> Vec<Vec<usize>> {
    let last = places - 1;
    let kind = random.below(6);
    let next = |at: usize| match kind {
        // A chain that stays at its end, and a ring.
        0 => vec![last.min(at + 1)],
        1 => vec![(at + 1) % places],
        // There and back.
        2 => vec![last.min(at + 1), at.saturating_sub(1)],
        // A chain with ways back and ahead.
        3 if random.once_in(8) => vec![last.min(at + 1), random.below(places)],
        3 => vec![last.min(at + 1)],
        // Loops one inside the other: odd places go back past the even one before.
        4 if at.is_multiple_of(2) => vec![last.min(at + 2), last.min(at + 1)],
        4 => vec![at.saturating_sub(3)],
        // Whatever it be.
        _ => (0..random.from_to(1, 3)).map(|_| random.below(places)).collect(),
    };
    (0..places).map(next).collect()
}

/// The propositions 0, 16 and 32 in so many places, mostly in few.
pub fn holding(random: &mut Random, places: usize) -> Vec<[u8; SIDES]> {
    let rare: [usize; SIDES] = from_fn(|_| random.from_to(2, 2 * places));
    let most = [false, random.once_in(3), random.once_in(3)];
    let mut held: Vec<[u8; SIDES]> = (0..places)
        .map(|_| from_fn(|side| u8::from(random.once_in(rare[side]) != most[side])))
        .collect();
    held[0] = [0; SIDES];
    held
}

/// Formulas over propositions 0, 16 and 32 of which most are untils and always.
pub fn waiting(random: &mut Random) -> Vec<Formula> {
    let mut formulas = vec![
        Formula::True,
        Formula::Proposition(0),
        Formula::Proposition(16),
        Formula::Proposition(32),
        Formula::NotProposition(0),
        Formula::NotProposition(16),
        Formula::NotProposition(32),
    ];
    for at in formulas.len()..24 {
        let (a, b) = (random.below(at), random.below(at));
        formulas.push(match random.below(8) {
            0..=2 => Formula::Until(a, b),
            3..=4 => Formula::Always(a),
            5 => Formula::Or(a, b),
            6 => Formula::And(a, b),
            _ => Formula::Next(a),
        });
    }
    formulas
}
