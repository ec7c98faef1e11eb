//! States of each kind, the designs that join one for each side, and converters that
//! enable some of their joint transitions.

// Each test file uses some of these.
#![allow(dead_code)]

use std::array::from_fn;
use std::collections::BTreeMap;

use checker::bytes::{Design, Link, Record, State, StateKind, Transition, PLACES, SIDES};
use checker::generate::Random;

/// States of each kind, the kinds in the order in which the paper names them:
/// input 0, output-only 1, delayed 2. A state is its events in order, each with
/// 0 where the side stays and 1 where it goes to its other state.
pub const STATES: [&[&[(i8, u8)]]; 3] = [
    &[&[(0, 0)], &[(63, 1)], &[(0, 0), (1, 1)], &[(2, 1), (1, 0)], &[(1, 1), (0, 1), (2, 0)]],
    &[&[(-1, 1)], &[(-63, 0)]],
    &[&[(-1, 1), (0, 0)], &[(0, 0), (-63, 0)], &[(0, 1), (-2, 0)]],
];

/// The kinds by their numbers, in the order in which the paper names them.
pub const KINDS: [StateKind; 3] = [StateKind::Input, StateKind::OutputOnly, StateKind::Delayed];

/// How many mixes of kinds there are.
pub const MIXES: usize = 3_usize.pow(SIDES as u32);

/// The kinds of all sides by one number: they are its digits to the base three, that of
/// the last side the last.
pub fn kinds(number: usize) -> [usize; SIDES] {
    let behind = |side: usize| 3_usize.pow((SIDES - 1 - side) as u32);
    from_fn(|side| number / behind(side) % 3)
}

/// What is asked of a joint state.
#[derive(Clone, Copy, Debug, PartialEq)]
pub enum Duty {
    /// All transitions.
    All,
    /// Exactly so many, one for each choice of the delayed sides.
    Choices(usize),
    /// One at least.
    One,
}

/// What is asked, by how many sides are input, output-only and delayed.
pub const DUTIES: [([usize; 3], Duty); 10] = [
    ([0, 3, 0], Duty::All),
    ([0, 2, 1], Duty::All),
    ([0, 1, 2], Duty::All),
    ([0, 0, 3], Duty::All),
    ([1, 1, 1], Duty::Choices(2)),
    ([2, 0, 1], Duty::Choices(2)),
    ([1, 0, 2], Duty::Choices(4)),
    ([1, 2, 0], Duty::One),
    ([2, 1, 0], Duty::One),
    ([3, 0, 0], Duty::One),
];

/// What is asked of a joint state whose sides are of these kinds.
pub fn duty(kinds: [usize; SIDES]) -> Duty {
    let counts = from_fn(|kind| kinds.iter().filter(|&&own| own == kind).count());
    let row = DUTIES.iter().find(|(mix, _)| *mix == counts);
    row.expect("every mix of kinds is listed").1
}

/// Whether the words of the specification allow these to be enabled at a joint state
/// whose sides are of these kinds and which has so many transitions.
pub fn allowed(kinds: [usize; SIDES], all: usize, enabled: &[[i8; SIDES]]) -> bool {
    let of_kind = |kind: StateKind| -> Vec<usize> {
        (0..SIDES).filter(|&side| KINDS[kinds[side]] == kind).collect()
    };
    let delayed = of_kind(StateKind::Delayed);
    if of_kind(StateKind::Input).is_empty() {
        // No side is input: all transitions.
        enabled.len() == all
    } else if delayed.is_empty() {
        // Some are input and none is delayed: one at least.
        !enabled.is_empty()
    } else {
        // Exactly one for each choice of the delayed sides to send or to tick.
        (0..1 << delayed.len()).all(|choice: usize| {
            let sends = |at: usize| choice >> at & 1 == 1;
            let chosen = |events: &&[i8; SIDES]| {
                delayed.iter().enumerate().all(|(at, &side)| (events[side] < 0) == sends(at))
            };
            enabled.iter().filter(chosen).count() == 1
        })
    }
}

/// Every joint state, where each side has two states: the state of each side is a bit
/// of its number, that of the last side the last.
pub fn joint_states() -> [[u8; SIDES]; 1 << SIDES] {
    from_fn(|number| from_fn(|side| (number >> (SIDES - 1 - side) & 1) as u8))
}

/// One thing of each side, in every way.
fn one_of_each<T: Copy>(things: [&[T]; SIDES]) -> Vec<[T; SIDES]> {
    let mut ways = vec![things.map(|side| side[0])];
    for (side, things) in things.into_iter().enumerate() {
        let with =
            |way: &[T; SIDES], thing: T| from_fn(|at| if at == side { thing } else { way[at] });
        ways =
            ways.iter().flat_map(|way| things.iter().map(move |&thing| with(way, thing))).collect();
    }
    ways
}

/// A design for all of the states above whose kinds have this number, where they
/// stand at this joint state. The other state of a side ticks and stays. There are
/// no rules.
pub fn designs(number: usize, joint: [u8; SIDES]) -> Vec<Design> {
    let side = |own: u8, events: &[(i8, u8)]| {
        let transition = |&(event, on): &(i8, u8)| Transition { event, target: own ^ on };
        let tick = Transition { event: 0, target: own ^ 1 };
        let mut states = vec![State { label: 0, transitions: vec![tick] }; 2];
        states[usize::from(own)].transitions = events.iter().map(transition).collect();
        states
    };
    let joined = |events: [&[(i8, u8)]; SIDES]| {
        let sides = from_fn(|at| side(joint[at], events[at]));
        Design { sides, formulas: vec![], rules: vec![] }
    };
    one_of_each(kinds(number).map(|kind| STATES[kind])).into_iter().map(joined).collect()
}

/// The number of the record that names this joint state in the converters below.
pub fn record_of(joint: [u8; SIDES]) -> usize {
    joint.iter().fold(0, |number, &state| 2 * number + usize::from(state))
}

/// Every transition of a joint state, as it stands in the converters below.
pub fn links(design: &Design, joint: [u8; SIDES]) -> Vec<Link> {
    let transitions = from_fn(|side| &design.sides[side][usize::from(joint[side])].transitions[..]);
    let link = |taken: [Transition; SIDES]| {
        let next = record_of(taken.map(|transition| transition.target)) as u16;
        Link { events: taken.map(|transition| -transition.event), next }
    };
    one_of_each(transitions).into_iter().map(link).collect()
}

/// The first of some transitions for each thing that the sides can show in them.
fn one_for_each_shown(links: &[Link]) -> Vec<Link> {
    let shown = |link: &Link| link.events.map(|event| event.max(0));
    let mut first = BTreeMap::new();
    for link in links {
        first.entry(shown(link)).or_insert(*link);
    }
    first.into_values().collect()
}

/// Whether every choice among so many transitions is among the converters below.
pub fn tried_whole(links: usize) -> bool {
    links <= 12
}

/// How many choices of up to eight transitions are right, where all of them are tried.
///
/// Where one is asked, 2^n - 1 can be chosen from n, less those with more than eight. Where
/// one is asked for each choice of the delayed sides, it is free in what the input sides do.
pub fn right_choices(design: &Design, joint: [u8; SIDES], duty: Duty) -> usize {
    let count = |side: usize| design.sides[side][usize::from(joint[side])].transitions.len();
    let all: usize = (0..SIDES).map(count).product();
    match duty {
        Duty::All => 1,
        Duty::Choices(choices) => (all / choices).pow(choices as u32),
        Duty::One if all <= 8 => (1 << all) - 1,
        Duty::One if all == 9 => 510,
        Duty::One if all == 12 => 4_095 - (220 + 66 + 12 + 1),
        Duty::One => panic!("{all} transitions weren't thought of"),
    }
}

/// Choices of up to eight among some transitions: every one, or where these are too many,
/// 200 of them, of which half are near to one transition for each thing shown.
fn choices(links: &[Link]) -> Vec<Vec<Link>> {
    if tried_whole(links.len()) {
        let chosen = |bits: usize| -> Vec<Link> {
            (0..links.len()).filter(|at| bits >> at & 1 == 1).map(|at| links[at]).collect()
        };
        let held = |choice: &Vec<Link>| choice.len() <= PLACES;
        return (1..1 << links.len()).map(chosen).filter(held).collect();
    }
    let mut random = Random::new(links.len() as u64);
    let mut choice = |round: usize| {
        let mut others = links.to_vec();
        random.shuffle(&mut others);
        if round.is_multiple_of(2) {
            others.truncate(random.from_to(1, PLACES));
            return others;
        }
        let mut chosen = one_for_each_shown(&others);
        others.retain(|link| !chosen.contains(link));
        match random.below(3) {
            0 => chosen.push(others[0]),
            1 => chosen[0] = others[0],
            _ => {}
        }
        chosen
    };
    (0..200).map(&mut choice).collect()
}

/// Converters with one record for each joint state, in which the record for this one
/// enables a choice of transitions. The others enable one for each thing that the sides
/// can show, which is right whatever their kinds.
pub fn converters(design: &Design, joint: [u8; SIDES]) -> Vec<Vec<Record>> {
    let least = joint_states().map(|states| {
        let links = one_for_each_shown(&links(design, states));
        Record { states, links }
    });
    let with = |links: Vec<Link>| {
        let mut converter = least.to_vec();
        converter[record_of(joint)].links = links;
        converter
    };
    choices(&links(design, joint)).into_iter().map(with).collect()
}

/// The transitions that a record enables, by the events of the sides.
pub fn enabled(record: &Record) -> Vec<[i8; SIDES]> {
    record.links.iter().map(|link| link.events.map(|event| -event)).collect()
}
