//! Rows for waits known by range: designs, lists, and the tables that come of them. Every
//! expected state is written out from the specification.

// Each test file uses some of these.
#![allow(dead_code)]

use std::array::from_fn;
use std::collections::BTreeMap;

use checker::bytes::{Design, Formula, State, Transition, SIDES};
use checker::generate::Random;
use checker::joined::proposition;
use checker::ranges::{may_be_chosen, states_after, Range};

use crate::samples::{design, handshake, ruled_handshake, state, thumbnails, viewer, with_faults};

/// A design, a list of ranges for it, and the new design.
pub struct Row {
    pub name: &'static str,
    pub design: Design,
    pub list: Vec<u8>,
    pub expected: Design,
}

impl Row {
    /// The bytes of the design and of the new one: where they can have four blocks, with four, and
    /// with five.
    pub fn four_or_five(&self) -> [(Vec<u8>, Vec<u8>); 2] {
        [Design::to_bytes, Design::to_five_blocks]
            .map(|to_bytes| (to_bytes(&self.design), to_bytes(&self.expected)))
    }
}

/// A row in which some sides are others afterwards.
fn becomes(
    name: &'static str,
    design: Design,
    list: &[[u8; 4]],
    sides: &[(usize, Vec<State>)],
) -> Row {
    let mut new = design.clone();
    for (side, states) in sides {
        new.sides[*side] = states.clone();
    }
    Row { name, design, list: list.concat(), expected: new }
}

/// A kernel beside sides of one ticking state.
fn kernel(states: Vec<State>) -> Design {
    design([states], vec![], vec![])
}

/// Tessellation: k0 waits, or sends 1 and goes to k1, which reads 2 and goes back.
pub fn tessellation() -> Design {
    kernel(vec![state(&[0], &[(0, 0), (-1, 1)]), state(&[1, 15], &[(2, 0)])])
}

/// One state that waits, or sends 5 and is entered again; the send stands first.
fn again() -> Design {
    kernel(vec![state(&[3, 12], &[(-5, 0), (0, 0)])])
}

/// H with the rule A(true U 1).
pub fn waiting_handshake() -> Design {
    handshake(vec![Formula::True, Formula::Proposition(1), Formula::Until(0, 1)], vec![2])
}

/// The kernel of H where s0 waits twice at the most.
pub fn patient_twice() -> Vec<State> {
    vec![
        state(&[0], &[(0, 2), (-1, 1)]),
        state(&[1], &[(0, 1), (-2, 0)]),
        state(&[0], &[(0, 3), (-1, 1)]),
        state(&[0], &[(-1, 1)]),
    ]
}

/// Rows in which something is written.
pub fn rows_done() -> Vec<Row> {
    let mut rows = one_range();
    rows.extend(several_ranges());
    rows
}

/// Rows with one range.
fn one_range() -> Vec<Row> {
    let three_to_nine = vec![
        state(&[0], &[(0, 2)]),
        state(&[1, 15], &[(2, 0)]),
        state(&[0], &[(0, 3)]),
        state(&[0], &[(0, 4)]),
        state(&[0], &[(0, 5), (-1, 1)]),
        state(&[0], &[(0, 6), (-1, 1)]),
        state(&[0], &[(0, 7), (-1, 1)]),
        state(&[0], &[(0, 8), (-1, 1)]),
        state(&[0], &[(0, 9), (-1, 1)]),
        state(&[0], &[(0, 10), (-1, 1)]),
        state(&[0], &[(-1, 1)]),
    ];
    let at_once = vec![state(&[0], &[(-1, 1)]), state(&[1, 15], &[(2, 0)])];
    let once_or_more =
        vec![state(&[0], &[(0, 2)]), state(&[1, 15], &[(2, 0)]), state(&[0], &[(0, 2), (-1, 1)])];
    let twice = vec![
        state(&[0], &[(0, 2)]),
        state(&[1, 15], &[(2, 0)]),
        state(&[0], &[(0, 3)]),
        state(&[0], &[(-1, 1)]),
    ];
    // A send back to its own state leads to count 0.
    let again_within_two =
        vec![state(&[3, 12], &[(-5, 0), (0, 1)]), state(&[3, 12], &[(-5, 0), (0, 2)]), {
            state(&[3, 12], &[(-5, 0)])
        }];
    let counting = |last: &[(i8, u8)]| -> Vec<State> {
        let ticking = (1..16).map(|next| state(&[3, 12], &[(0, next)]));
        ticking.chain([state(&[3, 12], last)]).collect()
    };
    let becomes = |name, design, entry: [u8; 4], states: Vec<State>| {
        becomes(name, design, &[entry], &[(0, states)])
    };
    let old = tessellation().sides[0].clone();
    vec![
        becomes("3 to 9", tessellation(), [0, 0, 3, 9], three_to_nine),
        becomes("0 to 0", tessellation(), [0, 0, 0, 0], at_once),
        becomes("0 and no greatest", tessellation(), [0, 0, 0, 255], old),
        becomes("1 and no greatest", tessellation(), [0, 0, 1, 255], once_or_more),
        becomes("2 to 2", tessellation(), [0, 0, 2, 2], twice),
        becomes("0 to 2 of H", waiting_handshake(), [0, 0, 0, 2], patient_twice()),
        becomes("0 to 2, sent again", again(), [0, 0, 0, 2], again_within_two),
        becomes("15 to 15", again(), [0, 0, 15, 15], counting(&[(-5, 0)])),
        becomes("15, no greatest", again(), [0, 0, 15, 255], counting(&[(-5, 0), (0, 15)])),
    ]
}

/// Rows with no range, or with several.
fn several_ranges() -> Vec<Row> {
    let ruled = ruled_handshake(false);
    let (s0, s1) = (&ruled.sides[0][0], &ruled.sides[0][1]);
    // s1 waits once, s0 at the most once: the states that count stand in the entries' order.
    let s1_first = vec![
        state(&[0], &[(0, 3), (-1, 1)]),
        state(&[1], &[(0, 2)]),
        state(&[1], &[(-2, 0)]),
        state(&[0], &[(-1, 1)]),
    ];
    let s0_first = vec![
        state(&[0], &[(0, 2), (-1, 1)]),
        state(&[1], &[(0, 3)]),
        state(&[0], &[(-1, 1)]),
        state(&[1], &[(-2, 0)]),
    ];
    // The first adds no state, and the second counts right behind the last one.
    let no_more =
        vec![state(&[0], &[(-1, 1)]), state(&[1], &[(0, 2), (-2, 0)]), { state(&[1], &[(-2, 0)]) }];
    let sender = |bit: u8, event: i8| vec![state(&[bit], &[(event, 0), (0, 0)])];
    let senders = design([sender(0, -1), sender(1, -2), sender(2, -3)], vec![], vec![]);
    let first = vec![state(&[0], &[(0, 1)]), state(&[0], &[(-1, 0), (0, 1)])];
    let second = vec![state(&[1], &[(-2, 0)])];
    let third = vec![state(&[2], &[(-3, 0), (0, 1)]), state(&[2], &[(-3, 0)])];
    let each = [(0, first), (1, second), (2, third)];
    let kept = vec![s0.clone(), s1.clone()];
    // v0 waits for ever and v1 once; their table is the third side's.
    let patient =
        vec![state(&[], &[(0, 0), (-1, 1)]), state(&[0], &[(0, 2)]), { state(&[0], &[(-2, 0)]) }];
    vec![
        becomes("an empty list", ruled.clone(), &[], &[]),
        becomes("an empty list for three sides", senders.clone(), &[], &[]),
        becomes("s1, then s0", ruled.clone(), &[[0, 1, 1, 1], [0, 0, 0, 1]], &[(0, s1_first)]),
        becomes("s0, then s1", ruled.clone(), &[[0, 0, 0, 1], [0, 1, 1, 1]], &[(0, s0_first)]),
        becomes("no more for s0", ruled.clone(), &[[0, 0, 0, 0], [0, 1, 0, 1]], &[(0, no_more)]),
        becomes("as they are", ruled, &[[0, 1, 0, 255], [0, 0, 0, 255]], &[(0, kept)]),
        becomes("each side", senders, &[[2, 0, 0, 1], [0, 0, 1, 255], [1, 0, 0, 0]], &each),
        becomes("v1 once", viewer(thumbnails(true)), &[[2, 1, 1, 1]], &[(2, patient)]),
    ]
}

/// Rows in which a side gets as many states as there may be (done), or one more (23).
pub fn rows_at_the_limit() -> Vec<(Design, Vec<u8>, u8)> {
    // So many states that wait, and then ones that tick.
    let waiting = |waiting: u8, states: u8| -> Vec<State> {
        let transitions = |own: u8| match own < waiting {
            true => vec![(0, own), (-1, 0)],
            false => vec![(0, 0)],
        };
        (0..states).map(|own| state(&[], &transitions(own))).collect()
    };
    let mut rows = Vec::new();
    for states in 1..=16_u8 {
        let room = 16 - states;
        for side in 0..3_u8 {
            let mut made = kernel(waiting(1, 1));
            made.sides[usize::from(side)] = waiting(1, states);
            if room < 15 {
                for (least, greatest) in [(0, room + 1), (room + 1, room + 1), (room + 1, 255)] {
                    rows.push((made.clone(), vec![side, 0, least, greatest], 23));
                }
            }
            for (least, greatest) in [(0, room), (room, room), (room, 255)] {
                rows.push((made.clone(), vec![side, 0, least, greatest], 0));
            }
        }
    }
    // Several ranges together. What fits on one side is no room for another.
    let two = design([waiting(2, 4), waiting(2, 4), waiting(2, 4)], vec![], vec![]);
    for side in 0..3_u8 {
        let other = (side + 1) % 3;
        rows.push((two.clone(), [[side, 0, 0, 6], [side, 1, 6, 255]].concat(), 0));
        rows.push((two.clone(), [[side, 0, 0, 6], [side, 1, 7, 255]].concat(), 23));
        rows.push((two.clone(), [[side, 0, 0, 6], [other, 1, 12, 255]].concat(), 0));
        rows.push((two.clone(), [[side, 0, 0, 13], [other, 1, 0, 0]].concat(), 23));
        rows.push((two.clone(), [[other, 1, 0, 0], [side, 0, 0, 13]].concat(), 23));
    }
    // Sixteen states that wait fifteen times each: 256 states, and no number wraps.
    let all: Vec<[u8; 4]> = (0..16).map(|own| [0, own, 15, 255]).collect();
    let sixteen = kernel(waiting(16, 16));
    rows.push((sixteen.clone(), all.concat(), 23));
    let none_more: Vec<[u8; 4]> = (0..16).rev().map(|own| [0, own, 0, 0]).collect();
    rows.push((sixteen, none_more.concat(), 0));
    // As many entries as a list may have, the last of which fits, or doesn't.
    let full = design([waiting(16, 16), waiting(16, 16), waiting(16, 16)], vec![], vec![]);
    let each: Vec<[u8; 4]> = (0..48)
        .map(|number| [number % 3, number / 3, 0, if number < 9 { 255 } else { 0 }])
        .collect();
    rows.push((full.clone(), each.concat(), 0));
    for last in [[2, 15, 1, 255], [2, 15, 0, 1]] {
        let over = [&each[..47], &[last]].concat();
        rows.push((full.clone(), over.concat(), 23));
    }
    rows
}

/// Lists that are refused with 22, for a design: the kernel has s0, which waits, s1, which sends,
/// s2, which reads, s3, whose tick leads to s0, and s4, which waits. The host has one state
/// that waits.
pub fn flawed() -> (Design, Vec<Vec<u8>>) {
    let kernel = vec![
        state(&[], &[(0, 0), (-1, 1)]),
        state(&[], &[(-2, 2)]),
        state(&[], &[(3, 3)]),
        state(&[], &[(0, 0), (-4, 4)]),
        state(&[], &[(-5, 0), (0, 4)]),
    ];
    let host = vec![state(&[], &[(0, 0), (-6, 0)])];
    let mut entries = vec![
        // A side that there isn't, and the third side, which has no block.
        [3, 0, 0, 1],
        [4, 0, 0, 1],
        [255, 0, 0, 1],
        [2, 0, 0, 1],
        [2, 0, 0, 255],
        // States that there aren't.
        [0, 5, 0, 1],
        [0, 16, 0, 255],
        [0, 255, 0, 1],
        [1, 1, 0, 1],
        // States that aren't delayed, and one whose tick leads elsewhere.
        [0, 1, 0, 1],
        [0, 2, 0, 1],
        [0, 3, 0, 1],
        [0, 3, 0, 255],
        // A least above the greatest.
        [0, 0, 1, 0],
        [0, 0, 15, 14],
        [0, 4, 9, 3],
    ];
    // Counts out of range.
    entries.extend((16..=255).map(|least| [0, 0, least, 255]));
    entries.extend((16..=254).map(|greatest| [0, 0, 0, greatest]));
    entries.extend([[0, 0, 16, 16], [0, 0, 16, 15], [0, 0, 255, 254], [0, 0, 15, 16]]);
    let mut lists: Vec<Vec<u8>> = Vec::new();
    for entry in entries {
        // Alone, before others and behind them.
        lists.push(entry.to_vec());
        lists.push([entry, [0, 4, 1, 1]].concat());
        lists.push([[1, 0, 2, 255], [0, 4, 0, 0], entry].concat());
    }
    // Named twice: by the same bytes, with other counts, with others between.
    lists.push([[0, 0, 0, 1]; 2].concat());
    lists.push([[0, 0, 0, 255]; 2].concat());
    lists.push([[0, 0, 0, 255], [0, 0, 1, 2]].concat());
    lists.push([[0, 4, 0, 0], [0, 0, 0, 1], [1, 0, 1, 1], [0, 4, 0, 1]].concat());
    lists.push([[1, 0, 0, 0], [0, 0, 0, 1], [1, 0, 0, 0]].concat());
    // Broken entries.
    let whole = [[0, 0, 0, 1], [0, 4, 1, 1], [1, 0, 0, 255]].concat();
    lists.extend((1..12).filter(|length| length % 4 > 0).map(|length| whole[..length].to_vec()));
    lists.push([&whole[..], &[2]].concat());
    (design([kernel, host], vec![], vec![]), lists)
}

/// What is lent with several faults at once, and the number that is answered.
pub struct Faulty {
    pub design: Vec<u8>,
    pub list: Vec<u8>,
    pub length: usize,
    pub expected: Option<u8>,
}

/// H with the four rules, in four blocks and in five, with every set of faults: of the numbers
/// that are tried, in the order in which they are, the first is answered.
pub fn faulty() -> Vec<Faulty> {
    let tried = [1, 2, 3, 4, 5, 6, 7, 8, 22, 23, 12];
    let mut all = Vec::new();
    for bits in 0..1 << tried.len() {
        let wrong: Vec<u8> =
            (0..tried.len()).filter(|at| bits >> at & 1 == 1).map(|at| tried[at]).collect();
        // s0 gets fifteen states more where there is room for fourteen; s1 is named twice.
        let mut list = vec![0, 0, 0, if wrong.contains(&23) { 15 } else { 14 }];
        if wrong.contains(&22) {
            list.extend([0, 1, 0, 0, 0, 1, 0, 0]);
        }
        let sound = ruled_handshake(false);
        for bytes in [sound.to_bytes(), sound.to_five_blocks()] {
            let design = with_faults(bytes, 1, |number| wrong.contains(&number));
            let length = design.len() - usize::from(wrong.contains(&12));
            let expected = wrong.first().copied();
            all.push(Faulty { design, list: list.clone(), length, expected });
        }
    }
    all
}

/// A rule that wants a label of some side to come, once or again and again.
pub fn wanting(random: &mut Random) -> (Vec<Formula>, Vec<u8>) {
    let wanted = proposition(random.below(SIDES), random.below(2));
    let formulas =
        vec![Formula::True, Formula::Proposition(wanted), Formula::Until(0, 1), Formula::Always(2)];
    (formulas, vec![random.from_to(2, 3) as u8])
}

/// A range with a greatest count for every state that waits.
pub fn no_wait_for_ever(random: &mut Random, design: &Design) -> Vec<Range> {
    let mut ranges = Vec::new();
    for (side, states) in design.sides.iter().enumerate() {
        let waits = |own: &usize| may_be_chosen(*own, &states[*own]);
        for state in (0..states.len()).filter(waits) {
            let least = random.below(2) as u8;
            let greatest = Some(least + random.below(2) as u8);
            ranges.push(Range { side, state, least, greatest });
        }
    }
    ranges
}

/// How often each sort of input was met.
#[derive(Debug, Default)]
pub struct Met(BTreeMap<&'static str, usize>);

impl Met {
    /// Counts what is of a sort.
    pub fn count(&mut self, sort: &'static str, so: bool) {
        *self.0.entry(sort).or_default() += usize::from(so);
    }

    /// Counts what ranges that are carried out are like.
    pub fn carried_out(&mut self, design: &Design, bytes: &[u8], ranges: &[Range]) {
        self.count("four blocks", bytes.len() == 2_048 && !ranges.is_empty());
        self.count("five blocks", bytes.len() == 2_560 && !ranges.is_empty());
        self.count("an empty list", ranges.is_empty());
        let on: [usize; SIDES] =
            from_fn(|side| ranges.iter().filter(|range| range.side == side).count());
        self.count("several on a side", on.iter().any(|&count| count > 1));
        self.count("on two sides", on.iter().filter(|&&count| count > 0).count() == 2);
        self.count("on three sides", on.iter().all(|&count| count > 0));
        self.count("sixteen states", states_after(design, ranges).contains(&16));
        for &Range { side, state, least, greatest } in ranges {
            self.count("0 to 0", (least, greatest) == (0, Some(0)));
            self.count("as often as can be", least > 0 && greatest == Some(least));
            self.count("0 to some", least == 0 && greatest.is_some_and(|most| most > 0));
            self.count("between", least > 0 && greatest.is_some_and(|most| most > least));
            self.count("0 and no greatest", (least, greatest) == (0, None));
            self.count("some and no greatest", least > 0 && greatest.is_none());
            self.count("fifteen", greatest.unwrap_or(least) == 15);
            let transitions = &design.sides[side][state].transitions;
            self.count("tick first", transitions[0].event == 0);
            self.count("send first", transitions[0].event < 0);
            let back = |t: &Transition| t.event < 0 && usize::from(t.target) == state;
            self.count("sends back", transitions.iter().any(back));
            self.count("the last state", state + 1 == design.sides[side].len() && state > 0);
        }
    }

    /// Asks that each sort was met so often.
    pub fn each(&self, least: usize) {
        assert!(self.0.values().all(|&times| times >= least), "{self:?}");
    }
}
