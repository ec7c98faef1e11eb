//! Seeded random designs, converters, converter files, lists of ranges, texts of rules and pages,
//! sound and damaged.
//!
//! The same seed always gives the same things.

mod pages;
mod ranges;
mod rules;

use std::array::from_fn;
use std::collections::BTreeSet;

use crate::bytes::{
    converter_bytes, idle_side, read_design, seal, write_blocks, Design, Formula, Link, Record,
    State, StateKind, Transition, BLOCK_BYTES, BLOCK_RECORDS, FIVE_BLOCKS, FORMULA_BYTES,
    HEADER_BYTES, MOST_STATES, PLACES, RECORD_BYTES, SIDES, SIDE_LABELS, THIRD_KIND,
};
use crate::joined::{enabling, joint_states, proposition, steps, Enabling, Joint, Step};
use crate::judge::model;
use crate::tick::{tick, PlainSides, Runner};

pub use pages::{damaged_page, page, Made};
pub use ranges::{any_ranges, flawed_list, waiting_design, with_waits, Flaw};
pub use rules::{
    any_text, damage_text, every_name, sound_text, text_at_limits, token_text, typed_line,
    typed_rule, AtLimits, Paths, Text, TextDamage, TEXT_DAMAGES,
};

/// A xorshift generator.
#[derive(Clone, Debug)]
pub struct Random(u64);

impl Random {
    /// A generator from a seed.
    pub fn new(seed: u64) -> Random {
        // Spread the seed over all bits; the state must not be zero.
        let spread = (seed ^ 0x9E37_79B9_7F4A_7C15).wrapping_mul(0xBF58_476D_1CE4_E5B9);
        Random((spread ^ (spread >> 29)) | 1)
    }

    /// The next 64 bits.
    pub fn bits(&mut self) -> u64 {
        self.0 ^= self.0 << 13;
        self.0 ^= self.0 >> 7;
        self.0 ^= self.0 << 17;
        self.0
    }

    /// A number below `end`.
    pub fn below(&mut self, end: usize) -> usize {
        ((self.bits() >> 16) % end as u64) as usize
    }

    /// A number from `from` to `to`, both included.
    pub fn from_to(&mut self, from: usize, to: usize) -> usize {
        from + self.below(to - from + 1)
    }

    /// A byte.
    pub fn byte(&mut self) -> u8 {
        self.below(256) as u8
    }

    /// True once in `times` on average.
    pub fn once_in(&mut self, times: usize) -> bool {
        self.below(times) == 0
    }

    /// One of some things.
    pub fn pick<'a, T>(&mut self, things: &'a [T]) -> &'a T {
        &things[self.below(things.len())]
    }

    /// Brings things into another order.
    pub fn shuffle<T>(&mut self, things: &mut [T]) {
        for end in (1..things.len()).rev() {
            things.swap(end, self.below(end + 1));
        }
    }
}

/// How large a random design may be.
#[derive(Clone, Copy, Debug)]
pub struct Shape {
    /// How many sides there are to a design and to its formulas: with two, the third is idle
    /// and no formula names a label of it.
    pub sides: usize,
    /// The most states of a side.
    pub states: usize,
    /// The most transitions of an input state.
    pub transitions: usize,
    /// Each side uses its labels below this, and formulas name those of every side.
    pub propositions: usize,
    /// The most formulas.
    pub formulas: usize,
    /// The most rules.
    pub rules: usize,
    /// Whether the tick of a delayed state may lead to another state; half of them do then,
    /// where the side has more than one.
    pub ticks_lead_on: bool,
}

impl Shape {
    /// Small enough to try every converter of three records.
    pub const TINY: Shape = Shape {
        sides: SIDES,
        states: 2,
        transitions: 2,
        propositions: 2,
        formulas: 7,
        rules: 2,
        ticks_lead_on: true,
    };
    /// A few states and formulas.
    pub const SMALL: Shape =
        Shape { states: 4, transitions: 3, propositions: 3, formulas: 12, rules: 3, ..Shape::TINY };
    /// As much as a design holds.
    pub const FULL: Shape = Shape {
        sides: SIDES,
        states: 16,
        transitions: 8,
        propositions: 16,
        formulas: 64,
        rules: 16,
        ticks_lead_on: true,
    };
}

/// A well-formed design, mostly a small one.
pub fn any_design(random: &mut Random) -> Design {
    let shape = match random.below(10) {
        0 => Shape::FULL,
        1 => Shape { states: 16, ..Shape::SMALL },
        2..=4 => Shape::TINY,
        _ => Shape::SMALL,
    };
    design(random, &shape)
}

/// A well-formed design. Its formulas use each other freely, or each rule is
/// a tree of its own; the latter are more often hard to keep and yet possible.
pub fn design(random: &mut Random, shape: &Shape) -> Design {
    let sides = sides(random, shape);
    if random.once_in(2) {
        let count = random.from_to(0, shape.formulas);
        let formulas = formulas(random, shape, count);
        let rules = rules(random, shape, count);
        Design { sides, formulas, rules }
    } else {
        let (formulas, rules) = trees(random, shape);
        Design { sides, formulas, rules }
    }
}

/// A design as bytes. Where its third side is idle it has five blocks half of the time,
/// else four.
pub fn any_bytes(random: &mut Random, design: &Design) -> Vec<u8> {
    if random.once_in(2) {
        design.to_bytes()
    } else {
        design.to_five_blocks()
    }
}

/// A well-formed design with a rule at least.
pub fn ruled_design(random: &mut Random, shape: &Shape) -> Design {
    let mut made = design(random, shape);
    while made.rules.is_empty() {
        made = design(random, shape);
    }
    made
}

/// The sides of a design. The third is idle at times, and mostly it has fewer states than
/// the others have.
pub fn sides(random: &mut Random, shape: &Shape) -> [Vec<State>; SIDES] {
    [side(random, shape), side(random, shape), third_side(random, shape)]
}

/// The third side of a design.
fn third_side(random: &mut Random, shape: &Shape) -> Vec<State> {
    if shape.sides < SIDES || random.once_in(4) {
        return idle_side();
    }
    let states = random.from_to(1, shape.states);
    side(random, &Shape { states, ..*shape })
}

/// A side whose states are of every kind, or one that mostly reads and so
/// leaves more to the converter.
pub fn side(random: &mut Random, shape: &Shape) -> Vec<State> {
    let states = random.from_to(1, shape.states).max(random.from_to(1, shape.states));
    let reads = random.once_in(2);
    (0..states).map(|own| state(random, shape, own, states, reads)).collect()
}

/// State `own` of a side that has `states` states.
fn state(random: &mut Random, shape: &Shape, own: usize, states: usize, reads: bool) -> State {
    let kinds = [StateKind::Input, StateKind::OutputOnly, StateKind::Delayed];
    let kind = if reads && !random.once_in(4) { &StateKind::Input } else { random.pick(&kinds) };
    let mut transitions = match kind {
        StateKind::Input => inputs(random, shape, states),
        StateKind::OutputOnly => vec![sending(random, states)],
        StateKind::Delayed => vec![sending(random, states), wait(random, shape, own, states)],
    };
    random.shuffle(&mut transitions);
    State { label: label(random, shape), transitions }
}

/// A label word, with each label half of the time. All sides use the same bits, so
/// that a test tells whether one side's label is taken for another's.
fn label(random: &mut Random, shape: &Shape) -> u16 {
    (random.bits() >> 16) as u16 & (u16::MAX >> (SIDE_LABELS - shape.propositions))
}

/// The tick of a delayed state, back to itself or on to another.
fn wait(random: &mut Random, shape: &Shape, own: usize, states: usize) -> Transition {
    let leads_on = shape.ticks_lead_on && states > 1 && random.once_in(2);
    let target = if leads_on { (own + random.from_to(1, states - 1)) % states } else { own };
    Transition { event: 0, target: target as u8 }
}

/// A transition that sends.
fn sending(random: &mut Random, states: usize) -> Transition {
    let event = -(signal(random) as i8);
    Transition { event, target: random.below(states) as u8 }
}

/// The transitions of an input state.
fn inputs(random: &mut Random, shape: &Shape, states: usize) -> Vec<Transition> {
    let count = random.from_to(1, shape.transitions).max(random.from_to(1, shape.transitions));
    let mut events = BTreeSet::new();
    while events.len() < count {
        let event = if random.once_in(3) { 0 } else { signal(random) };
        events.insert(event as i8);
    }
    let input = |event| Transition { event, target: random.below(states) as u8 };
    events.into_iter().map(input).collect()
}

/// The number of a signal: mostly small, at times any, at times the largest.
fn signal(random: &mut Random) -> usize {
    match random.below(10) {
        0 => random.from_to(1, 63),
        1 => 63,
        _ => random.from_to(1, 4),
    }
}

/// Some formulas, each of which may use the lower ones.
pub fn formulas(random: &mut Random, shape: &Shape, count: usize) -> Vec<Formula> {
    (0..count).map(|number| formula(random, shape, number)).collect()
}

/// A label of any side, as formulas name it.
fn any_proposition(random: &mut Random, shape: &Shape) -> u8 {
    proposition(random.below(shape.sides), random.below(shape.propositions))
}

/// Formula `number`.
fn formula(random: &mut Random, shape: &Shape, number: usize) -> Formula {
    let proposition = any_proposition(random, shape);
    // Mostly the formulas right before, so that rules grow deep.
    let mut operand = || {
        if random.once_in(2) {
            random.below(number)
        } else {
            random.from_to(number.saturating_sub(3), number - 1)
        }
    };
    let operands = if number == 0 { [0, 0] } else { [operand(), operand()] };
    let [a, b] = operands;
    match random.below(if number == 0 { 7 } else { 20 }) {
        0 => Formula::True,
        1 if random.once_in(3) => Formula::False,
        1..=4 => Formula::Proposition(proposition),
        5..=6 => Formula::NotProposition(proposition),
        7..=8 => Formula::And(a, b),
        9..=12 => Formula::Or(a, b),
        13..=14 => Formula::Next(a),
        15..=17 => Formula::Until(a, b),
        _ => Formula::Always(a),
    }
}

/// Some rules, mostly late formulas.
fn rules(random: &mut Random, shape: &Shape, formulas: usize) -> Vec<u8> {
    if formulas == 0 {
        return Vec::new();
    }
    let rule = |random: &mut Random| {
        let from = if random.once_in(3) { 0 } else { formulas / 2 };
        random.from_to(from, formulas - 1) as u8
    };
    (0..random.from_to(0, shape.rules)).map(|_| rule(random)).collect()
}

/// Some rules, each a tree of formulas of its own.
pub fn trees(random: &mut Random, shape: &Shape) -> (Vec<Formula>, Vec<u8>) {
    let (mut formulas, mut rules) = (Vec::new(), Vec::new());
    for _ in 0..random.from_to(0, shape.rules) {
        let mut grown = formulas.clone();
        let depth = random.from_to(2, 5);
        let root = tree(random, shape, &mut grown, depth);
        if grown.len() <= shape.formulas {
            formulas = grown;
            rules.push(root as u8);
        }
    }
    (formulas, rules)
}

/// Puts a tree of at most this depth after the formulas, and answers its root.
fn tree(random: &mut Random, shape: &Shape, formulas: &mut Vec<Formula>, depth: usize) -> usize {
    let mut below = |random: &mut Random| tree(random, shape, formulas, depth - 1);
    let made = match random.below(if depth == 0 { 5 } else { 16 }) {
        0 => Formula::True,
        1..=2 => Formula::Proposition(any_proposition(random, shape)),
        3..=4 => Formula::NotProposition(any_proposition(random, shape)),
        5 => Formula::And(below(random), below(random)),
        6..=8 => Formula::Or(below(random), below(random)),
        9..=10 => Formula::Next(below(random)),
        11..=13 => Formula::Until(below(random), below(random)),
        _ => Formula::Always(below(random)),
    };
    put(formulas, made)
}

/// A design whose rules want progress again and again: until formulas under
/// always, beside each other, inside each other and under AX. One side mostly
/// reads, so that much is left to the converter. A rule has at most 20 formulas,
/// so with up to three rules the design is well-formed.
pub fn progress_design(random: &mut Random, shape: &Shape) -> Design {
    let states = random.from_to(2, shape.states.max(2));
    let mut sides = sides(random, shape);
    sides[0] = (0..states).map(|own| state(random, shape, own, states, true)).collect();
    random.shuffle(&mut sides);
    let mut formulas = Vec::new();
    let count = random.from_to(1, shape.rules);
    let rules = (0..count).map(|_| progress_rule(random, shape, &mut formulas) as u8).collect();
    Design { sides, formulas, rules }
}

/// Puts a rule that wants progress after the formulas, and answers its number.
fn progress_rule(random: &mut Random, shape: &Shape, formulas: &mut Vec<Formula>) -> usize {
    let until = progress_until(random, shape, formulas);
    let around = match random.below(8) {
        0 => Some(Formula::Next(until)),
        1 => Some(Formula::And(until, progress_until(random, shape, formulas))),
        2 => Some(Formula::Or(until, progress_until(random, shape, formulas))),
        3 => Some(Formula::Or(tree(random, shape, formulas, 1), until)),
        4 => Some(Formula::Until(tree(random, shape, formulas, 1), until)),
        5 => Some(Formula::Until(until, tree(random, shape, formulas, 1))),
        _ => None,
    };
    let body = around.map_or(until, |around| put(formulas, around));
    let always = put(formulas, Formula::Always(body));
    if random.once_in(4) {
        let before = tree(random, shape, formulas, 1);
        put(formulas, Formula::Until(before, always))
    } else {
        always
    }
}

/// Puts an until formula after the formulas, mostly one that only wants
/// something to come, and answers its number.
fn progress_until(random: &mut Random, shape: &Shape, formulas: &mut Vec<Formula>) -> usize {
    let before = if random.once_in(3) {
        tree(random, shape, formulas, 1)
    } else {
        put(formulas, Formula::True)
    };
    let goal = tree(random, shape, formulas, 1);
    put(formulas, Formula::Until(before, goal))
}

/// Puts a formula after the others, and answers its number.
fn put(formulas: &mut Vec<Formula>, formula: Formula) -> usize {
    formulas.push(formula);
    formulas.len() - 1
}

/// What was done to sound bytes.
#[derive(Clone, Copy, Debug, PartialEq, Eq)]
pub enum Damage {
    /// The length is another.
    Length,
    /// One byte is another, and the checks are as they were.
    Byte,
    /// One byte or more are others, and the checks are right again.
    Repaired,
    /// A design has a block more or less, so that its length is a design's.
    Blocks,
}

/// Damages the bytes of a design or of a converter file.
pub fn damage(random: &mut Random, bytes: &mut Vec<u8>) -> Damage {
    match random.below(8) {
        0 if random.once_in(3) && read_design(bytes).is_ok() => {
            change_blocks(random, bytes);
            Damage::Blocks
        }
        0 => {
            change_length(random, bytes);
            Damage::Length
        }
        1 => {
            let at = random.below(bytes.len());
            change_byte(random, bytes, at);
            Damage::Byte
        }
        _ => {
            for _ in 0..random.from_to(1, 2) {
                change_telling_byte(random, bytes);
            }
            seal(bytes);
            Damage::Repaired
        }
    }
}

/// Gives some bytes another length.
pub fn change_length(random: &mut Random, bytes: &mut Vec<u8>) {
    let length = bytes.len();
    match random.below(4) {
        0 => bytes.truncate(length - 1),
        1 => bytes.push(random.byte()),
        2 => bytes.truncate(random.below(length)),
        _ => bytes.resize(length + random.from_to(1, BLOCK_BYTES), 0),
    }
}

/// Leaves out one of a design's five blocks, or puts a fifth among four: one of a third
/// side, or any of them once more. Half of the time it is where a third side's belongs.
fn change_blocks(random: &mut Random, bytes: &mut Vec<u8>) {
    let blocks = bytes.len() / BLOCK_BYTES;
    let place = BLOCK_BYTES * if random.once_in(2) { SIDES - 1 } else { random.below(blocks) };
    if bytes.len() == FIVE_BLOCKS {
        bytes.drain(place..place + BLOCK_BYTES);
    } else {
        let third = random.once_in(2);
        let copied = BLOCK_BYTES * random.below(if third { SIDES - 1 } else { blocks });
        let mut block = bytes[copied..copied + BLOCK_BYTES].to_vec();
        if third {
            block[0] = THIRD_KIND;
            seal(&mut block);
        }
        bytes.splice(place..place, block);
    }
}

/// Gives one byte another value, mostly a near or a small one.
fn change_byte(random: &mut Random, bytes: &mut [u8], at: usize) {
    let old = bytes[at];
    while bytes[at] == old {
        bytes[at] = match random.below(4) {
            0 => old.wrapping_add(1),
            1 => old.wrapping_sub(1),
            2 => random.below(20) as u8,
            _ => random.byte(),
        };
    }
}

/// Changes a byte that tells something, in a design at times a proposition.
fn change_telling_byte(random: &mut Random, bytes: &mut [u8]) {
    let named = if random.once_in(6) { named_propositions(bytes) } else { vec![] };
    if named.is_empty() {
        let at = telling_byte(random, bytes);
        change_byte(random, bytes, at);
    } else {
        let at = *random.pick(&named);
        change_proposition(random, bytes, at);
    }
}

/// The places of the bytes in which the formulas of a design name propositions; none
/// where the bytes aren't a sound design.
pub fn named_propositions(bytes: &[u8]) -> Vec<usize> {
    let formulas = read_design(bytes).map_or(vec![], |design| design.formulas);
    let names = |number: &usize| {
        matches!(formulas[*number], Formula::Proposition(_) | Formula::NotProposition(_))
    };
    let first = bytes.len().saturating_sub(2 * BLOCK_BYTES) + HEADER_BYTES;
    let place = |number: usize| first + FORMULA_BYTES * number + 1;
    (0..formulas.len()).filter(names).map(place).collect()
}

/// Gives a proposition another value: the same label of another side, the first or
/// the last label of a side, or the largest byte. Two sides more than there are count as
/// sides here.
fn change_proposition(random: &mut Random, bytes: &mut [u8], at: usize) {
    let old = bytes[at];
    while bytes[at] == old {
        let side = random.below(SIDES + 2);
        bytes[at] = match random.below(4) {
            0 => proposition(side, usize::from(old) % SIDE_LABELS),
            1 => proposition(side, 0),
            2 => proposition(side, SIDE_LABELS - 1),
            _ => u8::MAX,
        };
    }
}

/// The place of a byte, mostly in a header or among the records of a block.
fn telling_byte(random: &mut Random, bytes: &[u8]) -> usize {
    let start = BLOCK_BYTES * random.below(bytes.len() / BLOCK_BYTES);
    let end = bytes[start..start + BLOCK_BYTES - 2].iter().rposition(|&byte| byte != 0);
    match random.below(8) {
        0 => start + random.below(HEADER_BYTES),
        1 => start + random.below(BLOCK_BYTES - 2),
        _ => start + random.below(end.unwrap_or(0) + 3).min(BLOCK_BYTES - 3),
    }
}

/// Records that are right in themselves, whatever the sides are.
pub fn loose_converter(random: &mut Random, records: usize) -> Vec<Record> {
    (0..records).map(|_| loose_record(random, records)).collect()
}

/// One record that is right in itself, in a converter of `records` records.
pub fn loose_record(random: &mut Random, records: usize) -> Record {
    let count = random.from_to(1, PLACES);
    let mut links: Vec<Link> = Vec::new();
    while links.len() < count {
        let events = from_fn(|_| random.below(127) as i8 - 63);
        if links.iter().all(|link| link.events != events) {
            links.push(Link { events, next: random.below(records) as u16 });
        }
    }
    Record { states: from_fn(|_| random.below(MOST_STATES) as u8), links }
}

/// A converter matched to the sides of a design, with at most `spare` records
/// beyond those that its transitions need.
pub fn matched_converter(random: &mut Random, design: &Design, spare: usize) -> Vec<Record> {
    let mut named: Vec<Joint> = vec![[0; SIDES]];
    let mut spare = spare;
    let mut converter = Vec::new();
    while converter.len() < named.len() {
        let joint = named[converter.len()];
        let mut links = Vec::new();
        for step in enabled(random, design, joint) {
            let fitting: Vec<usize> = (0..named.len()).filter(|&at| named[at] == step.to).collect();
            let fresh = fitting.is_empty() || (spare > 0 && random.once_in(3));
            let next = if fresh {
                spare -= usize::from(!fitting.is_empty());
                named.push(step.to);
                named.len() - 1
            } else {
                *random.pick(&fitting)
            };
            links.push(Link { events: step.events.map(|event| -event), next: next as u16 });
        }
        random.shuffle(&mut links);
        converter.push(Record { states: joint.map(|state| state as u8), links });
    }
    converter
}

/// Transitions of a joint state that a converter may enable together.
fn enabled(random: &mut Random, design: &Design, joint: Joint) -> Vec<Step> {
    let mut steps = steps(design, joint);
    match enabling(design, joint) {
        Enabling::All => steps,
        duty @ Enabling::OneForEachChoice(_) => {
            duty.turns(steps).iter().map(|turn| *random.pick(turn)).collect()
        }
        Enabling::Some => {
            random.shuffle(&mut steps);
            let most = if random.once_in(2) { 1 } else { PLACES };
            steps.truncate(random.from_to(1, most));
            steps
        }
    }
}

/// The converter with one record for each joint state that enables the first
/// transitions it may. Where it keeps the rules there is little to find.
pub fn lax_converter(design: &Design) -> Vec<Record> {
    let joints = joint_states(design);
    let number = |to: Joint| joints.iter().position(|&joint| joint == to).expect("it is there");
    let lax_record = |&joint: &Joint| {
        let steps = steps(design, joint);
        let enabled: Vec<Step> = match enabling(design, joint) {
            Enabling::Some => steps.into_iter().take(PLACES).collect(),
            duty => duty.turns(steps).iter().map(|turn| turn[0]).collect(),
        };
        let link = |step: &Step| {
            let next = number(step.to) as u16;
            Link { events: step.events.map(|event| -event), next }
        };
        let links = enabled.iter().map(link).collect();
        Record { states: joint.map(|state| state as u8), links }
    };
    joints.iter().map(lax_record).collect()
}

/// A design and a matched converter that keeps its rules, of which one at
/// least fails under the lax converter.
pub fn planted_design(random: &mut Random, shape: &Shape) -> (Design, Vec<Record>) {
    loop {
        let sides = sides(random, shape);
        let formulas = if random.once_in(2) {
            trees(random, shape).0
        } else {
            formulas(random, shape, shape.formulas / 2)
        };
        let mut design = Design { sides, formulas, rules: vec![] };
        let spare = random.below(8);
        let converter = matched_converter(random, &design, spare);
        let holding = holding_at_start(&design, &converter);
        let lax = holding_at_start(&design, &lax_converter(&design));
        let telling: Vec<usize> = holding.difference(&lax).copied().collect();
        if telling.is_empty() {
            continue;
        }
        let others: Vec<usize> = holding.into_iter().collect();
        design.rules.push(*random.pick(&telling) as u8);
        for _ in 0..random.below(shape.rules) {
            let pool = if random.once_in(2) { &telling } else { &others };
            design.rules.push(*random.pick(pool) as u8);
        }
        return (design, converter);
    }
}

/// The formulas that hold at the start under a matched converter.
fn holding_at_start(design: &Design, converter: &[Record]) -> BTreeSet<usize> {
    let holding = model(design, converter).holding(&design.formulas);
    (0..holding.len()).filter(|&number| holding[number].contains(&0)).collect()
}

/// A converter that is matched but for one small change, which may happen to
/// leave it matched. It stays right in itself.
pub fn nearly_matched_converter(random: &mut Random, design: &Design, spare: usize) -> Vec<Record> {
    let mut converter = matched_converter(random, design, spare);
    let records = converter.len();
    let at = random.below(records);
    let links = converter[at].links.len();
    let link = random.below(links);
    match random.below(6) {
        0 if links > 1 => {
            converter[at].links.remove(link);
        }
        1 if links < PLACES => {
            let events = random.pick(&steps(design, converter[at].states.map(usize::from))).events;
            let events = events.map(|event| -event);
            if converter[at].links.iter().all(|link| link.events != events) {
                converter[at].links.push(Link { events, next: random.below(records) as u16 });
            }
        }
        2 => converter[at].links[link].next = random.below(records) as u16,
        3 => {
            let mut events = converter[at].links[link].events;
            let side = random.below(SIDES);
            events[side] = if random.once_in(2) { -events[side] } else { signal(random) as i8 };
            if converter[at].links.iter().all(|link| link.events != events) {
                converter[at].links[link].events = events;
            }
        }
        4 => converter[at].states[random.below(SIDES)] = random.below(MOST_STATES) as u8,
        _ => converter.swap(0, at),
    }
    converter
}

/// A damaged converter in memory: another length, or some bytes changed.
pub fn damaged_converter(random: &mut Random, records: &[Record]) -> Vec<u8> {
    let mut bytes = converter_bytes(records);
    if random.once_in(6) {
        change_length(random, &mut bytes);
    } else {
        let at = RECORD_BYTES * random.below(records.len()) + random.below(RECORD_BYTES);
        change_byte(random, &mut bytes, at);
    }
    bytes
}

/// A converter in memory of any sort, mostly one that fits the design.
pub fn any_converter(random: &mut Random, design: &Design) -> Vec<u8> {
    let spare = random.below(6);
    match random.below(8) {
        0 => {
            let records = random.from_to(1, 20);
            converter_bytes(&loose_converter(random, records))
        }
        1..=2 => {
            let records = matched_converter(random, design, spare);
            damaged_converter(random, &records)
        }
        3..=4 => converter_bytes(&nearly_matched_converter(random, design, spare)),
        _ => converter_bytes(&matched_converter(random, design, spare)),
    }
}

/// The blocks of a converter that is right in itself.
pub fn block_file(random: &mut Random, most_records: usize) -> Vec<u8> {
    let records = random.from_to(1, most_records);
    let converter = converter_bytes(&loose_converter(random, records));
    let mut file = vec![0; BLOCK_BYTES * records.div_ceil(BLOCK_RECORDS)];
    write_blocks(&converter, &mut file).expect("the converter is right in itself");
    file
}

/// What the sides show at each call of a run: mostly what their tables
/// allow where they are then, at times anything at all.
pub fn script(
    random: &mut Random,
    design: &Design,
    converter: &[u8],
    calls: usize,
) -> Vec<[i8; SIDES]> {
    let mut runner = Runner { record: 0, delivered: [0; SIDES] };
    let mut sides = PlainSides::default();
    let mut script = Vec::new();
    for _ in 0..calls {
        let mut shown = from_fn(|side| {
            let transitions = &design.sides[side][sides.states[side]].transitions;
            random.pick(transitions).event.min(0)
        });
        if random.once_in(8) {
            shown[random.below(SIDES)] = random.byte() as i8;
        }
        script.push(shown);
        if tick(converter, &mut runner, shown).is_ok()
            && sides.deliver(design, runner.delivered).is_err()
        {
            sides = PlainSides::default();
        }
    }
    script
}
