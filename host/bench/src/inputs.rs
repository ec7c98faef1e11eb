//! What is measured: designs and converters of growing size.

use checker::bytes::{
    converter_bytes, idle_side, positions, Design, Formula, Link, Record, State, Transition, SIDES,
};
use checker::generate::{formulas, ruled_design, Random, Shape};
use checker::ranges::{list_bytes, Range};

/// A design and a converter matched to it, as bytes.
pub struct Judged {
    /// The design.
    pub design: Vec<u8>,
    /// The converter.
    pub converter: Vec<u8>,
}

/// Designs and converters of one sort, in growing sizes, and the rule that fails first.
pub struct Ruled {
    /// What they are like.
    pub job: &'static str,
    /// Its place, or none where every rule holds.
    pub fails: Option<u8>,
    /// The designs and converters.
    pub judged: Vec<Judged>,
}

/// Texts of rules of one sort, in growing sizes, and how often each is read.
pub struct Typed {
    /// What they are like.
    pub job: &'static str,
    /// How often each is read.
    pub calls: usize,
    /// The texts.
    pub texts: Vec<Vec<u8>>,
}

/// A design and a list of ranges for it, as bytes.
pub struct Ranged {
    /// The design.
    pub design: Vec<u8>,
    /// The list.
    pub list: Vec<u8>,
}

/// Designs to search, by what they are like, in growing sizes, of which `sizes` are made.
pub fn searched(sizes: usize) -> Vec<(&'static str, Vec<Vec<Design>>)> {
    let kept = |counts: &[usize], make: &dyn Fn(usize) -> Design| -> Vec<Vec<Design>> {
        counts.iter().take(sizes).map(|&kept| vec![make(kept)]).collect()
    };
    let climbing = [(4, 2, 4), (8, 4, 4), (16, 8, 4), (16, 12, 5)];
    vec![
        ("16 by 16 states, an until", kept(&[2, 4, 6, 8], &|kept| grid(&[16; 2], kept, 1))),
        ("16 by 16 states, no until", kept(&[2, 4, 6, 8], &|kept| grid(&[16; 2], kept, 0))),
        (
            "16 by 16 states, an until, 64 joint moves",
            kept(&[2, 4, 6, 8], &|kept| crowded(2, kept)),
        ),
        ("4 by 4 states, an until", kept(&[6, 8, 10, 12], &|kept| grid(&[4; 2], kept, 1))),
        ("1 by 1 state, rules that are true", kept(&[10, 12, 14, 16], &trivial)),
        (
            "rings of 16 and 15, an until under always",
            kept(&[2, 4, 6, 8], &|kept| rings(&[16, 15], kept)),
        ),
        ("rings of 16 and 15, an always that fails late", kept(&[3, 5, 7], &late)),
        (
            "levels, four or five untils",
            climbing
                .into_iter()
                .take(sizes)
                .map(|(states, ring_states, untils)| vec![levels(states, ring_states, untils)])
                .collect(),
        ),
        ("twenty random designs of two sides", each(sizes, |size| random(2, size, false))),
        (
            "twenty random sets of rules over rings of 16 and 15",
            each(sizes, |size| random(2, size, true)),
        ),
        ("16 by 16 by 16 states, an until", kept(&[2, 4], &|kept| grid(&[16; 3], kept, 1))),
        (
            "16 by 16 by 16 states, an until, 512 joint moves",
            kept(&[2, 4], &|kept| crowded(3, kept)),
        ),
        ("8 by 8 by 8 states, two untils", kept(&[4, 6], &|kept| grid(&[8; 3], kept, 2))),
        ("4 by 4 by 4 states, an until", kept(&[4, 6, 8, 10], &|kept| grid(&[4; 3], kept, 1))),
        (
            "rings of 16, 15 and 7, an until under always",
            kept(&[2, 4], &|kept| rings(&[16, 15, 7], kept)),
        ),
        ("twenty random designs of three sides", each(sizes, |size| random(3, size, false))),
    ]
}

/// A state from its label word and its transitions.
fn state(label: u16, transitions: &[(i8, usize)]) -> State {
    let transition = |&(event, target): &(i8, usize)| Transition { event, target: target as u8 };
    State { label, transitions: transitions.iter().map(transition).collect() }
}

/// A ring that ticks on, reads 1 and stays, or reads 2 and steps back. The
/// last state has label `last`, every odd one label `odd`.
fn ring(states: usize, last: u16, odd: u16) -> Vec<State> {
    let label = |own: usize| {
        let at_end = if own + 1 == states { 1 << last } else { 0 };
        let oddly = if own % 2 == 1 { 1 << odd } else { 0 };
        at_end | oddly
    };
    let turns = |own: usize| [(0, (own + 1) % states), (1, own), (2, (own + states - 1) % states)];
    (0..states).map(|own| state(label(own), &turns(own))).collect()
}

/// Two or three sides, of which the third is idle where there are two.
fn beside(sides: impl Iterator<Item = Vec<State>>) -> [Vec<State>; SIDES] {
    let mut sides: Vec<Vec<State>> = sides.collect();
    sides.resize_with(SIDES, idle_side);
    sides.try_into().expect("there are at most three")
}

/// Rings of so many states. Ring k has label 2k at its end and label 2k + 1 in odd states.
fn rings_of(counts: &[usize]) -> [Vec<State>; SIDES] {
    let ring_of = |(side, &states): (usize, &usize)| {
        let label = 2 * side as u16;
        ring(states, label, label + 1)
    };
    beside(counts.iter().enumerate().map(ring_of))
}

/// The proposition that ring k is at its end: label 2k of side k.
fn end_of(side: usize) -> u8 {
    18 * side as u8
}

/// Rings of so many states, and rules that keep so many formulas: again and again all are at
/// their ends, if there is an until; and the last is while the first isn't, if there are two;
/// and "now or at the next tick" for the others.
fn grid(counts: &[usize], kept: usize, untils: usize) -> Design {
    let mut formulas = all_at_their_ends(counts.len());
    let mut rules = Vec::new();
    let mut until = |formulas: &mut Vec<Formula>| {
        let at = formulas.len();
        formulas.extend([Formula::Until(0, at - 1), Formula::Always(at)]);
        rules.push(at as u8 + 1);
    };
    if untils > 0 {
        until(&mut formulas);
    }
    if untils > 1 {
        let (at, last) = (formulas.len(), counts.len() - 1);
        formulas.extend([
            Formula::Proposition(end_of(last)),
            Formula::NotProposition(end_of(0)),
            Formula::And(at, at + 1),
        ]);
        until(&mut formulas);
    }
    more_kept(&mut formulas, &mut rules, kept - 2 * untils);
    let made = Design { sides: rings_of(counts), formulas, rules };
    assert_eq!((made.kept().len(), made.untils().len()), (kept, untils));
    made
}

/// Formula 0 is true; the last formula: so many rings are at their ends.
fn all_at_their_ends(rings: usize) -> Vec<Formula> {
    let mut formulas = vec![Formula::True];
    formulas.extend((0..rings).map(|side| Formula::Proposition(end_of(side))));
    for side in 1..rings {
        let both = if side == 1 { 1 } else { formulas.len() - 1 };
        formulas.push(Formula::And(both, side + 1));
    }
    formulas
}

/// The same with an until, where every state has eight transitions.
fn crowded(rings: usize, kept: usize) -> Design {
    let mut made = grid(&vec![16; rings], kept, 1);
    for side in &mut made.sides[..rings] {
        for (own, state) in side.iter_mut().enumerate() {
            let transition =
                |event: u8| Transition { event: event as i8, target: (own as u8 + event + 1) % 16 };
            state.transitions = (0..8).map(transition).collect();
        }
    }
    made
}

/// Rules "now or at the next tick", each of which keeps two formulas.
fn more_kept(formulas: &mut Vec<Formula>, rules: &mut Vec<u8>, kept: usize) {
    assert!(kept.is_multiple_of(2), "each such rule keeps itself and what is next");
    for number in 0..kept / 2 {
        let at = formulas.len();
        let literal = |holds: bool, proposition: u8| match holds {
            true => Formula::Proposition(proposition),
            false => Formula::NotProposition(proposition),
        };
        formulas.extend([
            literal(number % 2 == 0, 1),
            literal(number / 2 % 2 == 0, 19),
            Formula::Or(at, at + 1),
            Formula::Next(at + 2),
            Formula::Or(at, at + 3),
        ]);
        rules.push(at as u8 + 4);
    }
}

/// One ticking state on each side, and so many rules that are true.
fn trivial(rules: usize) -> Design {
    let formulas = vec![Formula::True; rules];
    Design { sides: [(); SIDES].map(|()| idle_side()), formulas, rules: (0..rules as u8).collect() }
}

/// Rings of so many states that only tick.
fn ticking(counts: &[usize]) -> [Vec<State>; SIDES] {
    rings_of(counts).map(|mut states| {
        states.iter_mut().for_each(|state| state.transitions.truncate(1));
        states
    })
}

/// Again and again all rings are at their ends, once in as many ticks as there are joint states.
fn rings(counts: &[usize], kept: usize) -> Design {
    Design { sides: ticking(counts), ..grid(counts, kept, 1) }
}

/// Both rings are at their ends at some time, or never: whatever owes the
/// second is lost, and is found so one tick after the other.
fn late(kept: usize) -> Design {
    let mut formulas = all_at_their_ends(2);
    formulas.extend([
        Formula::Until(0, 3),
        Formula::NotProposition(0),
        Formula::NotProposition(18),
        Formula::Or(5, 6),
        Formula::Always(7),
        Formula::Or(8, 4),
    ]);
    let mut rules = vec![9];
    more_kept(&mut formulas, &mut rules, kept - 3);
    Design { sides: ticking(&[16, 15]), formulas, rules }
}

/// A side that climbs through its levels or falls back to the start, beside a
/// ring; several levels must be reached again and again.
fn levels(states: usize, ring_states: usize, untils: usize) -> Design {
    let level = |own: usize| {
        let place = (own * untils).checked_rem(states).filter(|&at| at < untils);
        let label = place.map_or(0, |_| 1 << (own * untils / states));
        state(label, &[(0, (own + 1) % states), (1, 0)])
    };
    let side = (0..states).map(level).collect();
    let mut formulas = vec![Formula::True];
    let mut all = 0;
    for number in 0..untils {
        let at = formulas.len();
        formulas.extend([Formula::Proposition(number as u8), Formula::Until(0, at)]);
        if number > 0 {
            formulas.push(Formula::And(all, at + 1));
        }
        all = formulas.len() - 1;
    }
    formulas.push(Formula::Always(all));
    let rules = vec![formulas.len() as u8 - 1];
    Design { sides: [side, ring(ring_states, 14, 15), idle_side()], formulas, rules }
}

/// Twenty random designs of two or three sides, with at most so many positions and more than
/// half; all of their sides, or only labels and rules over two rings that tick on. The tick of
/// a delayed state leads back to it: it may wait for ever.
fn random(sides: usize, size: usize, over_rings: bool) -> Vec<Design> {
    let mut random = Random::new(size as u64);
    let shape = Shape {
        sides,
        transitions: 4,
        propositions: 3,
        formulas: 24,
        rules: 5,
        ticks_lead_on: false,
        ..Shape::FULL
    };
    let mut made = Vec::new();
    while made.len() < 20 {
        let mut design = ruled_design(&mut random, &shape);
        if over_rings {
            design.sides = beside([16, 15].into_iter().map(|states| {
                let mut label =
                    || if random.once_in(8) { 1 << random.below(shape.propositions) } else { 0 };
                (0..states).map(|own| state(label(), &[(0, (own + 1) % states)])).collect()
            }));
        }
        let as_many = sides < SIDES || design.sides[SIDES - 1] != idle_side();
        if as_many && (size as u128 / 2 + 1..=size as u128).contains(&positions(&design)) {
            made.push(design);
        }
    }
    made
}

const SIZES: [usize; 4] = [1_024, 4_096, 16_384, 65_536];

/// What is made of the smallest of the sizes, so many of them.
fn each<Made>(sizes: usize, make: impl Fn(usize) -> Made) -> Vec<Made> {
    SIZES.into_iter().take(sizes).map(make).collect()
}

/// Designs with 64 formulas and converters to judge, by what they are like, in
/// growing sizes, of which `sizes` are made.
pub fn judged(sizes: usize) -> Vec<(&'static str, Vec<Judged>)> {
    let random = |records| mesh(records, many_formulas());
    let ahead = |records| chain(records, false, until_formulas());
    let mixed = |records| chain(records, true, until_formulas());
    let failing = |records| chain(records, true, always_formulas());
    vec![
        ("64 random formulas, random links", each(sizes, random)),
        ("64 formulas, eight untils down a chain in order", each(sizes, ahead)),
        ("64 formulas, eight untils down a shuffled chain", each(sizes, mixed)),
        (
            "64 formulas, eight always that fail at the end of a shuffled chain",
            each(sizes, failing),
        ),
    ]
}

/// 64 formulas of every kind over two labels of each side, of which the last 16 are rules.
fn many_formulas() -> (Vec<Formula>, Vec<u8>) {
    let shape = Shape { sides: 2, propositions: 2, ..Shape::FULL };
    (formulas(&mut Random::new(64), &shape, 64), (48..64).collect())
}

/// 64 formulas with eight untils that wait for proposition 0.
fn until_formulas() -> (Vec<Formula>, Vec<u8>) {
    (eight_times(Formula::Proposition(0), Formula::Until(0, 1)), vec![2, 63])
}

/// 64 formulas with eight always that fail where proposition 0 is to come.
fn always_formulas() -> (Vec<Formula>, Vec<u8>) {
    (eight_times(Formula::NotProposition(0), Formula::Always(1)), vec![0])
}

/// Formula 1, formulas 2 to 9, which are the same, and others over them.
fn eight_times(literal: Formula, same: Formula) -> Vec<Formula> {
    let mut formulas = vec![Formula::True, literal];
    formulas.extend([same; 8]);
    while formulas.len() < 64 {
        let at = formulas.len();
        formulas.push(if at % 2 == 0 {
            Formula::And(at - 1, at - 8)
        } else {
            Formula::Or(at - 2, at - 3)
        });
    }
    formulas
}

/// Designs with 64 formulas and sixteen rules, which need all of them, over the converters of
/// [`judged`], by what they are like, in growing sizes, of which `sizes` are made.
pub fn ruled(sizes: usize) -> Vec<Ruled> {
    let made = |job, fails, make: &dyn Fn(usize) -> Judged| {
        let judged = each(sizes, make);
        Ruled { job, fails, judged }
    };
    // A ring is odd at its end, and elsewhere too; a chain stays at its end.
    let (end, ahead) = (Formula::Proposition(0), Formula::NotProposition(0));
    vec![
        made("the first of sixteen rules fails, random links", Some(0), &|records| {
            mesh(records, sixteen(implied(1, 0), implied(0, 1)))
        }),
        made("the first of sixteen rules fails, a chain in order", Some(0), &|records| {
            chain(records, false, sixteen(again(ahead), again(end)))
        }),
        made("the first of sixteen rules fails, a shuffled chain", Some(0), &|records| {
            chain(records, true, sixteen(again(ahead), again(end)))
        }),
        made("sixteen rules hold, random links", None, &|records| {
            mesh(records, sixteen(implied(0, 1), implied(0, 1)))
        }),
        made("sixteen rules hold, a chain in order", None, &|records| {
            chain(records, false, sixteen(again(end), again(end)))
        }),
        made("sixteen rules hold, a shuffled chain", None, &|records| {
            chain(records, true, sixteen(again(end), again(end)))
        }),
        made("sixteen rules that share formulas hold, a chain in order", None, &|records| {
            chain(records, false, shared_formulas())
        }),
        made("sixteen rules that share formulas hold, a shuffled chain", None, &|records| {
            chain(records, true, shared_formulas())
        }),
    ]
}

/// Sixteen rules of four formulas each, of which no two share one: the first and fifteen others.
fn sixteen(
    first: impl Fn(usize) -> [Formula; 4],
    others: impl Fn(usize) -> [Formula; 4],
) -> (Vec<Formula>, Vec<u8>) {
    let rule = |at: usize| if at == 0 { first(at) } else { others(at) };
    ((0..64).step_by(4).flat_map(rule).collect(), (3..64).step_by(4).collect())
}

/// Always, where proposition a holds, b does; behind so many formulas.
fn implied(a: u8, b: u8) -> impl Fn(usize) -> [Formula; 4] {
    let literals = [Formula::NotProposition(a), Formula::Proposition(b)];
    move |at| [literals[0], literals[1], Formula::Or(at, at + 1), Formula::Always(at + 2)]
}

/// Again and again the literal holds; behind so many formulas.
fn again(literal: Formula) -> impl Fn(usize) -> [Formula; 4] {
    move |at| [Formula::True, literal, Formula::Until(at, at + 1), Formula::Always(at + 2)]
}

/// The 64 formulas with eight untils, and rules of which each needs formulas that others need.
fn shared_formulas() -> (Vec<Formula>, Vec<u8>) {
    // No formula is over formulas 3, 5 and 7.
    (until_formulas().0, [3, 5, 7].into_iter().chain(51..64).collect())
}

/// Converters for the files and the tick, in growing sizes, of which `sizes` are made.
pub fn converters(sizes: usize) -> Vec<Vec<u8>> {
    each(sizes, |records| mesh(records, (vec![], vec![])).converter)
}

/// A converter over two rings of four states, with two or three random links in each record.
fn mesh(records: usize, (formulas, rules): (Vec<Formula>, Vec<u8>)) -> Judged {
    let sides = [ring(4, 0, 1), ring(4, 0, 1), idle_side()];
    let design = Design { sides, formulas, rules };
    let mut random = Random::new(records as u64);
    // Record r names the joint state of the number r modulo 16.
    let joint = |number: usize| [number % 16 / 4, number % 4, 0];
    let record = |number: usize| {
        let here = joint(number);
        let mut links: Vec<Link> = Vec::new();
        for _ in 0..random.from_to(2, 3) {
            let places = [0, 1].map(|side: usize| {
                let transitions = &design.sides[side][here[side]].transitions;
                transitions[random.below(transitions.len())]
            });
            let events = [-places[0].event, -places[1].event, 0];
            let to = usize::from(places[0].target) * 4 + usize::from(places[1].target);
            let next = (random.below(records / 16) * 16 + to) as u16;
            if links.iter().all(|link| link.events != events) {
                links.push(Link { events, next });
            }
        }
        Record { states: here.map(|state| state as u8), links }
    };
    let converter: Vec<Record> = (0..records).map(record).collect();
    Judged { design: design.to_bytes(), converter: converter_bytes(&converter) }
}

/// A converter that is one long chain through all its records and stays at
/// its end, where proposition 0 holds; in order or shuffled.
fn chain(records: usize, shuffled: bool, (formulas, rules): (Vec<Formula>, Vec<u8>)) -> Judged {
    // Ticks stay in state 0, reading 1 leads to state 1 with proposition 0.
    let walking = vec![state(0, &[(0, 0), (1, 1)]), state(1, &[(0, 1)])];
    let design = Design { sides: [walking, idle_side(), idle_side()], formulas, rules };
    let mut order: Vec<usize> = (0..records).collect();
    if shuffled {
        Random::new(records as u64).shuffle(&mut order[1..]);
    }
    let mut converter = vec![Record { states: [0; SIDES], links: vec![] }; records];
    for (at, &own) in order.iter().enumerate() {
        let end = at + 1 == records;
        let (event, next) = match order.get(at + 1) {
            None => (0, own),
            Some(&next) if at + 2 == records => (-1, next),
            Some(&next) => (0, next),
        };
        converter[own].states[0] = u8::from(end);
        converter[own].links.push(Link { events: [event, 0, 0], next: next as u16 });
    }
    Judged { design: design.to_bytes(), converter: converter_bytes(&converter) }
}

/// Designs of three sides and 64 formulas, with lists of growing length, of which `sizes` are made.
/// Each side has 16 states afterwards: one that waits up to fifteen times before, or four that
/// wait up to three times, or sixteen that wait no more.
pub fn ranges(sizes: usize) -> Vec<Ranged> {
    [1, 4, 16].into_iter().take(sizes).map(ranged).collect()
}

/// So many states that wait on each side, with a range for each.
fn ranged(states: usize) -> Ranged {
    let side = || (0..states).map(|own| state(1, &[(0, own), (-1, (own + 1) % states)])).collect();
    let (formulas, rules) = many_formulas();
    let design = Design { sides: [(); SIDES].map(|()| side()), formulas, rules };
    let greatest = 16 / states - 1;
    let entry = |side: usize, state: usize| Range {
        side,
        state,
        least: greatest as u8 / 2,
        greatest: Some(greatest as u8),
    };
    let entries = (0..SIDES).flat_map(|side| (0..states).map(move |own| (side, own)));
    let ranges: Vec<Range> = entries.map(|(side, own)| entry(side, own)).collect();
    Ranged { design: design.to_bytes(), list: list_bytes(&ranges) }
}

/// Texts of rules to read, by what they are like, in growing sizes, of which `sizes` are made. Of the
/// long ones, those of `!` and of spaces are read; the others make over 64 formulas, which is told
/// once the whole text was read.
pub fn typed(sizes: usize) -> Vec<Typed> {
    let of_pieces = |job, piece: &str, end: &str| {
        let long = |length: usize| format!("{}{end}\n", piece.repeat(length / piece.len()));
        let lengths = [1 << 12, 1 << 16, 1 << 20];
        let texts = lengths.into_iter().take(sizes).map(|length| long(length).into_bytes());
        Typed { job, calls: 1, texts: texts.collect() }
    };
    let short = [four_rules(), sixteen_rules()].into_iter().take(sizes).collect();
    vec![
        Typed { job: "1,000 times rules, four and sixteen of them", calls: 1_000, texts: short },
        of_pieces("rules, a line of !", "!", "p0"),
        of_pieces("rules, a line of spaces and a name", " ", "p0"),
        of_pieces("rules, a line of AX", "AX ", "p0"),
        of_pieces("rules, a chain of &", "p0&", "p0"),
        of_pieces("rules, a chain of ->", "p0->", "p0"),
        of_pieces("rules, a chain of rules in brackets", "(AG (p0 | !p47)) & ", "p0"),
        of_pieces("rules, lines of a name", "p0\n", "p0"),
    ]
}

/// The rules of the handshake pair.
fn four_rules() -> Vec<u8> {
    b"AG (p0 & p18 -> AX (p1 | !p19))\n\
      AG (p19 & p1 -> AX (p0 | !p18))\n\
      AG (p1 & p18 -> AX (p19 | !p0))\n\
      AG (p0 & p19 -> AX (!p1 | p18))\n"
        .to_vec()
}

/// As many rules as a text may have, which make as many formulas as it may: four each.
fn sixteen_rules() -> Vec<u8> {
    let rule = |number: usize| format!("AG (p{number} -> p{})\n", 47 - 2 * number);
    (0..16).flat_map(|number| rule(number).into_bytes()).collect()
}
