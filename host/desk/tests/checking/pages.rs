//! Pages and converters at random, and how they are written.

use std::array::from_fn;

use checker::bytes::{
    converter_bytes, write_blocks, Design, Record, BLOCK_BYTES, BLOCK_RECORDS, SIDES, SIDE_LABELS,
};
use checker::generate::{self, Paths, Random, Shape};
use checker::page::Names;
use checker::rules::{spelled, Part, Token, Typed};

use super::Page;

const HEADINGS: [&str; SIDES] = ["Kernel", "Host", "Third"];
pub const WORDS: [&str; SIDES] = ["kernel", "host", "third"];

/// The sections of a design's sides.
pub fn sides(design: &Design, names: &Names) -> String {
    let mut out = String::new();
    for (side, states) in names.states.iter().enumerate() {
        out +=
            &format!("\n## {}\n\n| state | holds | transitions |\n|---|---|---|\n", HEADINGS[side]);
        for (name, state) in states.iter().zip(&design.sides[side]) {
            let held = (0..SIDE_LABELS).filter(|label| state.label >> label & 1 == 1);
            let held: Vec<&str> = held.map(|label| &names.labels[side][label][..]).collect();
            let transitions = state.transitions.iter().map(|transition| {
                format!(
                    "{} to {}",
                    event(names, transition.event),
                    states[usize::from(transition.target)]
                )
            });
            let transitions = transitions.collect::<Vec<_>>().join("; ");
            out += &format!("| {name} | {} | {transitions} |\n", held.join(", "));
        }
    }
    out
}

/// What a side does, as tables have it.
pub fn event(names: &Names, event: i8) -> String {
    let signal = || &names.signals[usize::from(event.unsigned_abs()) - 1];
    match event {
        0 => "tick".to_string(),
        1.. => format!("read {}", signal()),
        _ => format!("send {}", signal()),
    }
}

/// The section of a converter whose states and signals the page has.
pub fn converter(names: &Names, converter: &[Record]) -> String {
    let sides = names.states.len();
    let columns = WORDS[..sides].join(" | ");
    let dashes = "---|".repeat(sides + 3);
    let mut out = format!("\n## Converter\n\n| record | names | {columns} | next |\n|{dashes}\n");
    for (own, record) in converter.iter().enumerate() {
        let states =
            (0..sides).map(|side| &names.states[side][usize::from(record.states[side])][..]);
        let states = states.collect::<Vec<_>>().join(", ");
        for (at, link) in record.links.iter().enumerate() {
            let first = if at == 0 { format!("{own} | {states}") } else { " | ".to_string() };
            let done = link.side_events().map(|done| event(names, done))[..sides].join(" | ");
            out += &format!("| {first} | {done} | {} |\n", link.next);
        }
    }
    out
}

/// The file of a converter.
pub fn file(converter: &[Record]) -> Vec<u8> {
    let mut file = vec![0; BLOCK_BYTES * converter.len().div_ceil(BLOCK_RECORDS)];
    write_blocks(&converter_bytes(converter), &mut file).expect("it is right in itself");
    file
}

/// A page with these rules.
fn page(design: &Design, sides_of_page: usize, rules: &[Typed]) -> Page {
    let letters = ["k", "h", "t"];
    let label = |side: usize, label: usize| match label {
        0 => "same".to_string(),
        _ => format!("{}{label}", ["lock", "menu", "job"][side]),
    };
    let names = Names {
        states: (0..sides_of_page)
            .map(|side| {
                (0..design.sides[side].len()).map(|at| format!("{}{at}", letters[side])).collect()
            })
            .collect(),
        labels: (0..sides_of_page)
            .map(|side| (0..SIDE_LABELS).map(|at| label(side, at)).collect())
            .collect(),
        signals: (1..64).map(|signal| format!("x{signal}")).collect(),
    };
    let held = |side: usize, label: usize| {
        side < sides_of_page && design.sides[side].iter().any(|state| state.label >> label & 1 == 1)
    };
    let typed = |token: Token| match token {
        Token::Name(name) => {
            let (side, at) = (usize::from(name) / SIDE_LABELS, usize::from(name) % SIDE_LABELS);
            match held(side, at) {
                true if at == 0 => format!("{}.same", WORDS[side]),
                true => label(side, at),
                // Labels that no state has are called by numbers that none has.
                false => format!("p{}", SIDE_LABELS * side + SIDE_LABELS - 1),
            }
        }
        _ => spelled(token),
    };
    let mut text = format!("# A page\n{}\n## Rules\n\n", sides(design, &names));
    for (number, rule) in (1..).zip(rules) {
        let formula: Vec<String> = rule.tokens(|| 0).into_iter().map(typed).collect();
        text += &format!("1. It is said {number} times.\n\n       {}\n\n", formula.join(" "));
    }
    Page::new(text)
}

/// A page of two sides or three, of a few states each, with so many rules at the most.
pub fn any_page(random: &mut Random, states: usize, most_rules: usize) -> Page {
    let sides = if random.once_in(3) { SIDES } else { SIDES - 1 };
    let shape = Shape { sides, states, ..Shape::SMALL };
    let design = Design { sides: generate::sides(random, &shape), formulas: vec![], rules: vec![] };
    let labels: Vec<u8> = (0..sides)
        .flat_map(|side| {
            (0..shape.propositions).map(move |label| (SIDE_LABELS * side + label) as u8)
        })
        .collect();
    let count = random.from_to(1, most_rules);
    let rules: Vec<Typed> = (0..count)
        .map(|_| match random.below(3) {
            0 => usual_rule(random, &labels),
            _ => {
                let records = random.from_to(2, if count > 3 { 6 } else { 14 });
                generate::typed_rule(random, &labels, Paths::All, records)
            }
        })
        .collect();
    page(&design, sides, &rules)
}

/// A page whose rules are of the forms that planners use.
pub fn usual_page(random: &mut Random, states: usize, rules: usize) -> Page {
    let sides = if random.once_in(4) { SIDES } else { SIDES - 1 };
    let shape = Shape { sides, states, propositions: 2, ..Shape::SMALL };
    let design = Design { sides: generate::sides(random, &shape), formulas: vec![], rules: vec![] };
    let labels: Vec<u8> =
        (0..sides).flat_map(|side| [16 * side as u8, 16 * side as u8 + 1]).collect();
    let rules: Vec<Typed> = (0..rules).map(|_| usual_rule(random, &labels)).collect();
    page(&design, sides, &rules)
}

/// A page whose rules are mostly untils, which wait for what mostly doesn't hold at the start.
pub fn waiting_page(random: &mut Random, states: usize, most_rules: usize) -> Page {
    let sides = if random.once_in(4) { SIDES } else { SIDES - 1 };
    let shape = Shape { sides, states, propositions: 2, ..Shape::SMALL };
    let design = Design { sides: generate::sides(random, &shape), formulas: vec![], rules: vec![] };
    let labels: Vec<u8> =
        (0..sides).flat_map(|side| [16 * side as u8, 16 * side as u8 + 1]).collect();
    let count = random.from_to(1, most_rules);
    let rules: Vec<Typed> = (0..count)
        .map(|_| match random.below(4) {
            0 => usual_rule(random, &labels),
            form => {
                let [a, b, _] = literals(random, &labels);
                let later = *random.pick(&labels);
                let start = &design.sides[usize::from(later) / SIDE_LABELS][0];
                let held = start.label >> (usize::from(later) % SIDE_LABELS) & 1 == 1;
                let later = Typed::new(Part::Name(later), []);
                let later = if held { Typed::new(Part::Not, [later]) } else { later };
                match form {
                    1 => Typed::new(Part::AF, [later]),
                    2 => Typed::new(Part::AF, [Typed::new(Part::And, [later, b])]),
                    _ => Typed::new(Part::AU, [a, Typed::new(Part::Or, [later, b])]),
                }
            }
        })
        .collect();
    page(&design, sides, &rules)
}

/// Three labels, some of them negated.
fn literals(random: &mut Random, labels: &[u8]) -> [Typed; 3] {
    from_fn(|_| {
        let label = Typed::new(Part::Name(*random.pick(labels)), []);
        if random.once_in(3) {
            Typed::new(Part::Not, [label])
        } else {
            label
        }
    })
}

/// A rule of a form that planners use.
fn usual_rule(random: &mut Random, labels: &[u8]) -> Typed {
    let one = |part, f| Typed::new(part, [f]);
    let two = |part, f, g| Typed::new(part, [f, g]);
    let [a, b, c] = literals(random, labels);
    match random.below(10) {
        0 => one(Part::AG, a),
        1 => one(Part::AF, a),
        2 => one(Part::AG, one(Part::AF, a)),
        3 => one(Part::AG, two(Part::Implies, a, one(Part::AX, b))),
        4 => one(Part::AG, two(Part::Implies, a, two(Part::AU, b, c))),
        5 => two(Part::AU, a, b),
        6 => one(Part::AG, two(Part::Implies, a, one(Part::AF, b))),
        7 => one(Part::AX, two(Part::Or, a, b)),
        8 => two(Part::Or, one(Part::AG, a), one(Part::AF, b)),
        _ => one(Part::AG, two(Part::Or, a, one(Part::AX, two(Part::And, b, c)))),
    }
}
