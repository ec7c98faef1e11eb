//! Designs and converters made by hand, by the names of their states, labels and signals.

// Each test file uses some of these.
#![allow(dead_code)]

use desk::design::{Design, Rule, Side, State, Transition, SIDES, SIDE_LABELS};
use desk::formulas::Formula;
use desk::library;
use desk::records::{Link, Record};
use gorzhani::Refused;

/// A formula that is still to be put among a design's.
pub type Made = Box<dyn Fn(&mut Design) -> usize>;

/// A side as a page has it: a state's name, what holds there, its transitions.
pub type Rows<'a> = &'a [[&'a str; 3]];

/// The label of some side with this name.
pub fn label(name: &'static str) -> Made {
    Box::new(move |design| {
        let labels = |side: &Side| side.labels.iter().position(|label| label == name);
        let mut found = design.sides.iter().map(labels).enumerate();
        let (side, bit) = found.find_map(|(side, bit)| bit.map(|bit| (side, bit))).expect(name);
        design.formulas.add(Formula::Label((SIDE_LABELS * side + bit) as u8))
    })
}

fn over(part: Made, form: fn(usize) -> Formula) -> Made {
    Box::new(move |design| {
        let part = part(design);
        design.formulas.add(form(part))
    })
}

fn over_two(left: Made, right: Made, form: fn(usize, usize) -> Formula) -> Made {
    Box::new(move |design| {
        let (left, right) = (left(design), right(design));
        design.formulas.add(form(left, right))
    })
}

pub fn not(f: Made) -> Made {
    over(f, Formula::Not)
}

pub fn next(f: Made) -> Made {
    over(f, Formula::Next)
}

pub fn always(f: Made) -> Made {
    over(f, Formula::Always)
}

pub fn finally(f: Made) -> Made {
    over(f, Formula::Finally)
}

pub fn and(f: Made, g: Made) -> Made {
    over_two(f, g, Formula::And)
}

pub fn or(f: Made, g: Made) -> Made {
    over_two(f, g, Formula::Or)
}

pub fn implies(f: Made, g: Made) -> Made {
    over_two(f, g, Formula::Implies)
}

pub fn until(f: Made, g: Made) -> Made {
    over_two(f, g, Formula::Until)
}

/// A design of these sides and rules, each with its sentence.
pub fn design(sides: &[Rows], rules: Vec<(&str, Made)>) -> Design {
    let mut design = Design::default();
    for rows in sides {
        let side = side(&mut design.signals, rows);
        design.sides.push(side);
    }
    for (sentence, made) in rules {
        let formula = made(&mut design);
        design.rules.push(Rule { sentence: sentence.to_string(), formula });
    }
    let formulas: Vec<usize> = design.rules.iter().map(|rule| rule.formula).collect();
    design.blocks = design.blocks_of(&formulas).expect("the rules are read");
    design
}

/// A design without rules, with its title and those of its sides.
pub fn titled(title: &str, sides: &[(&str, Rows)]) -> Design {
    let rows: Vec<Rows> = sides.iter().map(|(_, rows)| *rows).collect();
    let mut design = design(&rows, vec![]);
    design.title = title.to_string();
    for (side, (title, _)) in design.sides.iter_mut().zip(sides) {
        side.title = title.to_string();
    }
    design
}

fn side(signals: &mut Vec<String>, rows: Rows) -> Side {
    let mut side = Side::default();
    for [name, holds, transitions] in rows {
        let mut state = State { name: name.to_string(), ..State::default() };
        for label in holds.split([',', ' ']).filter(|label| !label.is_empty()) {
            state.label_word |= 1 << numbered(&mut side.labels, label);
        }
        for transition in transitions.split("; ") {
            let (event, target) = transition.rsplit_once(" to ").expect(transition);
            let target = rows.iter().position(|row| row[0] == target).expect(target);
            state.transitions.push(Transition { event: event_in(signals, event), target });
        }
        side.states.push(state);
    }
    side
}

/// The number of a name, which comes behind the others if it is new.
fn numbered(names: &mut Vec<String>, name: &str) -> usize {
    names.iter().position(|other| other == name).unwrap_or_else(|| {
        names.push(name.to_string());
        names.len() - 1
    })
}

fn event_in(signals: &mut Vec<String>, event: &str) -> i8 {
    match event.split_once(' ') {
        None => 0,
        Some(("read", signal)) => numbered(signals, signal) as i8 + 1,
        Some((_, signal)) => -(numbered(signals, signal) as i8 + 1),
    }
}

/// A transition of a record: what each side does, and the next record, as in "tick, send press to 2".
pub fn link(design: &Design, text: &str) -> Link {
    let (done, next) = text.rsplit_once(" to ").expect(text);
    let mut events = [0; SIDES];
    for (event, done) in events.iter_mut().zip(done.split(", ")) {
        *event = event_in(&mut design.signals.clone(), done);
    }
    Link { events, next: next.parse().expect(text) }
}

/// A converter: for each record the states that it names, and its transitions.
pub fn converter(design: &Design, records: &[(&str, &[&str])]) -> Vec<Record> {
    let record = |(names, links): &(&str, &[&str])| {
        let mut states = [0; SIDES];
        for (side, name) in names.split(", ").enumerate() {
            let own = &design.sides[side].states;
            states[side] = own.iter().position(|state| state.name == name).expect(name) as u8;
        }
        Record { states, links: links.iter().map(|text| link(design, text)).collect() }
    };
    records.iter().map(record).collect()
}

/// The design and the converter of a page, all of which may be indented as its first words are.
pub fn page(text: &str) -> (Design, Vec<Record>) {
    let words = text.lines().find(|line| !line.trim().is_empty()).expect("it has words");
    let indent = &words[..words.len() - words.trim_start().len()];
    let lines = text.lines().map(|line| line.strip_prefix(indent).unwrap_or(line));
    let text = lines.collect::<Vec<&str>>().join("\n");
    let page = desk::page::read(text.as_bytes()).expect("the page is sound");
    let records = page.converter().expect("its converter is read").expect("it has one");
    assert_ne!(library::judge(&page.design.bytes(), &records), Err(Refused::UNMATCHED));
    (page.design, records)
}

/// The design and the converter of an example.
pub fn example(name: &str) -> (Design, Vec<Record>) {
    let path = format!("{}/../../examples/{name}.md", env!("CARGO_MANIFEST_DIR"));
    page(&std::fs::read_to_string(path).expect("the example is there"))
}
