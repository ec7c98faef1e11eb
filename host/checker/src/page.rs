//! Pages: a design as people write it at their desks, read once more.
//!
//! A page is read by going over it again and again, each time for one thing, with lists of
//! plain pieces of text that know where they stand. Nothing is fast here, and nothing is kept
//! for later but places.
//!
//! - `lines`: lines, and pieces of lines with their places.
//! - `rows`: what each line is: a heading, part of a fence, an item of a list or words.
//! - `sides`: the tables of the sides.
//! - `items`: the rules of the list, each with its words and its pieces of code.
//! - `strays`: what looks like a rule or a side and isn't read.
//! - `formula`: a piece of code as a typed rule, or the places of its mistakes.
//! - `converter`: the table of the section Converter.
//!
//! A formula is made into a line of typed rules, and read by [`rules`](mod@crate::rules). Where it
//! goes wrong is found without that reader, by what may follow the words and signs before.

mod converter;
mod formula;
mod items;
mod lines;
mod rows;
mod sides;
mod strays;

pub use converter::read_converter;

use crate::bytes::{idle_side, Design, MOST_FORMULAS, MOST_RULES, SIDES};
use crate::rules::{read_rule, records, Typed};
use formula::read_formula;
use items::items;
use lines::lines;
use rows::{headings, rows, sections, underlined, Row, Section};
use sides::{first_table, read_side, Side};

/// The sections of the sides, in their order.
const SIDE_SECTIONS: [&str; SIDES] = ["Kernel", "Host", "Third"];
/// The sections that a page has once at most.
const SECTIONS: [&str; 6] = ["Kernel", "Host", "Third", "Rules", "Verdict", "Converter"];
/// The sides as formulas and the converter's table name them.
const SIDE_NAMES: [&str; SIDES] = ["kernel", "host", "third"];

/// A place on a page. Lines and columns count from 1, columns in characters.
#[derive(Clone, Copy, Debug, PartialEq, Eq, PartialOrd, Ord)]
pub struct Place {
    /// The line.
    pub line: usize,
    /// The column.
    pub column: usize,
}

impl Place {
    /// Where a page begins.
    const BEGINNING: Place = Place { line: 1, column: 1 };
}

/// The names of a page, each in the place of its number; signal 1 is the first of the signals.
#[derive(Clone, Debug, Default, PartialEq, Eq)]
pub struct Names {
    /// The states of each side that the page has: two sides or three.
    pub states: Vec<Vec<String>>,
    /// The labels of each side.
    pub labels: Vec<Vec<String>>,
    /// The signals.
    pub signals: Vec<String>,
}

/// A page as it was read.
#[derive(Clone, Debug, PartialEq, Eq)]
pub struct Read {
    /// The design as bytes: five blocks where there is a section Third, else four.
    pub design: Vec<u8>,
    /// The names that the numbers of the design stand for.
    pub names: Names,
    /// The rules with the numbers of their labels, one a line, each ended by a newline.
    pub typed: String,
    /// What is said of each rule in words, with single spaces between them.
    pub sentences: Vec<String>,
}

/// Reads a page, or tells where its mistakes are, in the order of the page. Two mistakes may have
/// one place.
pub fn read(page: &[u8]) -> Result<Read, Vec<Place>> {
    let lines = lines(page).map_err(|place| vec![place])?;
    let rows = rows(&lines);
    let sections = sections(&rows);
    let find = |name: &str| sections.iter().find(|section| section.heading.name == name);
    let mut mistakes = of_sections(&rows, &sections);
    let tables = SIDE_SECTIONS.into_iter().filter_map(find).map(first_table);
    let begin_sides: Vec<Place> = tables.filter_map(|table| Some(table.first()?.start)).collect();
    mistakes.extend(strays::columns(&rows, &begin_sides));
    mistakes.extend(strays::open_fence(&rows));
    if let Some(rules) = find("Rules") {
        mistakes.extend(strays::list_lines(rules));
        mistakes.extend(strays::code(rules));
        mistakes.extend(strays::behind_rules(&rows, rules));
    }

    let (mut sides, mut signals) = (Vec::new(), Vec::new());
    for name in SIDE_SECTIONS {
        match find(name) {
            Some(section) => sides.push(read_side(section, &mut signals, &mut mistakes)),
            // The third side alone may be missing.
            None if name == SIDE_SECTIONS[SIDES - 1] => {}
            None => sides.push(Side::default()),
        }
    }
    let names = Names {
        states: sides.iter().map(|side| side.names.clone()).collect(),
        labels: sides.iter().map(|side| side.labels.clone()).collect(),
        signals,
    };

    let rules = find("Rules").map_or(vec![], items);
    let (mut typed, mut read, mut made) = (String::new(), Vec::new(), 0);
    for (own, item) in rules.iter().enumerate() {
        let alone = [own == MOST_RULES, item.words.is_empty(), item.formulas.is_empty()];
        mistakes.extend(alone.iter().filter(|&&wrong| wrong).map(|_| item.number));
        mistakes.extend(item.formulas.iter().skip(1).map(|words| words[0].place));
        let Some(formula) = item.formulas.first() else { continue };
        match read_formula(formula, &names.labels) {
            Err(places) => mistakes.extend(places),
            Ok(formula) => {
                let rule = read_rule(&formula.tokens).expect("nothing in it can't stand there");
                let before = made;
                made += record_count(&rule);
                if before <= MOST_FORMULAS && made > MOST_FORMULAS {
                    mistakes.push(item.number);
                }
                typed.push_str(&formula.typed);
                typed.push('\n');
                read.push(rule);
            }
        }
    }
    if !mistakes.is_empty() {
        mistakes.sort();
        return Err(mistakes);
    }

    let third = sides.len() == SIDES;
    let mut states: Vec<_> = sides.iter().map(Side::records).collect();
    states.resize_with(SIDES, idle_side);
    let (formulas, rule_numbers) = records(&read);
    let design = Design {
        sides: states.try_into().expect("there are as many as sides"),
        formulas,
        rules: rule_numbers.into_iter().map(|number| number as u8).collect(),
    };
    let design = if third { design.to_five_blocks() } else { design.to_bytes() };
    let sentences = rules.into_iter().map(|item| item.words.join(" ")).collect();
    Ok(Read { design, names, typed, sentences })
}

/// How many formula records a rule makes.
fn record_count(rule: &Typed) -> usize {
    records(std::slice::from_ref(rule)).0.len()
}

/// What is wrong with the sections: one that is missing, and one that is there again.
fn of_sections(rows: &[Row], sections: &[Section]) -> Vec<Place> {
    let (headings, underlined) = (headings(rows), underlined(rows));
    let mut mistakes = Vec::new();
    for name in SECTIONS {
        let named = || sections.iter().filter(|section| section.heading.name == name);
        mistakes.extend(named().skip(1).map(|section| section.heading.place));
        if named().next().is_some() {
            continue;
        }
        let near = headings.iter().filter(|heading| nearly(&heading.name, name));
        let lines = underlined.iter().filter(|line| line.text.eq_ignore_ascii_case(name));
        let near = near.map(|heading| heading.place).chain(lines.map(|line| line.place)).min();
        match (name, near) {
            ("Kernel" | "Host", None) => mistakes.push(Place::BEGINNING),
            ("Kernel" | "Host" | "Third" | "Rules", Some(place)) => mistakes.push(place),
            _ => {}
        }
    }
    mistakes
}

/// Whether the name of a heading is nearly that of a section.
fn nearly(name: &str, section: &str) -> bool {
    let [name, section] = [name, section].map(str::to_ascii_lowercase);
    let mut words = name.split(|letter: char| !letter.is_alphabetic());
    edits(&name, &section) <= 2
        || (section == "third" && name == "third side")
        || (section == "rules" && words.any(|word| word == "rule" || word == "rules"))
}

/// How many characters have to be put in, left out or exchanged to make one word of another.
fn edits(from: &str, to: &str) -> usize {
    let to: Vec<char> = to.chars().collect();
    // For each beginning of `to`, how many make it of what was seen of `from`.
    let mut counts: Vec<usize> = (0..=to.len()).collect();
    for (seen, letter) in from.chars().enumerate() {
        let before = counts.clone();
        counts[0] = seen + 1;
        for at in 0..to.len() {
            let exchanged = before[at] + usize::from(to[at] != letter);
            counts[at + 1] = exchanged.min(before[at + 1] + 1).min(counts[at] + 1);
        }
    }
    counts[to.len()]
}

/// Whether this may be the name of a state, a signal or a label.
fn is_name(text: &str) -> bool {
    text.starts_with(|letter: char| letter.is_ascii_alphabetic())
        && text.chars().all(|letter| letter.is_ascii_alphanumeric() || letter == '_')
}
