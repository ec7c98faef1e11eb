//! A design as the source of a page, and a converter as the table of its records.

use crate::columns::table;
use crate::design::{Design, Rule, Side, State, SIDE_HEADINGS, SIDE_WORDS};
use crate::records::Record;

/// The page of a design: title, a section for each side, the rules. Read again it gives the same design, if its names are numbered in the order of their appearance and its formulas are as typed rules make them.
/// The error is the number of a rule, counted from 1, whose formula is too long to be written out.
pub fn page(design: &Design) -> Result<String, usize> {
    let mut out = format!("# {}\n", closed(title(design)));
    for (side, name) in design.sides.iter().zip(SIDE_HEADINGS) {
        let heading = closed(&heading(name, &side.title));
        out += &format!("\n## {heading}\n\n{}", table(&side_rows(design, side)));
    }
    if !design.rules.is_empty() {
        out += "\n## Rules\n";
    }
    for (number, rule) in (1..).zip(&design.rules) {
        let formula = design.text(rule.formula);
        // A formula that isn't written out is called so; no text of one is two words without a sign.
        if formula == format!("formula {}", rule.formula) {
            return Err(number);
        }
        out += &format!("\n{}", item(number, rule, &formula));
    }
    Ok(out)
}

/// What a design is called.
pub fn title(design: &Design) -> &str {
    if design.title.is_empty() {
        return "A design";
    }
    &design.title
}

/// The name of a section and, behind a colon, its title if it has one.
pub fn heading(name: &str, title: &str) -> String {
    if title.is_empty() {
        return name.to_string();
    }
    format!("{name}: {title}")
}

/// The labels that hold in a state, without their side.
pub fn held(side: &Side, state: &State) -> Vec<String> {
    let labels = side.labels.iter().enumerate();
    let held = labels.filter(|(bit, _)| state.label_word >> bit & 1 == 1);
    held.map(|(_, label)| label.clone()).collect()
}

/// A heading's words, on one line. Signs `#` at their end would close the heading, so another one does.
fn closed(words: &str) -> String {
    let words = words.replace(['\n', '\r'], " ");
    if words.ends_with('#') {
        return words + " #";
    }
    words
}

fn side_rows(design: &Design, side: &Side) -> Vec<Vec<String>> {
    let header = ["state", "holds", "transitions"].map(String::from).to_vec();
    let row = |state: &State| {
        let transitions = state.transitions.iter().map(|transition| {
            let target = &side.states[transition.target].name;
            format!("{} to {target}", design.event(transition.event))
        });
        let transitions = transitions.collect::<Vec<String>>().join("; ");
        vec![state.name.clone(), held(side, state).join(", "), transitions]
    };
    [vec![header], side.states.iter().map(row).collect()].concat()
}

/// A rule as an item of the list, its formula as code.
pub fn item(number: usize, rule: &Rule, formula: &str) -> String {
    let item = format!("{number}. ");
    let indent = " ".repeat(item.len() + 4);
    format!("{item}{}\n\n{indent}{formula}\n", rule.sentence)
}

/// The table of a converter's records: a line for each transition, with what the sides do and the next record.
pub fn converter_table(design: &Design, records: &[Record]) -> String {
    let sides = &SIDE_WORDS[..design.sides.len()];
    let header = ["record", "names"].iter().chain(sides).chain(&["next"]);
    let mut rows = vec![header.map(|word| word.to_string()).collect::<Vec<String>>()];
    for (number, record) in records.iter().enumerate() {
        for (place, link) in record.links.iter().enumerate() {
            let mut row = match place {
                0 => vec![number.to_string(), design.names(record.states)],
                _ => vec![String::new(); 2],
            };
            let events = &link.events[..sides.len()];
            row.extend(events.iter().map(|&event| design.event(event)));
            row.push(link.next.to_string());
            rows.push(row);
        }
    }
    table(&rows)
}
