//! What stands where nothing is read and was surely meant to be: rules outside the list, rules outside their section, tables outside a side, and a fence that takes in the rest of the page. A rule that is passed over is one that nobody keeps.

use super::markdown::{is_blank, item, Document, Kind, Line, Section, RULES};
use super::sides::COLUMNS;
use crate::design::SIDE_HEADINGS;
use crate::mistakes::Mistake;

/// Code outside items is indented by so much.
const CODE: usize = 4;

/// The mistakes of what would be passed over.
pub fn passed_over(document: &Document) -> Vec<Mistake> {
    let mut mistakes = Vec::new();
    if let Some(rules) = document.section(RULES) {
        lists(document, &rules, &mut mistakes);
        code(document, &rules, &mut mistakes);
        behind(document, &rules, &mut mistakes);
    }
    tables(document, &mut mistakes);
    let open = document.lines.iter().rev().find(|line| line.kind == Kind::Opens);
    if let Some(line) = open.filter(|_| document.fence.is_some()) {
        let what = "this fence is open to the end of the page: close it";
        mistakes.push(line.words().mistake(what));
    }
    mistakes
}

/// The indent of the item to which a line belongs.
fn item_indent(document: &Document, at: usize) -> Option<usize> {
    let begun = document.items.partition_point(|item| item.lines.start <= at);
    let last = document.items[..begun].last();
    last.filter(|item| item.lines.contains(&at)).map(|item| item.indent)
}

/// Lines of lists that are no items of rules.
fn lists(document: &Document, rules: &Section, mistakes: &mut Vec<Mistake>) {
    for at in rules.body.clone() {
        let line = &document.lines[at];
        let begins = document.items.binary_search_by_key(&at, |item| item.lines.start).is_ok();
        let further_left = item_indent(document, at).is_none_or(|indent| line.indent() < indent);
        if line.kind == Kind::Words
            && !begins
            && line.indent() < CODE
            && further_left
            && is_listed(line)
        {
            let what = "no rule: a rule is an item of a numbered list, '1.' and a blank before its sentence";
            mistakes.push(line.words().mistake(what));
        }
    }
}

/// Whether a line begins as one of a list does.
fn is_listed(line: &Line) -> bool {
    let text = line.piece.text.trim_start_matches(is_blank);
    let behind = text.trim_start_matches(|sign: char| sign.is_ascii_digit());
    match behind.len() == text.len() {
        true => text.strip_prefix(['-', '*', '+']).is_some_and(|rest| rest.starts_with(is_blank)),
        false => behind.starts_with(['.', ')']),
    }
}

/// Code that belongs to no item.
fn code(document: &Document, rules: &Section, mistakes: &mut Vec<Mistake>) {
    let is_heading =
        |at: usize| document.headings.binary_search_by_key(&at, |heading| heading.at).is_ok();
    let mut in_code = false;
    for at in rules.body.clone() {
        let line = &document.lines[at];
        if line.kind == Kind::Empty {
            continue;
        }
        let apart = at > 0 && (document.lines[at - 1].kind == Kind::Empty || is_heading(at - 1));
        let outside = item_indent(document, at).is_none();
        let indented = outside && line.kind == Kind::Words && line.indent() >= CODE;
        let begins = outside && line.kind == Kind::Opens || indented && apart && !in_code;
        if begins {
            let what = "a formula outside a rule: a rule is an item of a numbered list, and its formula stands in the item";
            mistakes.push(line.words().mistake(what));
        }
        in_code = indented && (in_code || begins);
    }
}

/// Items below a heading of level one that ends the rules.
fn behind(document: &Document, rules: &Section, mistakes: &mut Vec<Mistake>) {
    let mut headings = document.headings.iter().filter(|heading| heading.level <= 2);
    let Some(ends) = headings.find(|heading| heading.at == rules.body.end) else { return };
    let end = headings.next().map_or(document.lines.len(), |next| next.at);
    if ends.level == 2 {
        return;
    }
    for (at, line) in document.lines.iter().enumerate().take(end).skip(ends.at + 1) {
        if let Some(item) = item(line.piece, at).filter(|_| line.kind == Kind::Words) {
            let what = format!(
                "an item outside the section {RULES}, which ends at the heading '{}'",
                ends.text
            );
            mistakes.push(item.number.mistake(what));
        }
    }
}

/// Tables with the columns of a side that are no side's.
fn tables(document: &Document, mistakes: &mut Vec<Mistake>) {
    let read: Vec<usize> = SIDE_HEADINGS
        .iter()
        .filter_map(|name| {
            document.section(name)?.body.into_iter().find(|&at| document.lines[at].in_table())
        })
        .collect();
    let mut sections = document.headings.iter().filter(|heading| heading.level <= 2).peekable();
    let mut own = false;
    for (at, line) in document.lines.iter().enumerate() {
        while let Some(heading) = sections.next_if(|heading| heading.at <= at) {
            own = heading.level == 2 && ["Verdict", "Converter"].contains(&heading.name.text);
        }
        if own || read.contains(&at) || !line.in_table() {
            continue;
        }
        if line.cells().iter().map(|cell| cell.text).eq(COLUMNS) {
            let what = "a table of a side that isn't read: a side is the first table below '## Kernel', '## Host' or '## Third'";
            mistakes.push(line.beginning().mistake(what));
        }
    }
}
