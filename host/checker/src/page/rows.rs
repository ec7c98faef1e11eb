//! What each line of a page is.

use super::lines::{is_blank, Piece};
use super::Place;

/// A heading.
#[derive(Clone, Debug)]
pub(super) struct Heading {
    /// How many `#` signs it begins with.
    pub level: usize,
    /// What stands before its first colon.
    pub name: String,
    /// Where the name stands.
    pub place: Place,
}

/// The item that a line belongs to begins like this.
#[derive(Clone, Debug)]
pub(super) struct Start {
    /// Where its number stands.
    pub number: Place,
    /// How far its words are indented.
    pub indent: usize,
    /// What stands behind the number.
    pub words: Piece,
}

/// What a line is.
#[derive(Clone, Debug)]
pub(super) enum What {
    /// A heading.
    Heading(Heading),
    /// Nothing, or blanks.
    Empty,
    /// The first line of a fence.
    Opens,
    /// A line inside a fence.
    Fenced,
    /// The last line of a fence.
    Closes,
    /// The first line of an item.
    Item(Start),
    /// Anything else.
    Words,
}

/// A line, and what it is.
#[derive(Clone, Debug)]
pub(super) struct Row {
    /// The line.
    pub line: Piece,
    /// What it is.
    pub what: What,
    /// How far the words of the item that it belongs to are indented.
    pub item: Option<usize>,
}

/// A section: its heading, and the lines below it.
#[derive(Clone, Debug)]
pub(super) struct Section {
    /// Its heading.
    pub heading: Heading,
    /// Its lines.
    pub rows: Vec<Row>,
}

/// The headings of a page, of all levels.
pub(super) fn headings(rows: &[Row]) -> Vec<Heading> {
    let heading = |row: &Row| match &row.what {
        What::Heading(heading) => Some(heading.clone()),
        _ => None,
    };
    rows.iter().filter_map(heading).collect()
}

/// The lines outside fences with a line of `-` signs or of `=` signs below: what stands before the
/// first colon of each.
pub(super) fn underlined(rows: &[Row]) -> Vec<Piece> {
    let is_line = |row: &Row| {
        let text = row.line.trimmed().text;
        let only = |sign: char| text.chars().all(|letter| letter == sign);
        !text.is_empty() && (only('-') || only('='))
    };
    let pairs = rows.iter().zip(rows.iter().skip(1));
    let such = pairs.filter(|(row, next)| !matches!(row.what, What::Fenced) && is_line(next));
    such.map(|(row, _)| row.line.split(|letter| letter == ':').remove(0)).collect()
}

/// The sections of a page: each begins at a heading of level two.
pub(super) fn sections(rows: &[Row]) -> Vec<Section> {
    let mut sections: Vec<Section> = Vec::new();
    let mut inside = false;
    for row in rows {
        match &row.what {
            What::Heading(heading) if heading.level <= 2 => {
                inside = heading.level == 2;
                if inside {
                    sections.push(Section { heading: heading.clone(), rows: Vec::new() });
                }
            }
            _ if inside => sections.last_mut().expect("one has begun").rows.push(row.clone()),
            _ => {}
        }
    }
    sections
}

/// Every line of a page, and what it is.
pub(super) fn rows(lines: &[Piece]) -> Vec<Row> {
    let mut rows: Vec<Row> = Vec::new();
    // Whether the lines are those of rules, the indent of the item that has begun, and the sign of
    // the fence that is open with how often it stands there.
    let (mut rules, mut item, mut fence): (bool, Option<usize>, _) = (false, None, None);
    for line in lines {
        let behind_empty = matches!(rows.last(), Some(Row { what: What::Empty, .. }));
        let what = if let Some(begun) = fence {
            let ends = ends_fence(line, item, begun);
            fence = if ends { None } else { fence };
            if ends {
                What::Closes
            } else {
                What::Fenced
            }
        } else if line.is_empty() {
            What::Empty
        } else if let Some(heading) = heading(line) {
            rules = if heading.level <= 2 { is_rules(&heading) } else { rules };
            item = None;
            What::Heading(heading)
        } else if let Some(start) = item_start(line).filter(|_| rules) {
            item = Some(start.indent);
            What::Item(start)
        } else {
            if behind_empty && item.is_some_and(|indent| line.indent() < indent) {
                item = None;
            }
            fence = fence_run(line, item);
            if fence.is_some() {
                What::Opens
            } else {
                What::Words
            }
        };
        rows.push(Row { line: line.clone(), what, item });
    }
    rows
}

/// Whether the lines below a heading are those of rules.
fn is_rules(heading: &Heading) -> bool {
    heading.level == 2 && heading.name == "Rules"
}

/// The heading that a line is: `#` signs at its beginning, one to six, and a blank or nothing.
fn heading(line: &Piece) -> Option<Heading> {
    let level = line.text.chars().take_while(|&letter| letter == '#').count();
    let rest = line.behind(level);
    let apart = rest.text.is_empty() || rest.text.starts_with(is_blank);
    if !(1..=6).contains(&level) || !apart {
        return None;
    }
    // `#` signs at the end are no part of it where a blank stands before them.
    let mut words = rest.clone();
    words.text.truncate(words.text.trim_end_matches(is_blank).len());
    let without = words.text.trim_end_matches('#');
    if without.ends_with(is_blank) {
        words.text.truncate(without.len());
    }
    let name = words.split(|letter| letter == ':').remove(0);
    Some(Heading { level, name: name.text, place: name.place })
}

/// The item that a line begins: one to nine digits, a `.` or `)`, and a blank or the end of the line.
pub(super) fn item_start(line: &Piece) -> Option<Start> {
    let number = line.trimmed();
    let digits = number.text.chars().take_while(char::is_ascii_digit).count();
    let blanks = line.text.chars().take_while(|&letter| is_blank(letter)).count();
    // A blank at the end of the line counts too.
    let behind = line.behind(blanks + digits);
    let marked = behind.text.starts_with(['.', ')']);
    let words = behind.behind(1);
    let apart = words.text.is_empty() || words.text.starts_with(is_blank);
    if line.indent() > 3 || !(1..=9).contains(&digits) || !marked || !apart {
        return None;
    }
    let words = words.trimmed();
    // Without words they would stand behind one space.
    let indent =
        if words.is_empty() { blanks + digits + 2 } else { line.width(words.place.column - 1) };
    Some(Start { number: number.place, indent, words })
}

/// The sign of a fence that a line begins with, and how often it stands there: three times or more.
/// It is indented by three at most, there and inside the item that has begun.
fn fence_run(line: &Piece, item: Option<usize>) -> Option<(char, usize)> {
    let indent = line.indent();
    let near = indent <= 3 || item.is_some_and(|least| (least..=least + 3).contains(&indent));
    let text = line.trimmed().text;
    let sign = text.chars().next().filter(|sign| near && "`~".contains(*sign))?;
    let count = text.chars().take_while(|&letter| letter == sign).count();
    (count >= 3).then_some((sign, count))
}

/// Whether a line ends the fence that began so: it has as many of its signs at least, and nothing
/// else.
fn ends_fence(line: &Piece, item: Option<usize>, (sign, count): (char, usize)) -> bool {
    let alone = line.trimmed().text.chars().all(|letter| letter == sign);
    let run = fence_run(line, item);
    alone && run.is_some_and(|(_, signs)| signs >= count)
}
