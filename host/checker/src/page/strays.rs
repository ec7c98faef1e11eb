//! What looks like a rule or a side and would be passed over: each of these is a mistake.

use super::lines::{is_blank, Piece};
use super::rows::{item_start, Row, Section, What};
use super::sides::{cells, is_of_a_table, COLUMNS};
use super::Place;

/// The lines of lists in the section Rules that are no items. One that belongs to an item, and is
/// indented as much as its words, is a part of it.
pub(super) fn list_lines(rules: &Section) -> Vec<Place> {
    let is_stray = |row: &&Row| {
        let indent = row.line.indent();
        let left = indent <= 3 && row.item.is_none_or(|words| indent < words);
        matches!(row.what, What::Words) && left && is_of_a_list(&row.line)
    };
    rules.rows.iter().filter(is_stray).map(|row| row.line.trimmed().place).collect()
}

/// Whether a line begins with a sign of a list and a blank, or with digits and `.` or `)`.
fn is_of_a_list(line: &Piece) -> bool {
    let text = line.text.trim_start_matches(is_blank);
    let behind = text.trim_start_matches(|letter: char| letter.is_ascii_digit());
    let numbered = behind.len() < text.len() && behind.starts_with(['.', ')']);
    let signed = text.strip_prefix(['-', '*', '+']);
    numbered || signed.is_some_and(|behind| behind.starts_with(is_blank))
}

/// The code in the section Rules that belongs to no item: each fence, and each piece of indented
/// lines.
pub(super) fn code(rules: &Section) -> Vec<Place> {
    let mut places = Vec::new();
    // Whether indented code may begin here, as it may below the section's heading; and whether it
    // has begun and may go on.
    let (mut may_begin, mut begun) = (true, false);
    for row in &rules.rows {
        let free = row.item.is_none();
        let indented = free && matches!(row.what, What::Words) && row.line.indent() >= 4;
        let empty = matches!(row.what, What::Empty);
        if (indented && may_begin && !begun) || (free && matches!(row.what, What::Opens)) {
            places.push(row.line.trimmed().place);
        }
        begun = (indented && (may_begin || begun)) || (empty && begun);
        may_begin = empty || matches!(row.what, What::Heading(_));
    }
    places
}

/// The lines that would be items, but that a heading of level one has ended the section Rules.
pub(super) fn behind_rules(rows: &[Row], rules: &Section) -> Vec<Place> {
    let level = |row: &Row| match &row.what {
        What::Heading(heading) if heading.level <= 2 => Some(heading.level),
        _ => None,
    };
    let behind = rows.iter().skip_while(|row| row.line.place <= rules.heading.place);
    let mut behind = behind.skip_while(|row| level(row).is_none());
    if behind.next().and_then(level) != Some(1) {
        return Vec::new();
    }
    let below = behind.take_while(|row| level(row).is_none());
    let words = below.filter(|row| matches!(row.what, What::Words));
    words.filter_map(|row| item_start(&row.line)).map(|start| start.number).collect()
}

/// The lines with the columns of a side that don't begin the table of a side. In the sections that
/// the desk writes, a table may have any columns.
pub(super) fn columns(rows: &[Row], begin_sides: &[Place]) -> Vec<Place> {
    let (mut places, mut section) = (Vec::new(), None);
    for row in rows {
        if let What::Heading(heading) = &row.what {
            if heading.level <= 2 {
                section = (heading.level == 2).then_some(&heading.name[..]);
            }
        }
        let written = matches!(section, Some("Verdict" | "Converter"));
        let columns = is_of_a_table(row) && cells(&row.line).are(&COLUMNS);
        if columns && !written && !begin_sides.contains(&row.line.place) {
            places.push(row.line.place);
        }
    }
    places
}

/// The fence that is open at the end of the page.
pub(super) fn open_fence(rows: &[Row]) -> Option<Place> {
    let is_end = |row: &&Row| matches!(row.what, What::Opens | What::Closes);
    let last = rows.iter().rev().find(is_end)?;
    matches!(last.what, What::Opens).then(|| last.line.trimmed().place)
}
