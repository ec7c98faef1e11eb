//! The converter on a page: a table with a line for each transition.

use std::collections::HashSet;

use gorzhani::MOST;

use super::markdown::{is_blank, table, Document, Piece, Row};
use crate::design::{Design, MOST_STATES, SIDES, SIDE_WORDS};
use crate::mistakes::{suggested, Mistake};
use crate::records::{Link, Record, PLACES};

/// Reads the section Converter, if there is one with a table.
pub fn converter(
    document: &Document,
    design: &Design,
) -> Result<Option<Vec<Record>>, Vec<Mistake>> {
    let Some(section) = document.section("Converter") else { return Ok(None) };
    let sides = design.sides.len();
    let mut columns = vec!["record", "names"];
    columns.extend(&SIDE_WORDS[..sides]);
    columns.push("next");
    let mut mistakes = Vec::new();
    let Some(rows) = table(&document.lines[section.body], &columns, &mut mistakes) else {
        return Ok(None);
    };
    if rows.is_empty() {
        mistakes.push(section.name.mistake("the converter has no record (10)"));
    }
    let mut reader =
        Reader { design, records: Vec::new(), nexts: Vec::new(), events: HashSet::new(), mistakes };
    for row in &rows {
        match row.cells.len() == columns.len() {
            true => reader.row(row),
            false => reader.part(row),
        }
    }
    reader.answer()
}

struct Reader<'a> {
    design: &'a Design,
    records: Vec<Record>,
    /// The numbers of next records, with their places: some come later.
    nexts: Vec<(Piece<'a>, usize)>,
    /// The events of the last record's transitions.
    events: HashSet<[i8; SIDES]>,
    mistakes: Vec<Mistake>,
}

impl<'a> Reader<'a> {
    fn tell(&mut self, place: Piece, what: impl Into<String>) {
        self.mistakes.push(place.mistake(what));
    }

    /// A line of the table, with all its cells.
    fn row(&mut self, row: &Row<'a>) {
        let sides = self.design.sides.len();
        let (record, names) = (row.cells[0], row.cells[1]);
        if !record.text.is_empty() || !names.text.is_empty() || self.records.is_empty() {
            self.first_line(row.beginning, record, names);
        }
        let mut events = Some([0; SIDES]);
        for (side, &cell) in row.cells[2..2 + sides].iter().enumerate() {
            match (self.event(cell), &mut events) {
                (Some(event), Some(events)) => events[side] = event,
                _ => events = None,
            }
        }
        let next = self.next(row.cells[2 + sides]);
        self.link(row.beginning, events, next);
    }

    /// A line with too few or too many cells: only the number of a record is known of it.
    fn part(&mut self, row: &Row) {
        let record = row.cells.first().filter(|record| !record.text.is_empty());
        if let Some(&record) = record {
            self.record(record, [0; SIDES]);
        }
    }

    /// The first line of a record.
    fn first_line(&mut self, beginning: Piece, record: Piece, names: Piece) {
        let number = self.records.len();
        if record.text.is_empty() || names.text.is_empty() {
            let what = format!("the first line of record {number} has its number and its names");
            self.tell(beginning, what);
        }
        let states = self.names(names);
        self.record(record, states);
    }

    /// A new record, with its number as it is typed.
    fn record(&mut self, typed: Piece, states: [u8; SIDES]) {
        let next = self.records.len();
        if !typed.text.is_empty() && number(typed.text) != Some(next) {
            let what = format!("record '{}' stands where record {next} should", typed.text);
            self.tell(typed, what);
        }
        if next == MOST {
            self.tell(typed, "a 65,537th record: a converter has 65,536 at most (10)");
        }
        self.records.push(Record { states, links: Vec::new() });
        self.events.clear();
    }

    /// The states that a record names.
    fn names(&mut self, names: Piece) -> [u8; SIDES] {
        let design = self.design;
        let mut states = [0; SIDES];
        let pieces: Vec<Piece> =
            names.split(|sign| sign == ',').map(|name| name.trimmed(is_blank)).collect();
        let each = pieces.len() == design.sides.len();
        if names.text.is_empty() {
            return states;
        } else if !each || pieces.iter().any(|name| name.text.is_empty()) {
            let words = SIDE_WORDS[..design.sides.len()].join(", ");
            self.tell(names, format!("not one name for each side: {words}, with commas between"));
            return states;
        }
        for (side, name) in pieces.into_iter().enumerate() {
            let all = &design.sides[side].states;
            match all.iter().position(|state| state.name == name.text) {
                Some(state) => states[side] = state as u8,
                None => {
                    let known = all.iter().map(|state| state.name.as_str()).take(MOST_STATES);
                    let near = suggested(name.text, known);
                    self.tell(
                        name,
                        format!("no state '{}' in {}{near}", name.text, SIDE_WORDS[side]),
                    );
                }
            }
        }
        states
    }

    /// What a side does, as its own table has it.
    fn event(&mut self, cell: Piece) -> Option<i8> {
        let words: Vec<Piece> = cell.words(is_blank).collect();
        let (verb, signal) = match *words {
            [verb] if verb.text == "tick" => return Some(0),
            [verb, signal] if ["read", "send"].contains(&verb.text) => (verb, signal),
            _ => {
                let what = format!("'{}' is none of 'tick', 'read X' and 'send X'", cell.text);
                self.tell(cell, what);
                return None;
            }
        };
        let signals = &self.design.signals;
        let Some(number) = signals.iter().position(|name| name == signal.text) else {
            let near = suggested(signal.text, signals.iter().map(String::as_str));
            self.tell(signal, format!("no signal '{}'{near}", signal.text));
            return None;
        };
        let number = number as i8 + 1;
        Some(if verb.text == "send" { -number } else { number })
    }

    /// The number of the next record.
    fn next(&mut self, cell: Piece<'a>) -> usize {
        let Some(next) = number(cell.text) else {
            self.tell(cell, format!("'{}' isn't the number of a record (11)", cell.text));
            return 0;
        };
        self.nexts.push((cell, next));
        next
    }

    fn link(&mut self, beginning: Piece, events: Option<[i8; SIDES]>, next: usize) {
        let Some(record) = self.records.last_mut() else { return };
        record.links.push(Link { events: events.unwrap_or_default(), next: next as u16 });
        if record.links.len() == PLACES + 1 {
            let what = format!("a ninth transition: a record has {PLACES} at most (11)");
            self.tell(beginning, what);
        }
        if events.is_some_and(|events| !self.events.insert(events)) {
            let what = "the sides do the same here as in a line above, in the same record (11)";
            self.tell(beginning, what);
        }
    }

    fn answer(mut self) -> Result<Option<Vec<Record>>, Vec<Mistake>> {
        let count = self.records.len();
        for (place, next) in std::mem::take(&mut self.nexts) {
            if next >= count {
                let what = format!("there is no record {}: {count} stand here (11)", place.text);
                self.tell(place, what);
            }
        }
        if self.mistakes.is_empty() {
            return Ok(Some(self.records));
        }
        self.mistakes.sort_by_key(|mistake| (mistake.line, mistake.column));
        Err(self.mistakes)
    }
}

/// A number in digits.
fn number(text: &str) -> Option<usize> {
    text.bytes().all(|byte| byte.is_ascii_digit()).then(|| text.parse().ok()).flatten()
}
