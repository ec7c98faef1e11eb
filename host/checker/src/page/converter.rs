//! The table of the section Converter.

use super::lines::{is_blank, lines, Piece};
use super::rows::{rows, sections, Section};
use super::sides::{first_table, Cells};
use super::{Names, Place, SIDE_NAMES};
use crate::bytes::{Link, Record, MOST_RECORDS, PLACES, SIDES};

/// The converter of a page whose names are known, if its section Converter has a table, or where
/// the mistakes of the table are. The third side of a page of two names state 0 and ticks.
pub fn read_converter(page: &[u8], names: &Names) -> Result<Option<Vec<Record>>, Vec<Place>> {
    let lines = lines(page).map_err(|place| vec![place])?;
    let sections = sections(&rows(&lines));
    let named = |section: &&Section| section.heading.name == "Converter";
    let Some(section) = sections.iter().find(named) else { return Ok(None) };
    let table = first_table(section);
    let Some(header) = table.first() else { return Ok(None) };

    let sides = &SIDE_NAMES[..names.states.len()];
    let columns = [&["record", "names"], sides, &["next"]].concat();
    let dashes = table.get(1).is_some_and(|line| line.are_dashes(columns.len()));
    if !header.are(&columns) || !dashes {
        return Err(vec![header.start]);
    }
    let table = &table[2..];
    if table.is_empty() {
        return Err(vec![section.heading.place]);
    }
    let first = |line: &&Cells| line.cells.first().is_some_and(|cell| !cell.is_empty());
    let count = table.iter().filter(first).count();
    let (mut records, mut mistakes): (Vec<Record>, Vec<Place>) = (Vec::new(), Vec::new());
    for line in table {
        read_line(line, names, count, &mut records, &mut mistakes);
    }
    if mistakes.is_empty() {
        Ok(Some(records))
    } else {
        mistakes.sort();
        Err(mistakes)
    }
}

/// Reads a line: a transition, and in the first line of a record what it names.
fn read_line(
    line: &Cells,
    names: &Names,
    count: usize,
    records: &mut Vec<Record>,
    mistakes: &mut Vec<Place>,
) {
    if line.cells.len() != names.states.len() + 3 {
        mistakes.push(line.start);
        return;
    }
    let (record, named, next) = (&line.cells[0], &line.cells[1], &line.cells[line.cells.len() - 1]);
    if !record.is_empty() {
        if number(record) != Some(records.len()) || records.len() == MOST_RECORDS {
            mistakes.push(record.place);
        }
        let states = read_states(named, names, mistakes).unwrap_or_else(|| {
            mistakes.push(if named.is_empty() { line.start } else { named.place });
            [0; SIDES]
        });
        records.push(Record { states, links: Vec::new() });
    } else if !named.is_empty() {
        mistakes.push(named.place);
    }
    let Some(record) = records.last_mut() else {
        mistakes.push(line.start);
        return;
    };
    let (mut link, before) = (Link { events: [0; SIDES], next: 0 }, mistakes.len());
    for (side, cell) in line.cells[2..line.cells.len() - 1].iter().enumerate() {
        match event(cell, &names.signals) {
            // A record has the duals of what the sides do.
            Ok(does) => link.events[side] = -does,
            Err(at) => mistakes.push(at.unwrap_or(line.start)),
        }
    }
    let right = mistakes.len() == before;
    match number(next).filter(|&next| next < count) {
        Some(next) => link.next = next as u16,
        None => mistakes.push(if next.is_empty() { line.start } else { next.place }),
    }
    let again = right && record.links.iter().any(|other| other.events == link.events);
    if again || record.links.len() == PLACES {
        mistakes.push(line.start);
    } else {
        record.links.push(link);
    }
}

/// The number that a cell holds.
fn number(cell: &Piece) -> Option<usize> {
    let digits = cell.text.chars().all(|letter| letter.is_ascii_digit());
    cell.text.parse().ok().filter(|_| digits)
}

/// The states that a record names, unless there are too few or too many. One that isn't there is a
/// mistake.
fn read_states(cell: &Piece, names: &Names, mistakes: &mut Vec<Place>) -> Option<[u8; SIDES]> {
    let typed = cell.split(|letter| letter == ',');
    if typed.len() != names.states.len() {
        return None;
    }
    let mut states = [0; SIDES];
    for (side, name) in typed.iter().enumerate() {
        match names.states[side].iter().position(|known| *known == name.text) {
            Some(state) => states[side] = state as u8,
            None => mistakes.push(name.place),
        }
    }
    Some(states)
}

/// What a side does, or the place of what is wrong, if there is anything in the cell.
fn event(cell: &Piece, signals: &[String]) -> Result<i8, Option<Place>> {
    let words = cell.parts(is_blank);
    let texts: Vec<&str> = words.iter().map(|word| &word.text[..]).collect();
    let (sign, signal) = match texts[..] {
        ["tick"] => return Ok(0),
        ["read", _] => (1, &words[1]),
        ["send", _] => (-1, &words[1]),
        _ => return Err(words.first().map(|word| word.place)),
    };
    let known = signals.iter().position(|known| *known == signal.text);
    known.map(|number| sign * (number as i8 + 1)).ok_or(Some(signal.place))
}
