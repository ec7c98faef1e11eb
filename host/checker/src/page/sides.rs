//! The tables of the sides.

use std::collections::BTreeSet;

use super::lines::{is_blank, Piece};
use super::rows::{Row, Section, What};
use super::{is_name, Place};
use crate::bytes::{State, Transition, MOST_STATES, PLACES, SIDE_LABELS};
use crate::rules::{tokens, Token};

/// The columns of a side.
pub(super) const COLUMNS: [&str; 3] = ["state", "holds", "transitions"];
/// The most signals of a page.
const MOST_SIGNALS: usize = 63;

/// A line of a table.
pub(super) struct Cells {
    /// Where the line begins.
    pub start: Place,
    /// What its cells hold.
    pub cells: Vec<Piece>,
}

impl Cells {
    /// Whether the cells are just these.
    pub fn are(&self, texts: &[&str]) -> bool {
        self.cells.iter().map(|cell| &cell.text[..]).eq(texts.iter().copied())
    }

    /// Whether these are dashes, each with a colon at its ends or none, in so many cells.
    pub fn are_dashes(&self, count: usize) -> bool {
        self.cells.len() == count && self.cells.iter().all(is_dashes)
    }
}

/// Whether a cell is dashes, with a colon at its ends or none.
fn is_dashes(cell: &Piece) -> bool {
    let text = cell.text.strip_prefix(':').unwrap_or(&cell.text);
    let text = text.strip_suffix(':').unwrap_or(text);
    !text.is_empty() && text.chars().all(|letter| letter == '-')
}

/// The lines of the first table of a section. There are none where it has no table.
pub(super) fn first_table(section: &Section) -> Vec<Cells> {
    let from = section.rows.iter().skip_while(|row| !is_of_a_table(row));
    from.take_while(|row| is_of_a_table(row)).map(|row| cells(&row.line)).collect()
}

/// Whether a line is one of a table.
pub(super) fn is_of_a_table(row: &Row) -> bool {
    let line = &row.line;
    matches!(row.what, What::Words) && line.indent() <= 3 && line.trimmed().text.starts_with('|')
}

/// The cells of a line that begins with `|`. Behind the last `|` there is one more where anything
/// stands there.
pub(super) fn cells(line: &Piece) -> Cells {
    let mut cells = line.trimmed().behind(1).split(|letter| letter == '|');
    if cells.last().is_some_and(Piece::is_empty) {
        cells.pop();
    }
    Cells { start: line.place, cells }
}

/// What a side does on a tick. Signals are numbered from 0 here.
#[derive(Clone, Copy, PartialEq, Eq, PartialOrd, Ord)]
enum Event {
    Tick,
    Read(usize),
    Send(usize),
}

/// A state: its labels by number, and its transitions.
struct Line {
    labels: BTreeSet<usize>,
    transitions: Vec<(Event, usize)>,
}

/// A side as its table has it.
#[derive(Default)]
pub(super) struct Side {
    /// The names of its states.
    pub names: Vec<String>,
    /// Its labels.
    pub labels: Vec<String>,
    lines: Vec<Line>,
}

impl Side {
    /// Its states as a design has them. The table has no mistake.
    pub fn records(&self) -> Vec<State> {
        let event = |event| match event {
            Event::Tick => 0,
            Event::Read(signal) => signal as i8 + 1,
            Event::Send(signal) => -(signal as i8 + 1),
        };
        let state = |line: &Line| State {
            label: line.labels.iter().map(|label| 1 << label).sum(),
            transitions: line
                .transitions
                .iter()
                .map(|&(does, to)| Transition { event: event(does), target: to as u8 })
                .collect(),
        };
        self.lines.iter().map(state).collect()
    }
}

/// Reads a side. Its signals are put behind those that are there, and its mistakes too.
pub(super) fn read_side(
    section: &Section,
    signals: &mut Vec<String>,
    mistakes: &mut Vec<Place>,
) -> Side {
    let mut side = Side::default();
    let table = first_table(section);
    let Some(header) = table.first() else {
        mistakes.push(section.heading.place);
        return side;
    };
    let dashes = table.get(1).is_some_and(|line| line.are_dashes(COLUMNS.len()));
    if !header.are(&COLUMNS) || !dashes {
        mistakes.push(header.start);
    }
    // A second line with dashes in some cell is meant to be that line.
    let meant = table.get(1).is_some_and(|line| line.cells.iter().any(is_dashes));
    let lines = if meant { &table[2..] } else { &table[1..] };
    if lines.is_empty() {
        mistakes.push(section.heading.place);
    }
    // All names first, since a transition may lead to a line below.
    for (number, line) in lines.iter().enumerate() {
        read_name(line, number, &mut side.names, mistakes);
    }
    for line in lines {
        if let [_, holds, transitions] = &line.cells[..] {
            let labels = read_labels(holds, &mut side.labels, mistakes);
            let transitions = read_transitions(line, transitions, &side.names, signals, mistakes);
            side.lines.push(Line { labels, transitions });
        }
    }
    side
}

/// Puts the name of a line's state behind the others, also one that isn't right. Where the line has
/// too few cells or too many, that is told of it, and nothing else but that it is the 17th.
fn read_name(line: &Cells, number: usize, names: &mut Vec<String>, mistakes: &mut Vec<Place>) {
    let name = line.cells.first().filter(|name| !name.is_empty());
    let place = name.map_or(line.start, |name| name.place);
    let new = name.filter(|name| !names.contains(&name.text));
    names.extend(new.map(|name| name.text.clone()));
    if number == MOST_STATES {
        mistakes.push(place);
    }
    if line.cells.len() != COLUMNS.len() {
        mistakes.push(line.start);
    } else if !new.is_some_and(|name| is_name(&name.text)) {
        mistakes.push(place);
    }
}

/// The labels of a state by their numbers. New ones are put behind the others.
fn read_labels(
    holds: &Piece,
    labels: &mut Vec<String>,
    mistakes: &mut Vec<Place>,
) -> BTreeSet<usize> {
    let mut numbers = BTreeSet::new();
    for label in holds.parts(|letter| is_blank(letter) || letter == ',') {
        if !is_label(&label.text) {
            mistakes.push(label.place);
            continue;
        }
        let (number, new) = number_of(&label.text, labels);
        if !numbers.insert(number) || (new && number == SIDE_LABELS) {
            mistakes.push(label.place);
        }
    }
    numbers
}

/// Whether this may be a label: a name that isn't a word of the logic.
fn is_label(text: &str) -> bool {
    is_name(text) && tokens(text.as_bytes()).is_none()
}

/// The number of a name, which is put behind the others where it is new; and whether it is.
fn number_of(name: &str, names: &mut Vec<String>) -> (usize, bool) {
    let known = names.iter().position(|known| known == name);
    let number = known.unwrap_or(names.len());
    if known.is_none() {
        names.push(name.to_string());
    }
    (number, known.is_none())
}

/// The transitions of a state, those that have the right form.
fn read_transitions(
    line: &Cells,
    cell: &Piece,
    names: &[String],
    signals: &mut Vec<String>,
    mistakes: &mut Vec<Place>,
) -> Vec<(Event, usize)> {
    let (mut transitions, mut events) = (Vec::new(), BTreeSet::new());
    let before = mistakes.len();
    let pieces = cell.parts(|letter| letter == ';');
    for (own, piece) in pieces.iter().enumerate() {
        if own == PLACES {
            mistakes.push(piece.place);
        }
        let words = piece.parts(is_blank);
        let texts: Vec<&str> = words.iter().map(|word| &word.text[..]).collect();
        let (signal, to) = match texts[..] {
            ["tick", "to", _] => (None, &words[2]),
            ["read" | "send", _, "to", _] => (Some(&words[1]), &words[3]),
            _ => {
                mistakes.push(piece.place);
                continue;
            }
        };
        let target = names.iter().position(|name| *name == to.text);
        if target.is_none() {
            mistakes.push(to.place);
        }
        let event = match signal {
            None => Event::Tick,
            Some(signal) if !is_name(&signal.text) => {
                mistakes.push(signal.place);
                continue;
            }
            Some(signal) => {
                let (number, new) = number_of(&signal.text, signals);
                if new && number == MOST_SIGNALS {
                    mistakes.push(signal.place);
                }
                if texts[0] == "read" {
                    Event::Read(number)
                } else {
                    Event::Send(number)
                }
            }
        };
        if !events.insert(event) {
            mistakes.push(piece.place);
        }
        transitions.extend(target.map(|target| (event, target)));
    }
    let sends = transitions.iter().filter(|(event, _)| matches!(event, Event::Send(_))).count();
    let ticks = transitions.iter().filter(|(event, _)| *event == Event::Tick).count();
    let of_a_kind = matches!((sends, ticks, transitions.len()), (0, _, _) | (1, 0, 1) | (1, 1, 2));
    if pieces.is_empty() || (mistakes.len() == before && !of_a_kind) {
        mistakes.push(line.start);
    }
    transitions
}

/// The number of a label of a side in a formula.
pub(super) fn proposition(side: usize, label: usize) -> Token {
    Token::Name((SIDE_LABELS * side + label) as u8)
}
