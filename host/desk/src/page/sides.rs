//! The sides of a page: their states, labels and transitions, numbered as they appear.

use std::collections::{HashMap, HashSet};

use super::markdown::{is_blank, table, Document, Piece, Row, Section};
use crate::columns::listed;
use crate::design::{
    Side, State, Transition, MOST_SIGNALS, MOST_STATES, MOST_TRANSITIONS, SIDES, SIDE_HEADINGS,
    SIDE_LABELS,
};
use crate::mistakes::{suggested, Mistake};

/// The columns of a side's table.
pub const COLUMNS: [&str; 3] = ["state", "holds", "transitions"];

/// The words that are signs of the logic, beside `p0` to `p47`.
pub const LOGIC: [&str; 11] = ["TRUE", "FALSE", "A", "U", "E", "AX", "AG", "AF", "EX", "EG", "EF"];

/// The proposition that a word from `p0` to `p47` is.
pub fn proposition(word: &str) -> Option<u8> {
    let all = 0..(SIDES * SIDE_LABELS) as u8;
    let number = word.strip_prefix('p').filter(|number| number.len() <= 2)?;
    all.into_iter().find(|proposition| proposition.to_string() == number)
}

/// Whether a word is a name: ASCII letters, digits and `_`, with a letter in front.
pub fn is_name(word: &str) -> bool {
    word.starts_with(|sign: char| sign.is_ascii_alphabetic())
        && word.chars().all(|sign| sign.is_ascii_alphanumeric() || sign == '_')
}

/// What names are, in words.
pub const NAMES: &str = "names are letters, digits and '_', and begin with a letter";

/// Names with numbers by their first appearance.
#[derive(Default)]
struct Names<'a> {
    list: Vec<String>,
    numbers: HashMap<&'a str, usize>,
}

impl<'a> Names<'a> {
    /// The number of a name, and whether this is its first appearance.
    fn number(&mut self, name: &'a str) -> (usize, bool) {
        let next = self.list.len();
        let number = *self.numbers.entry(name).or_insert(next);
        if number == next {
            self.list.push(name.to_string());
        }
        (number, number == next)
    }

    /// The first names, as many as there may be.
    fn known(&self, most: usize) -> impl Iterator<Item = &str> {
        self.list.iter().map(String::as_str).take(most)
    }
}

/// Reads the sides that stand on the page, and the signals.
pub fn sides(
    document: &Document,
    mistakes: &mut Vec<Mistake>,
) -> ([Option<Side>; SIDES], Vec<String>) {
    let mut signals = Names::default();
    let sides = SIDE_HEADINGS.map(|name| {
        let section = document.section(name)?;
        Some(side(document, &section, &mut signals, mistakes))
    });
    (sides, signals.list)
}

fn side<'a>(
    document: &Document<'a>,
    section: &Section<'a>,
    signals: &mut Names<'a>,
    mistakes: &mut Vec<Mistake>,
) -> Side {
    let name = section.name.text;
    let rows = table(&document.lines[section.body.clone()], &COLUMNS, mistakes);
    match rows.as_deref() {
        None => mistakes.push(section.name.mistake(format!(
            "no table in the section {name}: a side is a table with the columns {}",
            listed(&COLUMNS.map(String::from))
        ))),
        Some([]) => {
            let what = format!("the table of {name} has no state: a line is a state (4)");
            mistakes.push(section.name.mistake(what));
        }
        _ => {}
    }
    let rows = rows.unwrap_or_default();
    let states = states(&rows, name, mistakes);
    let mut labels = Names::default();
    let mut reader = Reader { side: name, states, signals, mistakes };
    let states = rows.iter().map(|row| reader.state(row, &mut labels)).collect();
    Side { title: section.title.to_string(), states, labels: labels.list }
}

/// The states of a side by their names. Every line counts; of one with too few or too many cells that
/// alone is told.
fn states<'a>(rows: &[Row<'a>], side: &str, mistakes: &mut Vec<Mistake>) -> Names<'a> {
    let mut states = Names::default();
    for (number, row) in rows.iter().enumerate() {
        let named = row.cells.first().filter(|name| !name.text.is_empty());
        let place = named.unwrap_or(&row.beginning);
        if number == MOST_STATES {
            let what = format!("a 17th state in {side}: a side has {MOST_STATES} at most (4)");
            mistakes.push(place.mistake(what));
        }
        let complete = row.cells.len() == COLUMNS.len();
        let Some(name) = named else {
            if complete {
                mistakes.push(place.mistake("a state without a name"));
            }
            continue;
        };
        let (_, first) = states.number(name.text);
        if !complete {
            continue;
        }
        if !is_name(name.text) {
            mistakes.push(name.mistake(format!("'{}' isn't a name: {NAMES}", name.text)));
        } else if !first {
            let what = format!("the state '{}' stands in {side} for the second time", name.text);
            mistakes.push(name.mistake(what));
        }
    }
    states
}

/// Reads the states of a side.
struct Reader<'r, 'a> {
    side: &'a str,
    states: Names<'a>,
    signals: &'r mut Names<'a>,
    mistakes: &'r mut Vec<Mistake>,
}

impl<'a> Reader<'_, 'a> {
    /// A line of the table. Of a line with too few or too many cells only the name is known.
    fn state(&mut self, row: &Row<'a>, labels: &mut Names<'a>) -> State {
        let name = row.cells.first().map_or("", |name| name.text).to_string();
        let &[_, holds, transitions] = row.cells.as_slice() else {
            return State { name, ..State::default() };
        };
        let label_word = self.labels(holds, labels);
        let before = self.mistakes.len();
        let transitions = self.transitions(row.beginning, transitions);
        let state = State { name, label_word, transitions };
        if self.mistakes.len() == before && state.kind().is_none() {
            let what = neither(&state, &self.signals.list);
            self.mistakes.push(row.beginning.mistake(what));
        }
        state
    }

    /// The label word of a cell.
    fn labels(&mut self, cell: Piece<'a>, labels: &mut Names<'a>) -> u16 {
        let mut here = HashSet::new();
        let mut label_word = 0;
        for label in cell.words(|sign| sign == ',' || is_blank(sign)) {
            let word = label.text;
            let wrong = if !is_name(word) {
                format!("the label '{word}' isn't a name: {NAMES}")
            } else if LOGIC.contains(&word) || proposition(word).is_some() {
                format!("'{word}' is a word of the logic, and no label")
            } else if !here.insert(word) {
                format!("the label '{word}' stands here twice")
            } else {
                match labels.number(word) {
                    (number, _) if number < SIDE_LABELS => {
                        label_word |= 1 << number;
                        continue;
                    }
                    (SIDE_LABELS, true) => format!(
                        "a 17th label of {}, '{word}': a side has {SIDE_LABELS} at most",
                        self.side
                    ),
                    _ => continue,
                }
            };
            self.mistakes.push(label.mistake(wrong));
        }
        label_word
    }

    /// The transitions of a state. What has a mistake is left out.
    fn transitions(&mut self, beginning: Piece<'a>, cell: Piece<'a>) -> Vec<Transition> {
        let mut events = HashSet::new();
        let (mut count, mut transitions) = (0, Vec::new());
        for piece in cell.split(|sign| sign == ';') {
            let words: Vec<Piece> = piece.words(is_blank).collect();
            let Some(&first) = words.first() else { continue };
            count += 1;
            if count == MOST_TRANSITIONS + 1 {
                let what =
                    format!("a ninth transition: a state has {MOST_TRANSITIONS} at most (5)");
                self.mistakes.push(first.mistake(what));
            }
            transitions.extend(self.transition(&words, &mut events));
        }
        if count == 0 {
            let what =
                "a state without transitions: 'tick to S', 'read X to S' or 'send X to S' (5)";
            self.mistakes.push(beginning.mistake(what));
        }
        transitions
    }

    fn transition(
        &mut self,
        words: &[Piece<'a>],
        events: &mut HashSet<(&'a str, &'a str)>,
    ) -> Option<Transition> {
        let (verb, signal, target) = match *words {
            [verb, to, target] if verb.text == "tick" && to.text == "to" => (verb, None, target),
            [verb, signal, to, target]
                if ["read", "send"].contains(&verb.text) && to.text == "to" =>
            {
                (verb, Some(signal), target)
            }
            [first, ..] => {
                self.mistakes.push(first.mistake(another_form(words)));
                return None;
            }
            [] => return None,
        };
        let number = signal.map_or(Some(0), |signal| self.signal(signal));
        let state = self.states.numbers.get(target.text).copied();
        if state.is_none() {
            let near = suggested(target.text, self.states.known(MOST_STATES));
            let what = format!("no state '{}' in {}{near} (5)", target.text, self.side);
            self.mistakes.push(target.mistake(what));
        }
        let number = number?;
        let event = (verb.text, signal.map_or("", |signal| signal.text));
        if !events.insert(event) {
            let event = format!("{} {}", event.0, event.1);
            let what = format!("'{}' stands in this state for the second time (5)", event.trim());
            self.mistakes.push(verb.mistake(what));
        }
        let event = if verb.text == "send" { -number } else { number };
        Some(Transition { event, target: state? })
    }

    /// The number of a signal. One that is too many gets the last number.
    fn signal(&mut self, signal: Piece<'a>) -> Option<i8> {
        if !is_name(signal.text) {
            let what = format!("the signal '{}' isn't a name: {NAMES}", signal.text);
            self.mistakes.push(signal.mistake(what));
            return None;
        }
        let (number, first) = self.signals.number(signal.text);
        if number == MOST_SIGNALS && first {
            let what =
                format!("a 64th signal, '{}': a page has {MOST_SIGNALS} at most (5)", signal.text);
            self.mistakes.push(signal.mistake(what));
        }
        Some((number + 1).min(MOST_SIGNALS) as i8)
    }
}

/// What is wrong with a transition of another form.
fn another_form(words: &[Piece]) -> String {
    let typed: Vec<&str> = words.iter().take(5).map(|word| word.text).collect();
    let more = if words.len() > typed.len() { " ..." } else { "" };
    let typed = typed.join(" ");
    format!(
        "'{typed}{more}' is no transition: write 'tick to S', 'read X to S' or 'send X to S', \
         with ';' between two"
    )
}

/// What is wrong with a state that sends beside something else than a tick.
fn neither(state: &State, signals: &[String]) -> String {
    let name = |event: i8| &signals[usize::from(event.unsigned_abs()) - 1];
    let events = || state.transitions.iter().map(|transition| transition.event);
    let sent = events().find(|&event| event < 0).unwrap_or(-1);
    let others = events().filter(|&event| event != 0 && event != sent);
    let doing = |event: i8| if event < 0 { "sending" } else { "reading" };
    let others: Vec<String> =
        others.map(|event| format!("{} '{}'", doing(event), name(event))).collect();
    format!(
        "'{}' is neither input, output-only nor delayed: it sends '{}' beside {}; \
         a state that sends has that one transition, or beside it a tick (6)",
        state.name,
        name(sent),
        listed(&others)
    )
}
