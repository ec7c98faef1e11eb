//! Pages as people write them at their desks, sound and damaged.
//!
//! A page is made of sides whose states, labels and signals have names from the beginning. The
//! numbers are counted here, where the sides are made, and not on the page.

use std::collections::BTreeSet;

use super::rules::sound_text;
use super::Random;
use crate::bytes::{
    idle_side, Design, Link, Record, State, Transition, MOST_FORMULAS, MOST_RULES, MOST_STATES,
    PLACES, PROPOSITIONS, SIDES, SIDE_LABELS,
};
use crate::page::Names;
use crate::rules::{depth, records, spelled, Token, Typed, MOST_DEPTH};

/// A sound page, and what it stands for.
#[derive(Clone, Debug)]
pub struct Made {
    /// The page.
    pub page: Vec<u8>,
    /// The design as bytes.
    pub design: Vec<u8>,
    /// The names that its numbers stand for.
    pub names: Names,
    /// How many rules it has.
    pub rules: usize,
    /// The converter in its section Converter, if there is a table.
    pub converter: Option<Vec<Record>>,
}

/// The most signals of a page.
const MOST_SIGNALS: usize = 63;
/// Words that mean something on a page, and are names all the same.
const PAGE_WORDS: [&str; 16] = [
    "to",
    "tick",
    "read",
    "send",
    "state",
    "holds",
    "transitions",
    "kernel",
    "host",
    "third",
    "Kernel",
    "Rules",
    "record",
    "next",
    "names",
    "true",
];
/// Words of the logic, which states and signals may have as names, and labels not.
const LOGIC: [&str; 11] = ["TRUE", "FALSE", "A", "U", "E", "AX", "AG", "AF", "EX", "EG", "EF"];
/// Names that are nearly words of the logic.
const NEARLY_LOGIC: [&str; 10] =
    ["p48", "p01", "p00", "p100", "a", "u", "Ax", "AXE", "TRUE_", "pp1"];

/// A transition: what is done, with which signal if not a tick, and the state that it leads to.
#[derive(Clone, Debug)]
struct Move {
    does: Does,
    signal: String,
    to: usize,
}

/// What a side does on a tick.
#[derive(Clone, Copy, Debug, PartialEq, Eq, PartialOrd, Ord)]
enum Does {
    Tick,
    Read,
    Send,
}

/// A state with its names.
#[derive(Clone, Debug)]
struct Named {
    name: String,
    labels: Vec<String>,
    moves: Vec<Move>,
}

/// A sound page.
pub fn page(random: &mut Random) -> Made {
    let sides = named_sides(random);
    let names = numbered(&sides);
    let mut states: Vec<Vec<State>> =
        (0..sides.len()).map(|side| states(&sides[side], &names.labels[side], &names)).collect();
    states.resize_with(SIDES, idle_side);
    let rules = some_rules(random, &names);
    let (formulas, numbers) = records(&rules);
    let design = Design {
        sides: states.try_into().expect("there are as many as sides"),
        formulas,
        rules: numbers.into_iter().map(|number| number as u8).collect(),
    };
    let design = if sides.len() == SIDES { design.to_five_blocks() } else { design.to_bytes() };
    let converter = random.once_in(3).then(|| some_records(random, &names));
    let page = written(random, &sides, &names, &rules, converter.as_deref());
    Made { page, design, names, rules: rules.len(), converter }
}

/// Two sides or three, as small as can be or as large.
fn named_sides(random: &mut Random) -> Vec<Vec<Named>> {
    let most_states = *random.pick(&[1, 2, 4, MOST_STATES]);
    let most_labels = *random.pick(&[0, 2, 5, SIDE_LABELS]);
    let most_signals = *random.pick(&[1, 3, 9, MOST_SIGNALS]);
    let mut signals = some_names(random, most_signals, |_| true);
    let is_label = |name: &str| {
        !LOGIC.contains(&name) && (0..PROPOSITIONS).all(|number| name != format!("p{number}"))
    };
    // Some labels are of several sides.
    let shared = some_names(random, most_labels, is_label);
    let mut sides = Vec::new();
    for _ in 0..random.from_to(2, SIDES) {
        let mut labels = some_names(random, most_labels, is_label);
        for label in &mut labels {
            let other = random.pick(&shared);
            if random.once_in(3) {
                *label = other.clone();
            }
        }
        let count = random.from_to(1, most_states).max(random.from_to(1, most_states));
        let names = some_names(random, count, |_| true);
        let side = names.into_iter().map(|name| Named {
            name,
            labels: some_of(random, &labels),
            moves: some_moves(random, &mut signals, count),
        });
        sides.push(side.collect());
    }
    sides
}

/// One of some words.
fn one_of(random: &mut Random, words: &[&'static str]) -> &'static str {
    words[random.below(words.len())]
}

/// So many different names of a sort.
fn some_names(random: &mut Random, count: usize, is_such: impl Fn(&str) -> bool) -> Vec<String> {
    let mut names: Vec<String> = Vec::new();
    while names.len() < count {
        let name = some_name(random);
        if is_such(&name) && !names.contains(&name) {
            names.push(name);
        }
    }
    names
}

/// A name.
fn some_name(random: &mut Random) -> String {
    match random.below(12) {
        0..=1 => return random.pick(&PAGE_WORDS).to_string(),
        2 => return random.pick(&LOGIC).to_string(),
        3 => return random.pick(&NEARLY_LOGIC).to_string(),
        4 => return format!("p{}", random.below(60)),
        _ => {}
    }
    let mut name = String::from(*random.pick(b"abcdexyzABEPU") as char);
    let most = *random.pick(&[1, 4, 11]);
    for _ in 0..random.from_to(0, most) {
        name.push(*random.pick(b"abcdeXGUp0179__") as char);
    }
    name
}

/// Some of these, each once at most, in any order.
fn some_of(random: &mut Random, all: &[String]) -> Vec<String> {
    let rare = *random.pick(&[1, 2, 4]);
    let mut some: Vec<String> = Vec::new();
    for one in all {
        if random.once_in(rare) && !some.contains(one) {
            some.push(one.clone());
        }
    }
    random.shuffle(&mut some);
    some
}

/// The transitions of a state of one of the three kinds. The signals are taken in turn half of the
/// time, so that many of them are used.
fn some_moves(random: &mut Random, signals: &mut [String], states: usize) -> Vec<Move> {
    let mut signal = |random: &mut Random| {
        if random.once_in(2) {
            return random.pick(signals).clone();
        }
        signals.rotate_left(1);
        signals[0].clone()
    };
    let tick = (Does::Tick, String::new());
    let events: BTreeSet<(Does, String)> = match random.below(5) {
        0 => [(Does::Send, signal(random))].into(),
        1 => [(Does::Send, signal(random)), tick].into(),
        _ => {
            let mut event = |random: &mut Random| match random.below(4) {
                0 => tick.clone(),
                _ => (Does::Read, signal(random)),
            };
            (0..random.from_to(1, PLACES)).map(|_| event(random)).collect()
        }
    };
    let mut moves: Vec<Move> = Vec::new();
    for (does, signal) in events {
        moves.push(Move { does, signal, to: random.below(states) });
    }
    random.shuffle(&mut moves);
    moves
}

/// The names in the order in which they appear.
fn numbered(sides: &[Vec<Named>]) -> Names {
    let mut names = Names::default();
    for side in sides {
        names.states.push(side.iter().map(|state| state.name.clone()).collect());
        let mut labels = Vec::new();
        for state in side {
            state.labels.iter().for_each(|label| put_new(&mut labels, label));
            let told = state.moves.iter().filter(|shown| shown.does != Does::Tick);
            told.for_each(|shown| put_new(&mut names.signals, &shown.signal));
        }
        names.labels.push(labels);
    }
    names
}

/// Puts a name behind the others where it isn't among them.
fn put_new(names: &mut Vec<String>, name: &String) {
    if !names.contains(name) {
        names.push(name.clone());
    }
}

/// The number of a name that is there, from 0.
fn number(names: &[String], name: &str) -> usize {
    names.iter().position(|known| known == name).expect("it is there")
}

/// The states of a side as a design has them.
fn states(side: &[Named], labels: &[String], names: &Names) -> Vec<State> {
    let transition = |shown: &Move| {
        let event = match shown.does {
            Does::Tick => 0,
            Does::Read => number(&names.signals, &shown.signal) as i8 + 1,
            Does::Send => -1 - number(&names.signals, &shown.signal) as i8,
        };
        Transition { event, target: shown.to as u8 }
    };
    let state = |named: &Named| State {
        label: named.labels.iter().fold(0, |word, label| word | 1 << number(labels, label)),
        transitions: named.moves.iter().map(transition).collect(),
    };
    side.iter().map(state).collect()
}

/// Rules over the labels of a page, and a few other numbers.
fn some_rules(random: &mut Random, names: &Names) -> Vec<Typed> {
    let mut known: Vec<u8> = vec![random.below(PROPOSITIONS) as u8];
    for (side, labels) in names.labels.iter().enumerate() {
        known.extend((0..labels.len()).map(|label| (SIDE_LABELS * side + label) as u8));
    }
    let most = *random.pick(&[1, 2, 4, MOST_RULES]);
    let records = *random.pick(&[most, 3 * most, MOST_FORMULAS]);
    sound_text(random, &known, most, records.min(MOST_FORMULAS)).rules
}

/// A converter over the names of a page: one can write it down, whether or not it fits the sides.
fn some_records(random: &mut Random, names: &Names) -> Vec<Record> {
    let count = *random.pick(&[1, 2, 3, 12]);
    let record = |random: &mut Random| {
        let mut record = Record { states: [0; SIDES], links: Vec::new() };
        for (state, of_side) in record.states.iter_mut().zip(&names.states) {
            *state = random.below(of_side.len()) as u8;
        }
        for _ in 0..random.from_to(1, PLACES) {
            let mut link = Link { events: [0; SIDES], next: random.below(count) as u16 };
            for event in &mut link.events[..names.states.len()] {
                let signal = random.below(names.signals.len() + 1) as i8;
                *event = if random.once_in(2) { signal } else { -signal };
            }
            if record.links.iter().all(|other| other.events != link.events) {
                record.links.push(link);
            }
        }
        record
    };
    (0..count).map(|_| record(random)).collect()
}

/// A page as text.
fn written(
    random: &mut Random,
    sides: &[Vec<Named>],
    names: &Names,
    rules: &[Typed],
    converter: Option<&[Record]>,
) -> Vec<u8> {
    let mut sections: Vec<Vec<String>> = Vec::new();
    for (side, section) in sides.iter().zip(["Kernel", "Host", "Third"]) {
        sections.push(side_section(random, section, side));
    }
    if !rules.is_empty() || random.once_in(2) {
        sections.push(rules_section(random, names, rules));
    }
    if converter.is_some() || random.once_in(3) {
        sections.push(converter_section(random, names, converter));
    }
    if random.once_in(3) {
        sections.push([heading(random, "Verdict"), words(random), written_table(random)].concat());
    }
    for name in ["Notes", "Why", "Notes"] {
        if random.once_in(3) {
            sections.push([heading(random, name), words(random)].concat());
        }
    }
    random.shuffle(&mut sections);

    let mut lines = Vec::new();
    if random.once_in(2) {
        lines.push(random.pick(&["# The lock", "# Kernel", "# A page: of words", "#"]).to_string());
    }
    lines.extend(words(random));
    for section in sections {
        let of_rules = section[0].contains("Rules");
        lines.extend(section);
        // A heading of level one ends a section. Below that of the rules a list may not have
        // numbers.
        if random.once_in(8) {
            lines.push("# More".to_string());
            lines.extend(words(random));
            if !of_rules {
                lines.extend(["1. not a rule", "2)\tnor this", ""].map(str::to_string));
            }
        }
    }
    let mut page = String::from(if random.once_in(6) { "\u{feff}" } else { "" });
    let ends = *random.pick(&[&["\n"][..], &["\r\n"], &["\n", "\r\n"]]);
    for line in lines {
        page.push_str(&line);
        page.push_str(one_of(random, ends));
    }
    if random.once_in(6) {
        page.truncate(page.trim_end().len());
    }
    page.into_bytes()
}

/// The heading of a section, in one of its forms.
fn heading(random: &mut Random, name: &str) -> Vec<String> {
    let line = match random.below(7) {
        0 => format!("## {name}: one of the sides"),
        1 => format!("##  {name} "),
        2 => format!("## {name} ##"),
        3 => format!("## {name} : with: colons ###"),
        4 => format!("## {name}:"),
        _ => format!("## {name}"),
    };
    if random.once_in(2) {
        vec![line]
    } else {
        vec![line, String::new()]
    }
}

/// Some lines of words, which say nothing about a design. Nothing goes on behind them.
fn words(random: &mut Random) -> Vec<String> {
    let lines: &[&str] = match random.below(10) {
        0 => &["Words, as many as one likes, here and between the sections.", ""],
        1 => &["Two lines", "of words: the größte lock →", ""],
        2 => &["", "   ", "\t"],
        3 => &["", "```", "## Kernel", "| state | holds | transitions |", "```", ""],
        4 => &["~~~~ text", "## Rules", "```", "~~~", "# Host", "~~~~~", ""],
        5 => &["", "### Deeper", "", "- a list", "- of two", ""],
        6 => &["", "    ## Third", "    | state | holds | transitions |", ""],
        7 => &["", "Third party", "-----------", "Ruled", "=====", ""],
        _ => &[""],
    };
    lines.iter().map(|line| line.to_string()).collect()
}

/// Some lines of words between the rules, which aren't taken for rules. Nothing goes on behind
/// them.
fn words_of_rules(random: &mut Random) -> Vec<String> {
    let lines: &[&str] = match random.below(8) {
        0 => &["", "Words between the rules.", ""],
        1 => &["", "Words that go on", "        AG (no code", "    ``` neither", ""],
        2 => &["", "### Deeper", "", "Words", "-----", "", "-", ""],
        3 => &["", "(1) words", "-no list", "**Words** 1. none", "1 . none", "1", ". none", ""],
        4 => &["", "a | table", "|---|---|", "| state | holds |", "", "   ## Kernel", ""],
        5 => &["", "   ", "\t"],
        _ => &[""],
    };
    lines.iter().map(|line| line.to_string()).collect()
}

/// A table as the desk could write it, with the columns of a side; or none.
fn written_table(random: &mut Random) -> Vec<String> {
    let lines: &[&str] = match random.below(3) {
        0 => &["", "| state | holds | transitions |", "|---|---|---|", "| 0 | 1 | 2 |", ""],
        _ => &[],
    };
    lines.iter().map(|line| line.to_string()).collect()
}

/// A section with the table of a side.
fn side_section(random: &mut Random, name: &str, side: &[Named]) -> Vec<String> {
    let mut rows = vec![["state", "holds", "transitions"].map(str::to_string).to_vec()];
    for state in side {
        let mut holds = String::new();
        for (at, label) in state.labels.iter().enumerate() {
            let between = random.pick(&[", ", " ", ",", " , ", "  "]);
            holds.push_str(if at > 0 { between } else { "" });
            holds.push_str(label);
        }
        let mut transitions = String::new();
        for (at, shown) in state.moves.iter().enumerate() {
            let between = random.pick(&["; ", ";", " ; ", ";; "]);
            transitions.push_str(if at > 0 { between } else { "" });
            transitions.push_str(&shown_move(random, shown, &side[shown.to].name));
        }
        transitions.push_str(one_of(random, &["", "", "", ";", " ; "]));
        rows.push(vec![state.name.clone(), holds, transitions]);
    }
    [heading(random, name), words(random), table(random, &rows), behind_table(random)].concat()
}

/// A transition as it is written.
fn shown_move(random: &mut Random, shown: &Move, to: &str) -> String {
    let mut words = match shown.does {
        Does::Tick => vec!["tick"],
        Does::Read => vec!["read", &shown.signal],
        Does::Send => vec!["send", &shown.signal],
    };
    words.extend(["to", to]);
    let blank = if random.once_in(8) { *random.pick(&["  ", "\t", " \t "]) } else { " " };
    words.join(blank)
}

/// A table of these rows, the first of which is the header.
fn table(random: &mut Random, rows: &[Vec<String>]) -> Vec<String> {
    let columns = rows[0].len();
    let dashes =
        (0..columns).map(|_| random.pick(&["---", ":--", "-", "--:", ":-----:"]).to_string());
    let mut rows = rows.to_vec();
    rows.insert(1, dashes.collect());
    let (padded, open) = (random.once_in(3), random.once_in(4));
    let width =
        |column: usize| rows.iter().map(|row| row[column].chars().count()).max().unwrap_or(0);
    let widths: Vec<usize> = (0..columns).map(width).collect();
    let line = |row: &Vec<String>| {
        let mut line = " ".repeat(if random.once_in(6) { random.from_to(1, 3) } else { 0 });
        for (column, cell) in row.iter().enumerate() {
            let [before, behind] = match random.below(6) {
                0 => ["", ""],
                1 => ["  ", "\t"],
                _ => [" ", " "],
            };
            let width = if padded { widths[column] } else { 0 };
            line.push_str(&format!("|{before}{cell:width$}{behind}"));
        }
        // The last `|` may be missing, and blanks may stand behind it.
        let end = if open && random.once_in(2) { "" } else { *random.pick(&["|", "|", "|  "]) };
        line + end
    };
    rows.iter().map(line).collect()
}

/// What may stand behind a table in its section.
fn behind_table(random: &mut Random) -> Vec<String> {
    let lines: &[&str] = match random.below(6) {
        0 => &["Words right behind.", ""],
        1 => &["", "| another | table |", "|---|---|", "| of words | |", ""],
        2 => &["", "### Deeper", "", "| state |"],
        3 => &[],
        _ => &[""],
    };
    lines.iter().map(|line| line.to_string()).collect()
}

/// The section Converter, with a table or without.
fn converter_section(
    random: &mut Random,
    names: &Names,
    converter: Option<&[Record]>,
) -> Vec<String> {
    let mut lines = heading(random, "Converter");
    lines.extend(words(random));
    let Some(converter) = converter else { return lines };
    let sides = names.states.len();
    let header = [&["record", "names"], &["kernel", "host", "third"][..sides], &["next"]].concat();
    let mut rows: Vec<Vec<String>> = vec![header.into_iter().map(str::to_string).collect()];
    for (own, record) in converter.iter().enumerate() {
        let named =
            (0..sides).map(|side| &names.states[side][usize::from(record.states[side])][..]);
        let named = named.collect::<Vec<_>>().join(*random.pick(&[", ", ",", " , "]));
        for (at, link) in record.links.iter().enumerate() {
            let mut row = match at {
                0 => vec![own.to_string(), named.clone()],
                _ => vec![String::new(), String::new()],
            };
            for &event in &link.events[..sides] {
                let signal = || &names.signals[usize::from(event.unsigned_abs()) - 1];
                // The side does the dual.
                row.push(match event {
                    0 => "tick".to_string(),
                    1.. => format!("send {}", signal()),
                    _ => format!("read {}", signal()),
                });
            }
            row.push(link.next.to_string());
            rows.push(row);
        }
    }
    lines.extend(table(random, &rows));
    lines.extend(behind_table(random));
    lines.extend(written_table(random));
    lines
}

/// The section Rules.
fn rules_section(random: &mut Random, names: &Names, rules: &[Typed]) -> Vec<String> {
    let mut lines = heading(random, "Rules");
    lines.extend(words_of_rules(random));
    for (own, rule) in rules.iter().enumerate() {
        lines.extend(item(random, names, own, rule));
    }
    lines
}

/// The item of a rule.
fn item(random: &mut Random, names: &Names, own: usize, rule: &Typed) -> Vec<String> {
    let number = match random.below(4) {
        0 => "1".to_string(),
        1 => (0..random.from_to(1, 9)).map(|_| *random.pick(b"0123456789") as char).collect(),
        _ => (own + 1).to_string(),
    };
    let before = if random.once_in(4) { random.from_to(1, 3) } else { 0 };
    let mark = random.pick(&[".", ".", ")"]);
    let mut first = format!("{}{number}{mark}", " ".repeat(before));
    let indent = if random.once_in(6) {
        let next = first.len() / 4 * 4 + 4;
        first.push('\t');
        next
    } else {
        let gap = if random.once_in(4) { random.from_to(2, 4) } else { 1 };
        first.push_str(&" ".repeat(gap));
        first.len()
    };
    let mut lines = vec![format!("{first}{}", sentence(random))];
    if random.once_in(4) {
        // A paragraph goes on however far its lines are indented.
        lines.push(" ".repeat(random.below(indent + 8)) + sentence(random));
    }
    if random.once_in(6) {
        lines.extend([
            empty(random),
            " ".repeat(random.from_to(indent, indent + 3)) + sentence(random),
        ]);
    }
    let formula = formula_lines(random, names, rule);
    if random.once_in(3) {
        lines.extend(fenced(random, indent, formula));
    } else {
        lines.push(empty(random));
        for line in formula {
            lines.push(" ".repeat(random.from_to(indent + 4, indent + 7)) + &line);
            if random.once_in(8) {
                lines.push(empty(random));
            }
        }
    }
    match random.below(8) {
        0 => lines.extend([String::new(), " ".repeat(indent) + sentence(random)]),
        // What stands further left is no part of the item.
        1 => lines.extend(words_of_rules(random)),
        2 => {}
        // A list of its own.
        3 => {
            lines.extend([empty(random), " ".repeat(indent) + "- a list of its own", empty(random)])
        }
        _ => lines.push(empty(random)),
    }
    lines
}

/// A line with nothing in it but blanks.
fn empty(random: &mut Random) -> String {
    if random.once_in(6) {
        random.pick(&[" ", "\t", "     "]).to_string()
    } else {
        String::new()
    }
}

/// What is said of a rule in words.
fn sentence(random: &mut Random) -> &'static str {
    let sentences = [
        "The host drags only while the drag holds the lock.",
        "So it is.",
        "Sätze → auch so; (with | signs) & `code` in them",
        "to",
    ];
    one_of(random, &sentences)
}

/// A formula in a fence inside an item.
fn fenced(random: &mut Random, indent: usize, formula: Vec<String>) -> Vec<String> {
    let (sign, count) = (*random.pick(&["`", "~"]), random.from_to(3, 5));
    let blanks = " ".repeat(indent);
    let mut lines = Vec::new();
    if random.once_in(2) {
        lines.push(empty(random));
    }
    let info = random.pick(&["", "", "text", " ctl "]);
    lines.push(format!("{blanks}{}{info}", sign.repeat(count)));
    for line in formula {
        lines.push(" ".repeat(random.from_to(indent, indent + 5)) + &line);
        if random.once_in(8) {
            lines.push(empty(random));
        }
    }
    let more = random.below(3);
    let behind = random.pick(&["", " "]);
    lines.push(format!("{blanks}{}{behind}", sign.repeat(count + more)));
    lines
}

/// A rule as it is typed on a page, over one line or several.
fn formula_lines(random: &mut Random, names: &Names, rule: &Typed) -> Vec<String> {
    let rare = *random.pick(&[2, 4, 16]);
    let needless = rule.tokens(|| if random.once_in(rare) { 1 } else { 0 });
    let tokens = if depth(&needless) <= MOST_DEPTH { needless } else { rule.tokens(|| 0) };
    let spaces = *random.pick(&[1, 2, 8]);
    let breaks = *random.pick(&[5, 20, 1_000]);
    let mut lines = vec![String::new()];
    for token in tokens {
        let typed = typed(random, names, token);
        let line = lines.last_mut().expect("there is a line");
        let in_word = |letter: char| letter.is_ascii_alphanumeric() || letter == '_';
        let touch = line.ends_with(in_word) && typed.starts_with(in_word);
        if !line.is_empty() && random.once_in(breaks) {
            line.push_str(one_of(random, &["", " "]));
            lines.push(typed);
        } else {
            if !line.is_empty() && (touch || random.once_in(spaces)) {
                line.push_str(one_of(random, &[" ", " ", " ", "  ", "\t"]));
            }
            line.push_str(&typed);
        }
    }
    lines
}

/// A word or a sign on a page: a label by its name, with its side in front where it must have it,
/// and at times where it need not; or any by its number.
fn typed(random: &mut Random, names: &Names, token: Token) -> String {
    let Token::Name(number) = token else { return spelled(token) };
    let (side, label) = (usize::from(number) / SIDE_LABELS, usize::from(number) % SIDE_LABELS);
    let label = names.labels.get(side).and_then(|labels| labels.get(label));
    let Some(label) = label.filter(|_| !random.once_in(10)) else { return spelled(token) };
    let sides = names.labels.iter().filter(|labels| labels.contains(label)).count();
    if sides > 1 || random.once_in(6) {
        format!("{}.{label}", ["kernel", "host", "third"][side])
    } else {
        label.clone()
    }
}

/// A page that was sound and has one to three things changed. It may be sound again.
pub fn damaged_page(random: &mut Random) -> Vec<u8> {
    let mut page = page(random).page;
    for _ in 0..random.from_to(1, 3) {
        let mut lines: Vec<Vec<u8>> =
            page.split(|&byte| byte == b'\n').map(<[u8]>::to_vec).collect();
        damage(random, &mut lines);
        page = lines.join(&b'\n');
    }
    page
}

/// Changes one thing.
fn damage(random: &mut Random, lines: &mut Vec<Vec<u8>>) {
    let at = telling_line(random, lines);
    match random.below(23) {
        0 => misspell(random, &mut lines[at]),
        1 => {
            let put_in = random.pick(&["|", ";", ",", ":", "#", "`", ".", "!", "&", "(", "]", "-"]);
            insert(random, &mut lines[at], put_in.as_bytes());
        }
        2 => {
            let put_in =
                random.pick(&[" ", "\t", "é", "\u{a0}", "\r", "x", "U", "0", "_", "\u{feff}"]);
            insert(random, &mut lines[at], put_in.as_bytes());
        }
        3 => exchange(random, &mut lines[at], b""),
        4 => {
            let other = [*random.pick(b"aAUXp01_|;,.!&()[]->#` ")];
            exchange(random, &mut lines[at], &other);
        }
        5 => {
            let line = lines[at].clone();
            let to = if random.once_in(2) { at } else { random.below(lines.len()) };
            lines.insert(to, line);
        }
        6 => {
            lines.remove(at);
            if lines.is_empty() {
                lines.push(Vec::new());
            }
        }
        7 => {
            let length = random.below(lines[at].len() + 1);
            lines[at].truncate(length);
        }
        8 => empty_cell(random, lines),
        9 => change_heading(random, lines),
        10 => {
            let brackets = |byte: &u8| b"()[]".contains(byte);
            drop_one(random, lines, brackets);
        }
        11 => change_operator(random, lines),
        12 => {
            let stray = [random.from_to(128, 255) as u8];
            insert(random, &mut lines[at], &stray);
        }
        13 => swap_words(random, lines),
        14 => {
            let line = &mut lines[at];
            if line.starts_with(b" ") && random.once_in(2) {
                line.remove(0);
            } else {
                let blanks = random.from_to(1, 4);
                line.splice(0..0, vec![b' '; blanks]);
            }
        }
        15 => repeat_lines(random, lines, at),
        16 => change_item(random, lines),
        17 => {
            let heading = random.pick(&["# More", "#", "## More", "### More", "# Rules"]);
            put_between_rules(random, lines, &[heading]);
        }
        18 => {
            let strays = *random.pick(&[
                &["- and more", ""][..],
                &["", "  * and more", "", "    x", ""],
                &["```", "x", "```", ""],
                &["", "    x", "", "     x", "  Words", "    x", ""],
                &["", "Words", "", "\tx", ""],
                &["### More", "    x", "    ```", ""],
                &["1.and more", "12345678901) more"],
                &["   + and more", ""],
            ]);
            put_between_rules(random, lines, strays);
        }
        19 => hide_section(random, lines),
        20 => {
            let fence = random.pick(&["```", "~~~~", "   ``` text", "    ```", "      ~~~", "``"]);
            lines.insert(at, fence.as_bytes().to_vec());
        }
        21 => double_table(random, lines),
        _ => unindent(random, lines),
    }
}

/// The items, more or less: the line of each, and where in it the number begins and the blank
/// behind it stands.
fn items(lines: &[Vec<u8>]) -> Vec<(usize, usize, usize)> {
    let item = |(at, line): (usize, &Vec<u8>)| {
        let from = line.iter().position(|byte| *byte != b' ')?;
        let digits = line[from..].iter().take_while(|byte| byte.is_ascii_digit()).count();
        let mark = line.get(from + digits).is_some_and(|byte| b".)".contains(byte));
        (digits > 0 && mark).then_some((at, from, from + digits + 1))
    };
    lines.iter().enumerate().filter_map(item).collect()
}

/// Changes the number of an item, or what stands around it.
fn change_item(random: &mut Random, lines: &mut [Vec<u8>]) {
    let items = items(lines);
    if items.is_empty() {
        return;
    }
    let &(at, from, to) = random.pick(&items);
    let line = &mut lines[at];
    let blanks = line[to..].iter().take_while(|byte| b" \t".contains(byte)).count();
    match random.below(8) {
        0..=1 => {
            let sign = *random.pick(b"-*+");
            line.splice(from..to, [sign]).for_each(drop);
        }
        2 => line.drain(to..to + blanks).for_each(drop),
        3..=4 => line.splice(to..to + blanks, [b'\t']).for_each(drop),
        5 => line.splice(from..from, *b"123456789").for_each(drop),
        6 => line.truncate(to),
        _ => {
            let before = random.from_to(1, 5);
            line.splice(0..from, vec![b' '; before]).for_each(drop);
        }
    }
}

/// Puts lines in front of an item.
fn put_between_rules(random: &mut Random, lines: &mut Vec<Vec<u8>>, put_in: &[&str]) {
    let items = items(lines);
    let at = if items.is_empty() { random.below(lines.len()) } else { random.pick(&items).0 };
    lines.splice(at..at, put_in.iter().map(|line| line.as_bytes().to_vec())).for_each(drop);
}

/// Gives a section that is read another heading, or underlines its name.
fn hide_section(random: &mut Random, lines: &mut Vec<Vec<u8>>) {
    let name = one_of(random, &["Kernel", "Host", "Third", "Rules", "Rules", "Rules"]);
    let is_its = |line: &Vec<u8>| {
        let words = words_of(line);
        line.starts_with(b"##")
            && words.first().is_some_and(|&(from, to)| line[from..to] == *name.as_bytes())
    };
    let Some(at) = lines.iter().position(is_its) else { return };
    let lower = name.to_ascii_lowercase();
    let headed: Vec<String> = match random.below(7) {
        0 => vec![format!("## The {lower}")],
        1 => vec![format!("## {name} of the page")],
        2 => vec![format!("### 1. RULE{}", random.below(9))],
        3 => vec![name.to_string(), "=====".to_string()],
        4 => vec![format!("  {lower} "), "-- ".to_string()],
        5 => vec![format!("{name}: a title: and more"), "\t--------".to_string()],
        _ => vec![format!("{name} more"), "-------".to_string(), format!("# The {lower}")],
    };
    lines.splice(at..=at, headed.into_iter().map(String::into_bytes)).for_each(drop);
}

/// Puts the table of a side there again, mostly further down.
fn double_table(random: &mut Random, lines: &mut Vec<Vec<u8>>) {
    let has =
        |line: &[u8], word: &[u8]| words_of(line).iter().any(|&(from, to)| line[from..to] == *word);
    let begins = |line: &[u8]| has(line, b"state") && has(line, b"transitions");
    let tables: Vec<usize> = (0..lines.len()).filter(|&at| begins(&lines[at])).collect();
    if tables.is_empty() {
        return;
    }
    let from = *random.pick(&tables);
    let count = lines[from..].iter().take_while(|line| line.contains(&b'|')).count();
    let mut copy = lines[from..from + count].to_vec();
    if random.once_in(3) {
        copy.truncate(random.from_to(1, count));
    }
    if !random.once_in(3) {
        copy.insert(0, Vec::new());
    }
    let to = if random.once_in(4) {
        random.below(from + 1)
    } else {
        random.from_to(from + count, lines.len())
    };
    lines.splice(to..to, copy).for_each(drop);
}

/// Puts a line that is indented further left, at times behind an empty line.
fn unindent(random: &mut Random, lines: &mut Vec<Vec<u8>>) {
    let indented: Vec<usize> =
        (0..lines.len()).filter(|&at| lines[at].starts_with(b"  ")).collect();
    if indented.is_empty() {
        return;
    }
    let at = *random.pick(&indented);
    let blanks = lines[at].iter().take_while(|byte| **byte == b' ').count();
    let fewer = if random.once_in(2) { random.below(blanks) } else { 0 };
    lines[at].drain(fewer..blanks).for_each(drop);
    if random.once_in(3) {
        lines.insert(at, Vec::new());
    }
}

/// A line, mostly one of a table or with a formula.
fn telling_line(random: &mut Random, lines: &[Vec<u8>]) -> usize {
    let telling = |line: &Vec<u8>| {
        let starts = line.iter().position(|byte| *byte != b' ').unwrap_or(0);
        starts >= 5 || line.get(starts) == Some(&b'|') || line.starts_with(b"#")
    };
    let telling: Vec<usize> = (0..lines.len()).filter(|&at| telling(&lines[at])).collect();
    if telling.is_empty() || random.once_in(4) {
        return random.below(lines.len());
    }
    *random.pick(&telling)
}

/// Puts bytes into a line.
fn insert(random: &mut Random, line: &mut Vec<u8>, bytes: &[u8]) {
    let at = random.below(line.len() + 1);
    line.splice(at..at, bytes.iter().copied());
}

/// Puts bytes in the place of one.
fn exchange(random: &mut Random, line: &mut Vec<u8>, bytes: &[u8]) {
    if !line.is_empty() {
        let at = random.below(line.len());
        line.splice(at..=at, bytes.iter().copied());
    }
}

/// Where the words of a line stand.
fn words_of(line: &[u8]) -> Vec<(usize, usize)> {
    let mut words: Vec<(usize, usize)> = Vec::new();
    for (at, byte) in line.iter().enumerate() {
        let goes_on = words.last().is_some_and(|&(_, end)| end == at);
        match (byte.is_ascii_alphanumeric() || *byte == b'_', goes_on) {
            (true, true) => words.last_mut().expect("it goes on").1 = at + 1,
            (true, false) => words.push((at, at + 1)),
            _ => {}
        }
    }
    words
}

/// Misspells a word of a line.
fn misspell(random: &mut Random, line: &mut Vec<u8>) {
    let words = words_of(line);
    if words.is_empty() {
        return;
    }
    let &(from, to) = random.pick(&words);
    let at = random.from_to(from, to - 1);
    match random.below(4) {
        0 => line[at] = *random.pick(b"abcXYU019"),
        1 => line.insert(at, *random.pick(b"abcXYU019")),
        2 if at + 1 < to => line.swap(at, at + 1),
        _ => {
            line.remove(at);
        }
    }
}

/// Puts a word of the page in the place of another one.
fn swap_words(random: &mut Random, lines: &mut [Vec<u8>]) {
    let [from, to] = [telling_line(random, lines), telling_line(random, lines)];
    let (words, others) = (words_of(&lines[from]), words_of(&lines[to]));
    if words.is_empty() || others.is_empty() {
        return;
    }
    let (&(start, end), &other) = (random.pick(&words), random.pick(&others));
    let word = lines[from][start..end].to_vec();
    lines[to].splice(other.0..other.1, word);
}

/// Empties a cell of a table, or leaves it out.
fn empty_cell(random: &mut Random, lines: &mut [Vec<u8>]) {
    let of_a_table = |line: &&mut Vec<u8>| line.iter().filter(|&&byte| byte == b'|').count() >= 2;
    let mut tables: Vec<&mut Vec<u8>> = lines.iter_mut().filter(of_a_table).collect();
    if tables.is_empty() {
        return;
    }
    let chosen = random.below(tables.len());
    let line = &mut tables[chosen];
    let bars: Vec<usize> = (0..line.len()).filter(|&at| line[at] == b'|').collect();
    let cell = random.below(bars.len() - 1);
    let from = if random.once_in(3) { bars[cell] } else { bars[cell] + 1 };
    line.drain(from..bars[cell + 1]);
}

/// Changes the heading of a section.
fn change_heading(random: &mut Random, lines: &mut [Vec<u8>]) {
    let mut headings: Vec<&mut Vec<u8>> =
        lines.iter_mut().filter(|line| line.starts_with(b"#")).collect();
    if headings.is_empty() {
        return;
    }
    let chosen = random.below(headings.len());
    let line = &mut headings[chosen];
    match random.below(6) {
        0 => line.insert(0, b'#'),
        1 => {
            line.remove(0);
        }
        2 => line.make_ascii_lowercase(),
        3 => line.make_ascii_uppercase(),
        4 => {
            let other = random.pick(&["Kernel", "Host", "Third", "Rules", "Rule", "Third side"]);
            **line = format!("## {other}").into_bytes();
        }
        _ => misspell(random, line),
    }
}

/// Leaves out one byte of a sort.
fn drop_one(random: &mut Random, lines: &mut [Vec<u8>], is_such: impl Fn(&u8) -> bool) {
    let mut places = Vec::new();
    for (line, bytes) in lines.iter().enumerate() {
        places.extend((0..bytes.len()).filter(|&at| is_such(&bytes[at])).map(|at| (line, at)));
    }
    if !places.is_empty() {
        let &(line, at) = random.pick(&places);
        lines[line].remove(at);
    }
}

/// Makes a temporal part speak of some path: by another word, or by a `!` in front.
fn change_operator(random: &mut Random, lines: &mut [Vec<u8>]) {
    let mut places = Vec::new();
    for (line, bytes) in lines.iter().enumerate() {
        let temporal =
            |&(from, to): &(usize, usize)| matches!(&bytes[from..to], b"AX" | b"AG" | b"AF" | b"A");
        places.extend(words_of(bytes).into_iter().filter(temporal).map(|(from, _)| (line, from)));
    }
    if places.is_empty() {
        return;
    }
    let &(line, at) = random.pick(&places);
    match random.below(3) {
        0 => lines[line].insert(at, b'!'),
        1 => lines[line].splice(at..at, *b"!(TRUE) -> ").for_each(drop),
        _ => lines[line][at] = b'E',
    }
}

/// Puts a line and some behind it there again and again, so that there are too many; a digit is
/// put behind the first word each time, so that names differ.
fn repeat_lines(random: &mut Random, lines: &mut Vec<Vec<u8>>, at: usize) {
    let end = (at + random.from_to(1, 5)).min(lines.len());
    let piece = lines[at..end].to_vec();
    for again in 0..random.from_to(1, 18) {
        let mut copy = piece.clone();
        if let Some(&(_, to)) = words_of(&copy[0]).first() {
            copy[0].splice(to..to, again.to_string().into_bytes());
        }
        lines.splice(end..end, copy);
    }
}
