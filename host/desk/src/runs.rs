//! Runs of a converter. Every tick of a run is done by the library's own tick, and a run is written as a table: a line for each tick, with what the sides did and where they stand then.

use gorzhani::{Runner, RECORD};

use crate::columns::{columns, Align};
use crate::design::{Design, SIDES, SIDE_WORDS};
use crate::records::{to_bytes, Record};

/// A line of a run.
#[derive(Clone, Debug, PartialEq, Eq)]
enum Line {
    /// A record, after so many ticks: what the sides did at the last one, if there was one.
    At { tick: usize, record: usize, done: Option<[i8; SIDES]>, later: bool },
    /// Words about the line above or below.
    Remark(String),
}

/// A run of a converter that the library has found matched to the design.
pub struct Run<'a> {
    design: &'a Design,
    records: &'a [Record],
    bytes: Vec<u8>,
    tick: usize,
    record: usize,
    lines: Vec<Line>,
}

impl<'a> Run<'a> {
    /// A run that is at record 0 and has done nothing.
    pub fn new(design: &'a Design, records: &'a [Record]) -> Run<'a> {
        let begin = Line::At { tick: 0, record: 0, done: None, later: false };
        Run { design, records, bytes: to_bytes(records), tick: 0, record: 0, lines: vec![begin] }
    }

    /// How many ticks lie between the beginning and where the run is.
    pub fn tick(&self) -> usize {
        self.tick
    }

    /// The record at which the run is.
    pub fn record(&self) -> usize {
        self.record
    }

    /// Does a tick by this transition of the record. The library's tick takes the first transition
    /// that fits what the sides show; a path may take any, so the library is handed the record with
    /// this one in front of the others.
    pub fn take(&mut self, place: usize) {
        let links = &self.records[self.record].links;
        let link = links[place];
        let first = links.iter().position(|other| other.shows() == link.shows());
        let first = first.expect("the transition itself fits");
        self.exchange(first, place);
        let mut runner = Runner { record: self.record as u16, ..Runner::default() };
        let done = gorzhani::tick(&self.bytes, &mut runner, link.shows());
        self.exchange(first, place);
        let delivered = [runner.first, runner.second, runner.third];
        assert_eq!(
            (done, runner.record, delivered),
            (Ok(()), link.next, link.events),
            "the library's tick does what the record says"
        );
        (self.tick, self.record) = (self.tick + 1, usize::from(link.next));
        self.lines.push(Line::At {
            tick: self.tick,
            record: self.record,
            done: Some(link.events),
            later: first != place,
        });
    }

    /// Exchanges two transitions of the record in the bytes that the library is handed.
    fn exchange(&mut self, one: usize, other: usize) {
        let at = |place: usize| RECORD * self.record + 4 + 6 * place;
        let (one, other) = (at(one), at(other));
        for byte in 0..6 {
            self.bytes.swap(one + byte, other + byte);
        }
    }

    /// Words about where the run is.
    pub fn remark(&mut self, words: impl Into<String>) {
        self.lines.push(Line::Remark(words.into()));
    }

    /// Goes on from where the run was before: from this record, after so many ticks.
    pub fn go_back(&mut self, tick: usize, record: usize) {
        (self.tick, self.record) = (tick, record);
    }

    /// The run as a table, each of its lines indented by so many spaces.
    pub fn text(&self, indent: usize) -> String {
        let sides = self.design.sides.len();
        let mut header = vec!["tick".to_string()];
        for word in &SIDE_WORDS[..sides] {
            header.extend([word.to_string(), String::new()]);
        }
        header.extend(["record".to_string(), "holds".to_string()]);
        let mut rows = vec![header];
        for line in &self.lines {
            let Line::At { tick, record, done, later } = line else { continue };
            let states = self.records[*record].states;
            let mut row = vec![tick.to_string()];
            for side in 0..sides {
                let did = done.map_or(String::new(), |events| self.design.event(events[side]));
                row.extend([self.design.state(side, states[side]), did]);
            }
            let mark = if *later { "*" } else { "" };
            row.extend([format!("{record}{mark}"), self.design.holding(states).join(", ")]);
            rows.push(row);
        }
        let mut written = columns(&rows, &[Align::Right]).into_iter();
        let mut out = vec![written.next().expect("there is a header")];
        let margin = " ".repeat("tick".len() + 2);
        for line in &self.lines {
            out.push(match line {
                Line::At { .. } => written.next().expect("each tick has its row"),
                Line::Remark(words) => format!("{margin}{words}"),
            });
        }
        if self.lines.iter().any(|line| matches!(line, Line::At { later: true, .. })) {
            out.push(format!(
                "{margin}* by a later transition for the same shows: a path may take any, `run` takes the first"
            ));
        }
        let indent = " ".repeat(indent);
        out.iter().map(|line| format!("{indent}{line}\n")).collect()
    }
}
