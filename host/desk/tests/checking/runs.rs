//! Runs as they are printed: a table with remarks between its lines. Each line is replayed by the
//! library's tick.

use checker::bytes::{converter_bytes, Record, SIDES, SIDE_LABELS};
use checker::joined::{holds, labels};
use gorzhani::Runner;

use super::pages::WORDS;
use super::{demand, number, Case, Checked};

/// What stands below a run that has a marked line.
const STAR: &str = "* by a later transition for the same shows";

/// A line of a run.
#[derive(Clone, Debug)]
pub enum Line {
    Tick(Tick),
    Remark(String),
}

/// A tick as it is printed.
#[derive(Clone, Debug)]
pub struct Tick {
    pub tick: usize,
    pub states: Vec<String>,
    /// What the sides did; nothing at the beginning.
    pub done: Vec<Option<String>>,
    pub record: usize,
    /// Whether it is marked as a later transition for the same shows.
    pub later: bool,
    pub holds: Vec<String>,
}

/// The lines of a run, indented by so many spaces.
pub fn read(lines: &[&str], indent: usize, sides: usize) -> Checked<Vec<Line>> {
    let (header, lines) = lines.split_first().ok_or("a run without a header")?;
    let words = [&["tick"], &WORDS[..sides], &["record", "holds"]].concat();
    demand(header.split_whitespace().eq(words.iter().copied()), || {
        format!("'{header}' isn't the header of a run")
    })?;
    let mut starts = Vec::new();
    let mut from = indent;
    for word in words {
        let at = header[from..].find(word).expect("it is there") + from;
        starts.push(at);
        from = at + word.len();
    }
    let lines: Checked<Vec<Line>> =
        lines.iter().map(|line| read_line(line, indent, &starts)).collect();
    without_star(lines?)
}

/// The lines without the words on stars, which stand below where a line has one.
fn without_star(mut lines: Vec<Line>) -> Checked<Vec<Line>> {
    let stars = lines.iter().any(|line| matches!(line, Line::Tick(tick) if tick.later));
    let told = matches!(lines.last(), Some(Line::Remark(words)) if words.starts_with(STAR));
    demand(stars == told, || "the words on stars are missing or too much".to_string())?;
    lines.truncate(lines.len() - usize::from(told));
    Ok(lines)
}

fn read_line(line: &str, indent: usize, starts: &[usize]) -> Checked<Line> {
    let margin = indent + "tick".len();
    let front = line.get(..margin).ok_or_else(|| format!("'{line}' is too short"))?.trim();
    if front.is_empty() {
        let remark = line[margin..].strip_prefix("  ").filter(|words| !words.starts_with(' '));
        let remark = remark.ok_or_else(|| format!("'{line}' is indented in another way"))?;
        return Ok(Line::Remark(remark.to_string()));
    }
    let cell = |column: usize| {
        let end = starts.get(column + 1).map_or(line.len(), |&end| end.min(line.len()));
        line.get(starts[column]..end).unwrap_or("").trim()
    };
    let (record, held) = (starts.len() - 2, starts.len() - 1);
    let (mut states, mut done) = (Vec::new(), Vec::new());
    for side in 1..record {
        let (state, event) = cell(side).split_once(' ').unwrap_or((cell(side), ""));
        states.push(state.to_string());
        let event = event.trim();
        done.push(Some(event.to_string()).filter(|event| !event.is_empty()));
    }
    let later = cell(record).ends_with('*');
    Ok(Line::Tick(Tick {
        tick: number(front)?,
        states,
        done,
        record: number(cell(record).trim_end_matches('*'))?,
        later,
        holds: cell(held).split(", ").filter(|held| !held.is_empty()).map(str::to_string).collect(),
    }))
}

/// What the sides show in a transition.
fn shows(events: [i8; SIDES]) -> [i8; SIDES] {
    events.map(|event| event.min(0))
}

impl Case {
    /// Checks where a line says that the sides are.
    pub fn stands(&self, line: &Tick) -> Checked<()> {
        let Tick { tick, record, .. } = line;
        let of = self.converter.get(*record);
        let Record { states, .. } = of.ok_or_else(|| format!("tick {tick}: no record {record}"))?;
        let named: Vec<String> =
            (0..self.page.sides()).map(|side| self.page.state(side, states[side])).collect();
        demand(line.states == named, || {
            format!("tick {tick}: record {record} names {named:?}, and not {:?}", line.states)
        })?;
        let held = self.held(*states);
        demand(line.holds == held, || {
            format!("tick {tick}: {held:?} hold, and not {:?}", line.holds)
        })
    }

    /// The labels that hold where the sides are in these states, by the names that a formula may
    /// have for them.
    fn held(&self, states: [u8; SIDES]) -> Vec<String> {
        let (design, all) = (&self.page.design, &self.page.names().labels);
        let words = labels(design, states.map(usize::from));
        let mut held = Vec::new();
        for (side, own) in all.iter().enumerate() {
            for (at, label) in own.iter().enumerate() {
                let of_others = all.iter().filter(|labels| labels.contains(label)).count() > 1;
                if holds(words, (SIDE_LABELS * side + at) as u8) {
                    let front = if of_others { format!("{}.", WORDS[side]) } else { String::new() };
                    held.push(front + label);
                }
            }
        }
        held
    }

    /// Checks the first line of a run.
    pub fn begins(&self, line: &Tick) -> Checked<()> {
        let begins = line.tick == 0 && line.record == 0 && !line.later;
        demand(begins && line.done.iter().all(Option::is_none), || {
            format!("a run doesn't begin with {line:?}")
        })?;
        self.stands(line)
    }

    /// Checks a line that follows a record by one tick: the library's tick does it. Answers the
    /// events.
    pub fn follows(&self, before: usize, line: &Tick) -> Checked<[i8; SIDES]> {
        self.stands(line)?;
        let tick = line.tick;
        let mut events = [0; SIDES];
        for (event, done) in events.iter_mut().zip(&line.done) {
            let words: Vec<&str> = done.iter().flat_map(|done| done.split(' ')).collect();
            *event = match words[..] {
                ["tick"] => 0,
                ["read", signal] => self.page.signal(signal)?,
                ["send", signal] => -self.page.signal(signal)?,
                _ => return Err(format!("tick {tick}: '{done:?}' is nothing that a side does")),
            };
        }
        let mut converter = self.converter.clone();
        let links = &mut converter[before].links;
        let place = links.iter().position(|link| link.side_events() == events);
        let place = place.ok_or_else(|| {
            format!("tick {tick}: record {before} has no transition with {:?}", line.done)
        })?;
        let first = links.iter().position(|link| shows(link.side_events()) == shows(events));
        demand(line.later == (first != Some(place)), || {
            format!("tick {tick}: there is a star too much or too few")
        })?;
        if line.later {
            links[..=place].rotate_right(1);
        }
        let mut runner = Runner { record: before as u16, ..Runner::default() };
        let done = gorzhani::tick(&converter_bytes(&converter), &mut runner, shows(events));
        let delivered = [runner.first, runner.second, runner.third];
        let ticked = done.is_ok() && usize::from(runner.record) == line.record;
        demand(ticked && delivered == events, || {
            format!("tick {tick}: the library's tick comes to {runner:?}")
        })?;
        Ok(events)
    }
}
