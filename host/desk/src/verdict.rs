//! The bodies of a page's sections Verdict and Converter.

use gorzhani::{Refused, NO_WAIT};

use crate::columns::grouped;
use crate::design::{Design, SIDE_LABELS, SIDE_NAMES};
use crate::formulas::Formula;
use crate::notes::Notes;
use crate::print::{converter_table, item};
use crate::records::Record;
use crate::sizes;

/// What the library has answered.
pub enum Outcome<'a> {
    /// The search found this converter, and the judge says yes to it: so long its rules wait.
    Found(&'a [Record], Vec<u32>),
    /// The search says that none exists.
    None,
    /// The judge was asked about this converter, and told after a yes how long its rules wait.
    Judged(&'a [Record], Result<Vec<u32>, Refused>),
    /// Nothing was asked.
    Unasked,
}

impl Outcome<'_> {
    /// The converter that is spoken of.
    pub fn records(&self) -> Option<&[Record]> {
        match self {
            Outcome::Found(records, _) | Outcome::Judged(records, _) => Some(records),
            Outcome::None | Outcome::Unasked => None,
        }
    }

    /// How long each rule waits, where the judge has said yes.
    pub fn waits(&self) -> Option<&[u32]> {
        match self {
            Outcome::Found(_, waits) | Outcome::Judged(_, Ok(waits)) => Some(waits),
            Outcome::Judged(_, Err(_)) | Outcome::None | Outcome::Unasked => None,
        }
    }

    /// The verdict in a sentence.
    pub fn sentence(&self, design: &Design) -> String {
        let of = match self.records().map_or(0, <[Record]>::len) {
            1 => "one record".to_string(),
            count => format!("{} records", grouped(count as u128)),
        };
        let keeps = match design.rules.len() {
            0 => "matched to the tables, and there are no rules".to_string(),
            1 => "matched to the tables and keeps the one rule on every path".to_string(),
            count => format!("matched to the tables and keeps all {count} rules on every path"),
        };
        let by = "by the library's judge the converter";
        match self {
            Outcome::Found(..) => format!(
                "A converter exists. The library's search found one, of {of}, and its judge says yes: it is {keeps}."
            ),
            Outcome::None => "No converter of any size keeps these rules: the library's search answers 16.".to_string(),
            Outcome::Judged(_, Ok(_)) => format!("Yes: {by} of {of} is {keeps}."),
            Outcome::Judged(_, Err(Refused::UNMATCHED)) => {
                format!("No: {by} of {of} isn't matched to the tables (14).")
            }
            Outcome::Judged(_, Err(Refused::RULE)) => {
                format!("No: {by} of {of} is matched to the tables, and some rule fails (15).")
            }
            Outcome::Judged(_, Err(refused)) => format!("No: {refused}."),
            Outcome::Unasked => "No converter stands on this page.".to_string(),
        }
    }
}

/// The body of the section Verdict.
pub fn verdict(design: &Design, outcome: &Outcome, notes: &str) -> String {
    let mut out = format!("{}\n\n{}\n", outcome.sentence(design), sizes::of(design).line());
    for part in [&waited(design, outcome)[..], notes] {
        if !part.is_empty() {
            out += &format!("\n{part}");
        }
    }
    out += &format!("\nNumbers:\n\n{}", numbers(design));
    if !design.rules.is_empty() {
        let rules = design.typed().lines().map(|rule| format!("    {rule}\n")).collect::<String>();
        out += &format!("\nThe rules by these numbers, as the library reads them:\n\n{rules}");
    }
    out.trim_end().to_string()
}

/// How long rules wait, a line of a list for each rule that is an until; nothing where none is.
pub fn waited(design: &Design, outcome: &Outcome) -> String {
    let rules = (1..).zip(&design.rules).zip(outcome.waits().unwrap_or_default());
    let lines = rules.filter(|(_, wait)| **wait != NO_WAIT).map(|((number, rule), &wait)| {
        let ticks = match (wait, design.formulas.at(rule.formula)) {
            (0, Formula::Finally(g) | Formula::Until(_, g)) => {
                format!("0 ticks, since `{}` holds at the start", design.text(g))
            }
            (1, _) => "1 tick".to_string(),
            _ => format!("{} ticks", grouped(wait.into())),
        };
        format!("- rule {number}, `{}`: {ticks}\n", design.text(rule.formula))
    });
    let lines = lines.collect::<String>();
    if lines.is_empty() {
        return lines;
    }
    format!("How long rules wait at the most, by the library's judge:\n\n{lines}")
}

/// The notes on a converter as part of a page: each a sentence and its run as code.
pub fn noted(design: &Design, records: &[Record], notes: &Notes) -> String {
    let mut out = String::new();
    for note in &notes.notes {
        let text = note.text(design, records);
        let (sentence, run) = text.split_once('\n').unwrap_or((&text, ""));
        let run = run.lines().map(|line| format!("    {line}\n")).collect::<String>();
        out += &format!("{sentence}\n\n{run}\n");
    }
    if !notes.complete {
        let ticks = grouped(notes.ticks as u128);
        out += &format!("Note: of runs with more than {ticks} ticks not all were looked at for an input that is delivered more often than it was sent.\n\n");
    }
    out.strip_suffix('\n').unwrap_or(&out).to_string()
}

/// The numbers of states, signals and labels, a line of a list each.
fn numbers(design: &Design) -> String {
    let mut out = String::new();
    let mut line = |what: String, named: Vec<String>| {
        if !named.is_empty() {
            out += &format!("- {what}: {}\n", named.join(", "));
        }
    };
    for (side, name) in design.sides.iter().zip(SIDE_NAMES) {
        let states = side.states.iter().enumerate();
        let named = states.map(|(number, state)| format!("{number} {}", state.name));
        line(format!("states of {name}"), named.collect());
    }
    let used = |signal: usize| {
        let states = design.sides.iter().flat_map(|side| &side.states);
        let mut transitions = states.flat_map(|state| &state.transitions);
        transitions.any(|transition| usize::from(transition.event.unsigned_abs()) == signal)
    };
    let signals = (1..).zip(&design.signals).filter(|(number, _)| used(*number));
    line("signals".to_string(), signals.map(|(number, name)| format!("{number} {name}")).collect());
    let mut labels = Vec::new();
    for (side, own) in design.sides.iter().enumerate() {
        let held = own.states.iter().fold(0, |held, state| held | state.label_word);
        let bits = (0..own.labels.len()).filter(|bit| held >> bit & 1 == 1);
        labels.extend(bits.map(|bit| {
            let proposition = SIDE_LABELS * side + bit;
            format!("p{proposition} {}", design.label(proposition as u8))
        }));
    }
    line("labels".to_string(), labels);
    out
}

/// The body of the section Converter, with a picture if there is a file of one.
pub fn converter(design: &Design, outcome: &Outcome, picture: Option<&str>) -> String {
    let picture = picture
        .map_or(String::new(), |file| format!("\n![the sides and the converter](<{file}>)\n"));
    let Some(records) = outcome.records() else {
        let none = if let Outcome::None = outcome { "None exists." } else { "None stands here." };
        return format!("{none}\n{picture}").trim_end().to_string();
    };
    let words = SIDE_NAMES[..design.sides.len()].iter().map(|name| format!("what {name} does"));
    let out = format!(
        "A line is a transition: {}, and the next record.\n\n{}{picture}",
        words.collect::<Vec<String>>().join(", "),
        converter_table(design, records)
    );
    out.trim_end().to_string()
}

/// The rules as an answer prints them: sentence and formula.
pub fn rules(design: &Design) -> String {
    let mut out = String::new();
    for (number, rule) in (1..).zip(&design.rules) {
        out += &format!("{}\n", item(number, rule, &design.text(rule.formula)));
    }
    if out.is_empty() {
        out += "None: every converter that is matched to the tables will do.\n\n";
    }
    out
}
