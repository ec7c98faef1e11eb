//! A formula that fails at record 0, explained inwards: the run goes to where a part fails, a remark names the part, and so on, down to labels.

use super::asked::Asked;
use super::labels::Labels;
use super::{paths, words, UNCONFIRMED};
use crate::columns::grouped;
use crate::design::Design;
use crate::formulas::Formula;
use crate::records::Record;
use crate::runs::Run;

/// How often an explanation goes back to explain another part from the same place.
const MOST_BRANCHES: usize = 16;

/// At so many records at most the library is asked about a formula with a temporal part, each time about the whole converter.
const MOST_ASKED: usize = 100;

/// That a formula holds, or that it fails, at a record.
type Claim = (usize, usize, bool);

/// The run that breaks a formula that fails at record 0, with remarks.
pub fn run<'a>(design: &'a Design, records: &'a [Record], formula: usize) -> Run<'a> {
    let mut teller = Teller {
        design,
        records,
        labels: Labels::new(design, records, formula),
        asked: Asked::new(design, records),
        run: Run::new(design, records),
        branches: 0,
    };
    teller.inwards(formula);
    teller.run
}

/// The run so far, and what is known.
struct Teller<'a> {
    design: &'a Design,
    records: &'a [Record],
    labels: Labels,
    asked: Asked<'a>,
    run: Run<'a>,
    branches: usize,
}

impl Teller<'_> {
    /// Explains a formula that fails where the run is. That it fails is told already where it has
    /// a temporal part.
    fn inwards(&mut self, formula: usize) {
        match self.design.formulas.at(formula) {
            _ if !self.temporal(formula) => self.proposition(formula),
            Formula::And(..) => self.named(self.first_part(formula)),
            Formula::Or(..) => self.alternatives(formula),
            Formula::Implies(f, g) => self.implies(f, g),
            Formula::Next(f) | Formula::Always(f) => self.comes_to(formula, f),
            Formula::Finally(g) => self.never(formula, g),
            Formula::Until(f, g) => self.until(formula, f, g),
            // Nothing below `!` is temporal.
            Formula::True | Formula::False | Formula::Label(_) | Formula::Not(_) => {}
        }
    }

    /// The same for a formula of which nothing is told yet.
    fn named(&mut self, formula: usize) {
        match self.design.formulas.at(formula) {
            Formula::Next(_) | Formula::Always(_) | Formula::Finally(_) | Formula::Until(..) => {
                self.in_turn(&[formula])
            }
            _ => self.inwards(formula),
        }
    }

    /// Names parts that fail where the run is and explains them, each from here.
    fn in_turn(&mut self, parts: &[usize]) {
        let (tick, here) = (self.run.tick(), self.run.record());
        for (number, &part) in parts.iter().enumerate() {
            let text = self.text(part);
            let mut words = format!("{text} fails here:");
            if number > 0 {
                if !self.branch() {
                    return;
                }
                self.run.go_back(tick, here);
                words = format!("back at tick {tick}: {text} fails:");
            }
            if self.told(&[(part, here, false)], words) {
                self.inwards(part);
            }
        }
    }

    /// Whether one more part may be explained; where it is the first one too many, that is told.
    fn branch(&mut self) -> bool {
        self.branches += 1;
        if self.branches == MOST_BRANCHES + 1 {
            self.run.remark("and so on");
        }
        self.branches <= MOST_BRANCHES
    }

    /// Of a chain of `&`, the first part that fails where the run is.
    fn first_part(&self, formula: usize) -> usize {
        let mut part = formula;
        while let Formula::And(f, g) = self.design.formulas.at(part) {
            part = if self.holds(f) { g } else { f };
        }
        part
    }

    /// A formula without a temporal part: which labels make it fail.
    fn proposition(&mut self, formula: usize) {
        let part = self.first_part(formula);
        let text = self.text(part);
        let mut claims = vec![(part, self.run.record(), false)];
        let words = match self.design.formulas.at(part) {
            Formula::Label(_) => format!("{text} doesn't hold here"),
            _ => format!("{text} fails here{}", self.truths(part, &mut claims)),
        };
        self.told(&claims, words);
    }

    /// Which labels of a formula hold where the run is and which don't, behind a colon; nothing
    /// where it has none.
    fn truths(&self, formula: usize, claims: &mut Vec<Claim>) -> String {
        let labels = words::labels(&self.design.formulas, formula);
        if labels.is_empty() {
            return String::new();
        }
        let here = self.run.record();
        claims.extend(labels.iter().map(|&label| (label, here, self.holds(label))));
        let (hold, others): (Vec<usize>, Vec<usize>) =
            labels.into_iter().partition(|&label| self.holds(label));
        format!(": {}", words::truths(&self.texts(&hold), &self.texts(&others)))
    }

    /// f -> g.
    fn implies(&mut self, f: usize, g: usize) {
        let here = self.run.record();
        let words = format!("{} holds here, and {} fails:", self.text(f), self.text(g));
        if self.told(&[(f, here, true), (g, here, false)], words) {
            self.inwards(g);
        }
    }

    /// A chain of `|`: every part fails, and the temporal ones are explained.
    fn alternatives(&mut self, formula: usize) {
        let here = self.run.record();
        let parts = words::alternatives(&self.design.formulas, formula);
        let claims: Vec<Claim> = parts.iter().map(|&part| (part, here, false)).collect();
        let (temporal, others): (Vec<usize>, Vec<usize>) =
            parts.iter().partition(|&&part| self.temporal(part));
        let denied = others.first().filter(|_| others.len() == 1).and_then(|&f| self.denied(f));
        match (&temporal[..], denied) {
            (&[part], Some(f)) => self.implies(f, part),
            (&[part], None) if others.is_empty() => self.named(part),
            (&[part], None) => {
                let others = words::fail_here(&self.texts(&others));
                if self.told(&claims, format!("{others}, and {} fails:", self.text(part))) {
                    self.inwards(part);
                }
            }
            _ => {
                if self.told(&claims, words::fail_here(&self.texts(&parts))) {
                    self.in_turn(&temporal);
                }
            }
        }
    }

    /// AX f and AG f: a path to a record at which f fails.
    fn comes_to(&mut self, formula: usize, f: usize) {
        let here = self.run.record();
        let path = match self.design.formulas.at(formula) {
            Formula::Next(_) => {
                let fails = |next: u16| !self.labels.holds(f, usize::from(next));
                self.records[here].links.iter().position(|link| fails(link.next)).map(|at| vec![at])
            }
            _ => paths::shortest(self.records, here, |_| true, |at| !self.labels.holds(f, at)),
        };
        let Some(path) = path else { return self.run.remark(UNCONFIRMED) };
        self.walk(&path);
        self.named(f);
    }

    /// A [ f U g ]: a path to a record at which neither holds, else one on which g never holds.
    fn until(&mut self, formula: usize, f: usize, g: usize) {
        let (labels, here) = (&self.labels, self.run.record());
        let open = |at: usize| !labels.holds(formula, at);
        let lost = |at: usize| !labels.holds(f, at) && !labels.holds(g, at);
        match paths::shortest(self.records, here, open, lost) {
            Some(path) => self.lost(f, g, &path),
            None => self.never(formula, g),
        }
    }

    /// A path over records at which g fails, to one at which f fails too.
    fn lost(&mut self, f: usize, g: usize, path: &[usize]) {
        let passed = self.walk(path);
        let end = self.run.record();
        let mut claims: Vec<Claim> = passed.iter().map(|&record| (g, record, false)).collect();
        claims.extend([(f, end, false), (g, end, false)]);
        let words = match self.denied(f) {
            Some(denied) => {
                claims.push((denied, end, true));
                format!("{} holds before {} does", self.text(denied), self.text(g))
            }
            None => {
                let plain = matches!(self.design.formulas.at(f), Formula::Label(_));
                let shown = plain || self.temporal(f);
                let why = if shown { String::new() } else { self.truths(f, &mut claims) };
                format!("{} fails before {} holds{why}", self.text(f), self.text(g))
            }
        };
        if self.told(&claims, words) {
            let mut parts = vec![f, g];
            parts.dedup();
            parts.retain(|&part| self.temporal(part));
            self.in_turn(&parts);
        }
    }

    /// A path into a loop, on which g never holds.
    fn never(&mut self, formula: usize, g: usize) {
        let open = |at: usize| !self.labels.holds(formula, at);
        let found = paths::into_loop(self.records, self.run.record(), open);
        let Some((path, around)) = found else { return self.run.remark(UNCONFIRMED) };
        let mut passed = self.walk(&path);
        let (tick, record) = (self.run.tick(), self.run.record());
        passed.extend(self.walk(&around));
        let claims: Vec<Claim> = passed.iter().map(|&record| (g, record, false)).collect();
        let words = format!(
            "record {record} again, as at tick {tick}: {}, and {} never holds",
            words::repeat(tick + 1, self.run.tick()),
            self.text(g)
        );
        if self.told(&claims, words) && self.temporal(g) {
            self.in_turn(&[g]);
        }
    }

    /// Takes the ticks of a path, and answers the records before each.
    fn walk(&mut self, path: &[usize]) -> Vec<usize> {
        let step = |&place: &usize| {
            let record = self.run.record();
            self.run.take(place);
            record
        };
        path.iter().map(step).collect()
    }

    /// Remarks something if the library confirms all that it claims, and whether it does. Of a
    /// formula with a temporal part the library is asked at so many records at most, which is told.
    fn told(&mut self, claims: &[Claim], mut words: String) -> bool {
        let (temporal, others): (Vec<Claim>, Vec<Claim>) =
            claims.iter().partition(|(formula, ..)| self.temporal(*formula));
        let asked = temporal.iter().rev().take(MOST_ASKED).chain(&others);
        let mut confirmed = true;
        for &(formula, record, holds) in asked {
            confirmed = confirmed && self.asked.confirms(formula, record, holds);
        }
        if temporal.len() > MOST_ASKED {
            words += &format!(
                " (asked of the library at the last {MOST_ASKED} of {} records)",
                grouped(temporal.len() as u128)
            );
        }
        self.run.remark(if confirmed { words } else { UNCONFIRMED.to_string() });
        confirmed
    }

    fn holds(&self, formula: usize) -> bool {
        self.labels.holds(formula, self.run.record())
    }

    /// What a formula denies, if it is `! f`.
    fn denied(&self, formula: usize) -> Option<usize> {
        match self.design.formulas.at(formula) {
            Formula::Not(f) => Some(f),
            _ => None,
        }
    }

    fn temporal(&self, formula: usize) -> bool {
        self.design.formulas.temporal(formula)
    }

    fn text(&self, formula: usize) -> String {
        self.design.text(formula)
    }

    fn texts(&self, formulas: &[usize]) -> Vec<String> {
        formulas.iter().map(|&formula| self.text(formula)).collect()
    }
}
