//! "Rule N fails": the run is replayed, and its remarks are read as steps of a proof that the rule
//! fails at record 0.
//!
//! At any time there is one thing to be shown: that a formula fails at a line of the run. A remark
//! brings it down to what fails at the line reached; each claim in it is asked of the second
//! checker. What has several reasons (a disjunction, an until whose left and right are temporal)
//! waits until each was shown.

use std::collections::{BTreeMap, BTreeSet};

use checker::judge::failing_rules;

use super::formulas::{Said, Tree};
use super::runs::{self, Line};
use super::{demand, listed, number, Case, Checked, Seen};

/// A line of the run.
struct Node {
    tick: usize,
    record: usize,
    before: Option<usize>,
}

/// That a formula fails at a line, and whether it is asked always.
#[derive(Clone)]
struct Goal {
    at: usize,
    formula: Tree,
    always: bool,
}

/// Formulas that are still to be shown to fail at a line.
struct Waiting {
    at: usize,
    formulas: Vec<Tree>,
}

struct Proof<'a> {
    case: &'a Case,
    nodes: Vec<Node>,
    /// The line where the run is.
    now: usize,
    /// What is to be shown.
    goal: Option<Goal>,
    waiting: Vec<Waiting>,
    seen: Seen,
}

/// Checks what `judge` prints of a converter that breaks a rule.
pub fn check(case: &Case, text: &str) -> Checked<Seen> {
    let lines: Vec<&str> = text.lines().collect();
    let [verdict, "", head, formula, run @ ..] = &lines[..] else {
        return Err("there is no rule that fails".to_string());
    };
    demand(verdict.contains("(15)"), || format!("'{verdict}' isn't about 15"))?;
    let failing = failing_rules(&case.page.design, &case.converter);
    let first = *failing.first().ok_or("no rule fails")?;
    let told = format!("Rule {} fails: {}", first + 1, case.page.read.sentences[first]);
    demand(*head == told, || format!("'{head}' isn't '{told}'"))?;
    let rule = case.page.rules().swap_remove(first);
    let said = case.said(formula.trim())?;
    demand(said.tree == rule, || format!("'{formula}' isn't rule {}", first + 1))?;

    let run: Vec<&str> = run.iter().copied().take_while(|line| !line.is_empty()).collect();
    let lines = runs::read(&run, 2, case.page.sides())?;
    let mut proof = Proof {
        case,
        nodes: vec![],
        now: 0,
        goal: Some(Goal { at: 0, formula: rule, always: false }),
        waiting: vec![],
        seen: Seen::new(),
    };
    for line in &lines {
        match line {
            Line::Tick(tick) if proof.nodes.is_empty() => {
                case.begins(tick)?;
                proof.nodes.push(Node { tick: 0, record: 0, before: None });
            }
            Line::Tick(tick) => {
                let before = &proof.nodes[proof.now];
                demand(tick.tick == before.tick + 1, || {
                    format!("tick {} doesn't follow tick {}", tick.tick, before.tick)
                })?;
                demand(proof.goal.is_some(), || format!("tick {} shows nothing", tick.tick))?;
                case.follows(before.record, tick)?;
                let node = Node { tick: tick.tick, record: tick.record, before: Some(proof.now) };
                proof.now = proof.nodes.len();
                proof.nodes.push(node);
                proof.saw("ticks");
                if tick.later {
                    proof.saw("stars");
                }
            }
            Line::Remark(words) => {
                demand(!proof.nodes.is_empty(), || "a remark before the beginning".to_string())?;
                proof.remark(words).map_err(|wrong| format!("{wrong}, in '{words}'"))?;
            }
        }
    }
    demand(proof.goal.is_none() && proof.waiting.is_empty(), || {
        "the run ends, and something isn't shown".to_string()
    })?;
    Ok(proof.seen)
}

impl Proof<'_> {
    fn saw(&mut self, kind: &'static str) {
        *self.seen.entry(kind).or_default() += 1;
    }

    fn record(&self) -> usize {
        self.nodes[self.now].record
    }

    fn said(&self, text: &str) -> Checked<Said> {
        self.case.said(text)
    }

    /// A formula that holds where the run is.
    fn holds(&self, text: &str) -> Checked<Said> {
        let said = self.said(text)?;
        let (holds, record) = (said.holding.contains(&self.record()), self.record());
        demand(holds, || format!("{text} doesn't hold at record {record}"))?;
        Ok(said)
    }

    /// A formula that fails where the run is.
    fn fails(&self, text: &str) -> Checked<Said> {
        let said = self.said(text)?;
        let (holds, record) = (said.holding.contains(&self.record()), self.record());
        demand(!holds, || format!("{text} holds at record {record}"))?;
        Ok(said)
    }

    /// The lines from one to where the run is.
    fn path(&self, from: usize) -> Checked<Vec<usize>> {
        let mut path = vec![self.now];
        while path[path.len() - 1] != from {
            let before = self.nodes[path[path.len() - 1]].before;
            path.push(before.ok_or("the run isn't where it should be")?);
        }
        path.reverse();
        Ok(path)
    }

    /// What is to be shown, brought down: formulas and places on the path, such that it is enough
    /// that one of them fails there.
    fn enough(&self) -> Checked<(Vec<usize>, Vec<Goal>)> {
        let goal = self.goal.as_ref().ok_or("nothing is to be shown here")?;
        let path = self.path(goal.at)?;
        let (mut enough, mut tried) = (Vec::new(), BTreeSet::new());
        let mut open = vec![(&goal.formula, 0, goal.always)];
        while let Some((formula, at, always)) = open.pop() {
            if at >= path.len() || !tried.insert((formula as *const Tree, at)) {
                continue;
            }
            enough.push(Goal { at, formula: formula.clone(), always });
            match formula {
                Tree::And(f, g) => open.extend([(&**f, at, always), (g, at, always)]),
                Tree::Next(f) => open.push((f, at + 1, always)),
                Tree::Always(f) => open.extend((at..path.len()).map(|at| (&**f, at, true))),
                _ => {}
            }
        }
        Ok((path, enough))
    }

    /// Checks that it is enough if a formula of this form fails where the run is. From then on
    /// this one is to be shown in its place.
    fn down_to(&mut self, formula: Tree, is_such: impl Fn(&Tree) -> bool) -> Checked<()> {
        let (path, enough) = self.enough()?;
        let such = |goal: &&Goal| goal.at + 1 == path.len() && is_such(&goal.formula);
        let always = enough.iter().find(such).ok_or("that needn't be shown here")?.always;
        if path.len() == 2 && matches!(&self.goal, Some(Goal { formula: Tree::Next(_), .. })) {
            self.saw("next");
        }
        self.goal = Some(Goal { at: self.now, formula, always });
        Ok(())
    }

    /// From here on this is to be shown: it follows from what is to be shown, or has waited here.
    fn show(&mut self, formula: Tree) -> Checked<()> {
        if self.goal.is_some() {
            return self.down_to(formula.clone(), |enough| *enough == formula);
        }
        let at = self.waits_for(&formula)?;
        demand(at == self.now, || "it is to be shown elsewhere".to_string())?;
        self.goal = Some(Goal { at, formula, always: false });
        Ok(())
    }

    fn remark(&mut self, words: &str) -> Checked<()> {
        if let Some(rest) = words.strip_prefix("record ") {
            if let Some((record, rest)) = rest.split_once(" again, as at tick ") {
                return self.again(record, rest);
            }
        }
        if let Some(rest) = words.strip_prefix("back at tick ") {
            if let Some((tick, formula)) = rest.split_once(": ") {
                return self.back(tick, formula);
            }
        }
        if let Some((left, rest)) = words.split_once(" fails before ") {
            let (right, labels) = rest.split_once(" holds").ok_or("no 'holds'")?;
            let left = self.fails(left)?;
            return self.before(left.tree, right, labels.strip_prefix(": "));
        }
        if let Some((denied, rest)) = words.split_once(" holds before ") {
            let right = rest.strip_suffix(" does").ok_or("no 'does'")?;
            let left = self.holds(denied)?.tree.denied();
            return self.before(left, right, None);
        }
        if let Some((left, rest)) = words.split_once(" holds here, and ") {
            let right = rest.strip_suffix(" fails:").ok_or("no 'fails:'")?;
            return self.implies(left, right);
        }
        for verb in [" fails here", " fail here"] {
            if let Some((formulas, rest)) = words.split_once(verb) {
                demand((listed(formulas).len() > 1) == (verb == " fail here"), || {
                    "one fails, more fail".to_string()
                })?;
                return match rest
                    .strip_prefix(", and ")
                    .and_then(|rest| rest.strip_suffix(" fails:"))
                {
                    Some(last) => self.either(&listed(formulas), Some(last)),
                    None if verb == " fail here" => self.either(&listed(formulas), None),
                    None if rest == ":" => self.here(formulas),
                    None => self.plainly(formulas, rest.strip_prefix(": ").unwrap_or("")),
                };
            }
        }
        let label = words.strip_suffix(" doesn't hold here").ok_or("nothing that is known")?;
        let said = self.said(label)?;
        demand(matches!(said.tree, Tree::Name(_)), || format!("{label} is no label"))?;
        self.plainly(label, &format!("{label} doesn't hold"))
    }

    /// "F fails here:".
    fn here(&mut self, text: &str) -> Checked<()> {
        let formula = self.fails(text)?.tree;
        self.show(formula)
    }

    /// "back at tick N: F fails:".
    fn back(&mut self, tick: &str, text: &str) -> Checked<()> {
        demand(self.goal.is_none(), || "something isn't shown yet".to_string())?;
        let text = text.strip_suffix(" fails:").ok_or("no 'fails:'")?;
        let formula = self.said(text)?.tree;
        self.now = self.waits_for(&formula)?;
        demand(self.nodes[self.now].tick == number(tick)?, || "it is another tick".to_string())?;
        self.fails(text)?;
        self.goal = Some(Goal { at: self.now, formula, always: false });
        self.saw("back");
        Ok(())
    }

    /// The line at which a formula waits, which it then doesn't any more.
    fn waits_for(&mut self, formula: &Tree) -> Checked<usize> {
        let last = self.waiting.last_mut().ok_or("nothing waits to be shown")?;
        let place = last.formulas.iter().position(|waiting| waiting == formula);
        last.formulas.remove(place.ok_or("something else waits to be shown")?);
        let at = last.at;
        if last.formulas.is_empty() {
            self.waiting.pop();
        }
        Ok(at)
    }

    /// From here on the temporal ones of these wait, and nothing else is to be shown.
    fn wait_for(&mut self, formulas: Vec<Tree>) {
        let formulas: Vec<Tree> = formulas.into_iter().filter(Tree::temporal).collect();
        if !formulas.is_empty() {
            self.waiting.push(Waiting { at: self.now, formulas });
        }
        self.goal = None;
    }

    /// "record R again, as at tick T: ticks A to B repeat for ever, and G never holds".
    fn again(&mut self, record: &str, rest: &str) -> Checked<()> {
        let (tick, rest) = rest.split_once(": ").ok_or("no ':'")?;
        let (repeated, goal) = rest.split_once(" for ever, and ").ok_or("no 'for ever, and'")?;
        let goal = goal.strip_suffix(" never holds").ok_or("no 'never holds'")?;
        let (record, tick) = (number(record)?, number(tick)?);
        let told = match self.nodes[self.now].tick {
            last if last == tick + 1 => format!("tick {last} repeats"),
            last => format!("ticks {} to {last} repeat", tick + 1),
        };
        demand(repeated == told, || format!("it is {told}"))?;
        demand(record == self.record(), || "the run is at another record".to_string())?;
        let said = self.fails(goal)?;
        let (path, enough) = self.enough()?;
        let again = path[..path.len() - 1].iter().position(|&at| self.nodes[at].tick == tick);
        let again = again.ok_or_else(|| format!("tick {tick} isn't on the way"))?;
        demand(self.nodes[path[again]].record == record, || "that is no loop".to_string())?;
        let asked = enough.iter().find(|asked| {
            let such = matches!(&asked.formula, Tree::Until(_, goal) if **goal == said.tree);
            such && asked.at <= again && self.never(&path[asked.at..], &said)
        });
        let always = asked.ok_or("no until that is asked fails by this loop")?.always;
        self.until_seen("loops", always);
        self.wait_for(vec![said.tree]);
        Ok(())
    }

    /// Whether a formula holds nowhere on these lines.
    fn never(&self, path: &[usize], said: &Said) -> bool {
        path.iter().all(|&at| !said.holding.contains(&self.nodes[at].record))
    }

    fn until_seen(&mut self, kind: &'static str, always: bool) {
        self.saw(kind);
        if always {
            self.saw("untils in always");
        }
    }

    /// "F fails before G holds", where F fails.
    fn before(&mut self, left: Tree, right: &str, labels: Option<&str>) -> Checked<()> {
        let right = self.fails(right)?;
        if let Some(labels) = labels {
            self.told_by(&left, labels)?;
        }
        let (path, enough) = self.enough()?;
        let asked = enough.iter().find(|asked| {
            let such =
                matches!(&asked.formula, Tree::Until(f, g) if **f == left && **g == right.tree);
            such && self.never(&path[asked.at..], &right)
        });
        let always = asked.ok_or("no until that is asked fails here")?.always;
        self.until_seen("before", always);
        self.wait_for(vec![left, right.tree]);
        Ok(())
    }

    /// "F holds here, and G fails:".
    fn implies(&mut self, left: &str, right: &str) -> Checked<()> {
        let (left, right) = (self.holds(left)?.tree, self.fails(right)?.tree);
        let asked = |formula: &Tree| match formula {
            Tree::Implies(f, g) => **f == left && **g == right,
            // `!f | g` and `g | !f` are told as `f -> g` is.
            Tree::Or(f, g) => {
                let denied = left.denied();
                (**f == denied && **g == right) || (**g == denied && **f == right)
            }
            _ => false,
        };
        self.down_to(right.clone(), asked)?;
        self.saw("implications");
        Ok(())
    }

    /// "F and G fail here", and perhaps ", and H fails:".
    fn either(&mut self, texts: &[&str], last: Option<&str>) -> Checked<()> {
        let mut all: Vec<Tree> = Vec::new();
        for text in texts.iter().chain(&last) {
            all.push(self.fails(text)?.tree);
        }
        let same = |formula: &Tree| {
            let mut left = formula.disjuncts();
            let found = all.iter().all(|one| {
                let at = left.iter().position(|other| *other == one);
                at.map(|at| left.remove(at)).is_some()
            });
            found && left.is_empty()
        };
        self.down_to(all[all.len() - 1].clone(), same)?;
        self.saw("disjunctions");
        if last.is_none() {
            self.wait_for(all);
            return Ok(());
        }
        let others = &all[..all.len() - 1];
        demand(!others.iter().any(Tree::temporal), || "one of them has to be shown".to_string())
    }

    /// "F fails here: these labels hold, those don't", of a formula without temporal parts.
    fn plainly(&mut self, text: &str, labels: &str) -> Checked<()> {
        let formula = self.fails(text)?.tree;
        self.told_by(&formula, labels)?;
        self.show(formula)?;
        self.goal = None;
        self.saw("labels");
        Ok(())
    }

    /// Checks that these labels are told rightly, and that no more is needed for a formula to fail.
    fn told_by(&self, formula: &Tree, labels: &str) -> Checked<()> {
        let mut known = BTreeMap::new();
        for (label, holds) in told_labels(labels)? {
            let said = self.said(label)?;
            let Tree::Name(name) = said.tree else { return Err(format!("{label} is no label")) };
            demand(said.holding.contains(&self.record()) == holds, || {
                format!("{label} is told wrongly")
            })?;
            known.insert(name, holds);
        }
        demand(formula.told_by(&known) == Some(false), || "these labels don't tell it".to_string())
    }
}

/// The labels that "a holds, b and c don't" speaks of.
fn told_labels(text: &str) -> Checked<Vec<(&str, bool)>> {
    if text.is_empty() {
        return Ok(vec![]);
    }
    if let Some(labels) = agreeing(text, " doesn't hold", " don't hold") {
        return Ok(labels.into_iter().map(|label| (label, false)).collect());
    }
    let (held, denied) = match [" holds, ", " hold, "].iter().find_map(|verb| {
        let at = text.find(verb)?;
        Some((&text[..at + verb.len() - 2], &text[at + verb.len()..]))
    }) {
        Some((held, rest)) => {
            (held, agreeing(rest, " doesn't", " don't").ok_or("no 'doesn't' or 'don't'")?)
        }
        None => (text, vec![]),
    };
    let held = agreeing(held, " holds", " hold").ok_or("no 'holds' or 'hold'")?;
    let held = held.into_iter().map(|label| (label, true));
    Ok(held.chain(denied.into_iter().map(|label| (label, false))).collect())
}

/// The labels in front of a verb, which agrees with their number.
fn agreeing<'a>(text: &'a str, of_one: &str, of_more: &str) -> Option<Vec<&'a str>> {
    let one = text.strip_suffix(of_one).map(listed).filter(|labels| labels.len() == 1);
    one.or_else(|| text.strip_suffix(of_more).map(listed).filter(|labels| labels.len() > 1))
}
