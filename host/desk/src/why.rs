//! Why no converter exists: the smallest sets of rules that can't be kept together, and the changes of a single state with which a converter exists. Each "can" and each "can't" is an answer of the library's search.

use std::cmp::Reverse;
use std::collections::BTreeSet;

use gorzhani::{Refused, MOST_RULES};

use crate::columns::{grouped, listed};
use crate::design::{Design, Kind, State, Transition, MOST_TRANSITIONS, SIDE_HEADINGS};
use crate::library;

/// How many searches there are between two lines about them.
const SEARCHES_A_LINE: usize = 100;

/// Why no converter exists.
#[derive(Clone, Debug, PartialEq, Eq)]
pub struct Why {
    /// All sets of rules that can't be kept together, while without any one of them the others can:
    /// numbers from 0, the smaller sets first.
    pub sets: Vec<Vec<usize>>,
    /// The changes with each of which alone a converter exists for all rules.
    pub changes: Vec<Change>,
}

/// A change of one state.
#[derive(Clone, Copy, Debug, PartialEq, Eq)]
pub struct Change {
    /// Its side.
    pub side: usize,
    /// Its number.
    pub state: usize,
    /// What is changed.
    pub kind: ChangeKind,
}

/// What is changed of a state.
#[derive(Clone, Copy, Debug, PartialEq, Eq)]
pub enum ChangeKind {
    /// A delayed state is without its tick.
    SendsAtOnce,
    /// An input state that has no tick has one, to itself, behind its other transitions.
    Waits,
}

/// Why a design has no converter, or nothing where it has one. `say` gets a line now and then where it takes long.
pub fn why(design: &Design, say: &mut dyn FnMut(&str)) -> Result<Option<Why>, Refused> {
    if exists(&design.bytes())? {
        return Ok(None);
    }
    say("looking for the rules that can't be kept together ...");
    let sets = smallest(design, say)?;
    say("trying changes of the tables ...");
    Ok(Some(Why { sets, changes: changes(design)? }))
}

/// Whether a converter exists.
fn exists(design: &[u8]) -> Result<bool, Refused> {
    match library::search(design) {
        Ok(_) => Ok(true),
        Err(Refused::NO_CONVERTER) => Ok(false),
        Err(refused) => Err(refused),
    }
}

/// The smallest sets of rules that can't be kept together, where all rules can't.
fn smallest(design: &Design, say: &mut dyn FnMut(&str)) -> Result<Vec<Vec<usize>>, Refused> {
    let mut sets = Sets::new(design, say);
    let mut by_size: Vec<usize> = (0..sets.kept.len()).collect();
    by_size.sort_by_key(|set| Reverse(set.count_ones()));
    let mut least = vec![sets.lessened(by_size[0])?];
    for set in by_size {
        if sets.kept[set].is_none() && !sets.can_be_kept(set)? {
            least.push(sets.lessened(set)?);
        }
    }
    let mut least: Vec<Vec<usize>> = least.into_iter().map(|set| rules_of(set).collect()).collect();
    least.sort_by_key(|rules| (rules.len(), rules.clone()));
    Ok(least)
}

/// The rules of a set: bit i of its number is rule i.
fn rules_of(set: usize) -> impl Iterator<Item = usize> {
    (0..MOST_RULES).filter(move |rule| set >> rule & 1 == 1)
}

/// What is known of the sets of rules. A converter for a set is one for each part of it: so what
/// can be kept tells of all its parts, and what can't of all sets of which it is a part.
struct Sets<'a> {
    design: &'a Design,
    /// Whether the rules of each set can be kept together, where it is known.
    kept: Vec<Option<bool>>,
    searches: usize,
    say: &'a mut dyn FnMut(&str),
}

impl<'a> Sets<'a> {
    /// Known is at first that all rules together can't be kept, and that no rules can.
    fn new(design: &'a Design, say: &'a mut dyn FnMut(&str)) -> Sets<'a> {
        let mut kept = vec![None; 1 << design.rules.len()];
        kept[0] = Some(true);
        *kept.last_mut().expect("there is a set") = Some(false);
        Sets { design, kept, searches: 0, say }
    }

    /// Whether the rules of a set can be kept together.
    fn can_be_kept(&mut self, set: usize) -> Result<bool, Refused> {
        if let Some(kept) = self.kept[set] {
            return Ok(kept);
        }
        let formulas: Vec<usize> =
            rules_of(set).map(|rule| self.design.rules[rule].formula).collect();
        let kept = exists(&self.design.with_rules(&formulas)?)?;
        self.searches += 1;
        if self.searches.is_multiple_of(SEARCHES_A_LINE) {
            (self.say)(&format!("{} sets of rules searched ...", grouped(self.searches as u128)));
        }
        for other in 0..self.kept.len() {
            let follows = if kept { other & set == other } else { other & set == set };
            if follows {
                self.kept[other] = Some(kept);
            }
        }
        Ok(kept)
    }

    /// A smallest part of a set that can't be kept: rules are left out while the others can't.
    fn lessened(&mut self, mut set: usize) -> Result<usize, Refused> {
        for rule in rules_of(set) {
            let without = set & !(1 << rule);
            if !self.can_be_kept(without)? {
                set = without;
            }
        }
        Ok(set)
    }
}

/// The changes with which a converter exists, in the order of the tables.
fn changes(design: &Design) -> Result<Vec<Change>, Refused> {
    let mut helping = Vec::new();
    for (side, own) in design.sides.iter().enumerate() {
        for (state, table) in own.states.iter().enumerate() {
            let Some(kind) = change_of(table) else { continue };
            let change = Change { side, state, kind };
            if exists(&change.made(design).bytes())? {
                helping.push(change);
            }
        }
    }
    Ok(helping)
}

/// The change that a state allows.
fn change_of(state: &State) -> Option<ChangeKind> {
    let ticks = state.transitions.iter().any(|transition| transition.event == 0);
    let room = state.transitions.len() < MOST_TRANSITIONS;
    match state.kind()? {
        Kind::Delayed => Some(ChangeKind::SendsAtOnce),
        Kind::Input if !ticks && room => Some(ChangeKind::Waits),
        _ => None,
    }
}

impl Change {
    /// The design with this change.
    fn made(self, design: &Design) -> Design {
        let mut changed = design.clone();
        let transitions = &mut changed.sides[self.side].states[self.state].transitions;
        match self.kind {
            ChangeKind::SendsAtOnce => transitions.retain(|transition| transition.event != 0),
            ChangeKind::Waits => transitions.push(Transition { event: 0, target: self.state }),
        }
        changed
    }

    /// The change in words.
    fn text(self, design: &Design) -> String {
        let state = &design.sides[self.side].states[self.state];
        let sent = state.transitions.iter().find(|transition| transition.event < 0);
        let sent = sent.map_or(String::new(), |transition| design.signal(transition.event));
        let change = match self.kind {
            ChangeKind::SendsAtOnce => format!("without its tick (it then sends '{sent}' at once)"),
            ChangeKind::Waits => "with a tick (it may then wait)".to_string(),
        };
        format!("{}, {}: {change}", SIDE_HEADINGS[self.side], state.name)
    }
}

impl Why {
    /// The answer in words. A rule is written out below the first set that has it.
    pub fn text(&self, design: &Design) -> String {
        let mut out =
            "No converter of any size keeps these rules (the library's search: 16).\n".to_string();
        let mut written = BTreeSet::new();
        for set in &self.sets {
            out += &format!("{}\n", cant(set));
            for &rule in set {
                if written.insert(rule) {
                    out += &written_out(design, rule);
                }
            }
        }
        if self.changes.is_empty() {
            return out
                + "No change of one state helps, be it a delayed state without its tick (it then \
                   sends at once) or an input state with a tick (it may then wait).\n";
        }
        out += "A converter exists if one thing is changed:\n";
        for change in &self.changes {
            out += &format!("    {}\n", change.text(design));
        }
        out
    }
}

/// A rule's sentence and its formula.
fn written_out(design: &Design, rule: usize) -> String {
    let number = format!("{}. ", rule + 1);
    let indent = " ".repeat(number.len());
    let own = &design.rules[rule];
    format!("    {number}{}\n    {indent}{}\n", own.sentence, design.text(own.formula))
}

/// What is said of a smallest set.
fn cant(set: &[usize]) -> String {
    let names: Vec<String> = set.iter().map(|rule| (rule + 1).to_string()).collect();
    let names = listed(&names);
    match set.len() {
        1 => format!("Rule {names} can't be kept, even alone."),
        2 => format!("Rules {names} can't be kept together; each of them can without the other."),
        3 => format!("Rules {names} can't be kept together; any two of them can."),
        _ => {
            format!("Rules {names} can't be kept together; without any one of them the others can.")
        }
    }
}
