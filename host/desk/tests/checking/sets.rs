//! `why`: the smallest sets of rules that can't be kept together, and the changes that would help,
//! against every set and every change tried by the second checker's search.

use std::collections::BTreeSet;

use checker::bytes::{Design, StateKind, Transition, PLACES};
use checker::search::find;
use gorzhani::{Refused, CELL, RECORD};

use super::formulas::Tree;
use super::{demand, listed, number, Checked, Page, Seen};

const HEADINGS: [&str; 3] = ["Kernel", "Host", "Third"];

/// A change of one state: its tick is left out, or it gets one.
#[derive(Clone, Copy, Debug, PartialEq, Eq, PartialOrd, Ord)]
struct Change {
    side: usize,
    state: usize,
    with_tick: bool,
}

/// A design with some of its rules, which are the bits of a set.
fn with(design: &Design, set: usize) -> Design {
    let rules = design.rules.iter().enumerate().filter(|(at, _)| set >> at & 1 == 1);
    Design { rules: rules.map(|(_, &rule)| rule).collect(), ..design.clone() }
}

/// Whether a converter exists by the library's search.
fn found(design: &Design) -> Checked<bool> {
    let bytes = design.to_five_blocks();
    let refused = |refused| format!("the library answers {refused}");
    let positions = gorzhani::positions(&bytes).map_err(refused)?;
    let (mut table, mut work) = (vec![0; RECORD * positions], vec![0; CELL * positions]);
    match gorzhani::search(&bytes, &mut table, &mut work) {
        Ok(_) => Ok(true),
        Err(Refused::NO_CONVERTER) => Ok(false),
        Err(other) => Err(refused(other)),
    }
}

/// The sets of rules without a converter, each of which has one where any rule is left out.
fn smallest(design: &Design) -> BTreeSet<usize> {
    let rules = design.rules.len();
    let none: Vec<bool> = (0..1 << rules).map(|set| find(&with(design, set)).is_none()).collect();
    let least = |set: &usize| {
        let less = (0..rules).filter(|at| set >> at & 1 == 1).map(|at| set & !(1 << at));
        none[*set] && less.into_iter().all(|set| !none[set])
    };
    (0..1 << rules).filter(least).collect()
}

/// The design after a change, if the state allows it.
fn changed(design: &Design, change: Change) -> Option<Design> {
    let mut design = design.clone();
    let state = &mut design.sides[change.side][change.state];
    let ticks = state.transitions.iter().any(|transition| transition.event == 0);
    match (state.kind()?, change.with_tick) {
        (StateKind::Delayed, false) => state.transitions.retain(|transition| transition.event != 0),
        (StateKind::Input, true) if !ticks && state.transitions.len() < PLACES => {
            state.transitions.push(Transition { event: 0, target: change.state as u8 });
        }
        _ => return None,
    }
    Some(design)
}

/// The changes after which there is a converter.
fn helping(page: &Page) -> BTreeSet<Change> {
    let mut helping = BTreeSet::new();
    for side in 0..page.sides() {
        for state in 0..page.design.sides[side].len() {
            for with_tick in [false, true] {
                let change = Change { side, state, with_tick };
                if changed(&page.design, change).is_some_and(|design| find(&design).is_some()) {
                    helping.insert(change);
                }
            }
        }
    }
    helping
}

/// Checks what `why` prints of a design without a converter.
pub fn check(page: &Page, text: &str) -> Checked<Seen> {
    let lines: Vec<&str> = text.lines().collect();
    let (first, mut rest) = lines.split_first().ok_or("nothing is said")?;
    demand(first.contains("16"), || format!("'{first}' isn't about 16"))?;
    demand(find(&page.design).is_none(), || "there is a converter".to_string())?;
    let mut seen = Seen::from([("whys", 1)]);
    let (mut sets, mut written) = (BTreeSet::new(), BTreeSet::new());
    while let Some((head, behind)) = rest.split_first() {
        let Some((rules, said)) = head.split_once(" can't be kept") else { break };
        let rules =
            rules.strip_prefix("Rules ").or(rules.strip_prefix("Rule ")).ok_or("no rule")?;
        let rules: Vec<usize> = listed(rules).into_iter().map(number).collect::<Checked<_>>()?;
        let known = rules.iter().all(|rule| (1..=page.design.rules.len()).contains(rule));
        demand(known, || format!("'{head}' names rules that there aren't"))?;
        let set = rules.iter().fold(0, |set, rule| set | 1 << (rule - 1));
        demand(said.starts_with(", even alone") == (rules.len() == 1), || {
            format!("'{head}' is said of {} rules", rules.len())
        })?;
        demand(!found(&with(&page.design, set))?, || format!("{rules:?} can be kept"))?;
        for rule in &rules {
            let less = with(&page.design, set & !(1 << (rule - 1)));
            demand(found(&less)?, || format!("{rules:?} can't be kept without {rule} either"))?;
        }
        demand(sets.insert(set), || format!("'{head}' is said twice"))?;
        *seen.entry(if rules.len() > 1 { "together" } else { "alone" }).or_default() += 1;
        if rules.len() > 2 {
            *seen.entry("three and more").or_default() += 1;
        }
        let fresh = rules.into_iter().filter(|rule| written.insert(*rule));
        rest = told_rules(page, fresh, behind)?;
    }
    let all = smallest(&page.design);
    demand(sets == all, || format!("the smallest sets are {all:?}, and not {sets:?}"))?;
    let (head, behind) = rest.split_first().ok_or("nothing is said of changes")?;
    let behind: Vec<&str> = behind.iter().copied().filter(|line| !line.is_empty()).collect();
    let mut changes = BTreeSet::new();
    if head.starts_with("A converter exists if one thing is changed:") {
        for line in &behind {
            demand(changes.insert(told_change(page, line)?), || format!("'{line}' again"))?;
        }
        demand(!changes.is_empty(), || "no change is told".to_string())?;
        *seen.entry("changes").or_default() += changes.len();
    } else {
        demand(head.starts_with("No change of one state helps"), || format!("'{head}'"))?;
        demand(behind.is_empty(), || format!("'{behind:?}' behind it"))?;
    }
    let all = helping(page);
    demand(changes == all, || format!("these changes help: {all:?}, and not {changes:?}"))?;
    Ok(seen)
}

/// Checks the rules that are written out below a set, those that weren't before, and answers what
/// stands behind.
fn told_rules<'a, 'b>(
    page: &Page,
    rules: impl Iterator<Item = usize>,
    mut lines: &'a [&'b str],
) -> Checked<&'a [&'b str]> {
    for rule in rules {
        let [sentence, formula, behind @ ..] = lines else {
            return Err(format!("rule {rule} isn't written out"));
        };
        let told = format!("{rule}. {}", page.read.sentences[rule - 1]);
        demand(sentence.trim() == told, || format!("'{sentence}' isn't '{told}'"))?;
        let formula = Tree::of(&page.formula(formula.trim())?);
        demand(formula == page.rules()[rule - 1], || format!("another formula for {rule}"))?;
        lines = behind;
    }
    Ok(lines)
}

/// The change that a line tells, as "Kernel, job: without its tick (it then sends 'done' at once)".
fn told_change(page: &Page, line: &str) -> Checked<Change> {
    let (place, what) = line.trim().split_once(": ").ok_or_else(|| format!("'{line}'"))?;
    let (side, state) = place.split_once(", ").ok_or_else(|| format!("'{place}' is no place"))?;
    let side = HEADINGS.iter().position(|heading| *heading == side);
    let side = side.filter(|&side| side < page.sides()).ok_or("no such side")?;
    let state = page.names().states[side].iter().position(|name| name == state);
    let state = state.ok_or("no such state")?;
    let with_tick = what.starts_with("with a tick");
    if !with_tick {
        let signal = what.strip_prefix("without its tick (it then sends '");
        let signal = signal.and_then(|rest| rest.strip_suffix("' at once)"));
        let sent = -page.signal(signal.ok_or_else(|| format!("'{what}' is no change"))?)?;
        let sends = page.design.sides[side][state].target(sent).is_some();
        demand(sends, || format!("'{line}': it doesn't"))?;
    }
    Ok(Change { side, state, with_tick })
}
