//! The judge: is a converter matched to the sides, do the rules hold, and how long do they wait.

use crate::bytes::{read_converter_memory, read_design, Design, Record, SIDES};
use crate::ctl::{Model, States};
use crate::joined::{enabling, labels, steps, Step};
use crate::refusal::{self, demand};
use crate::waits::rule_waits;

/// Bytes of work that the judge demands for each record.
const WORK_PER_RECORD: usize = 16;

/// Judges a converter: yes, or 1 to 8 and 10 to 15.
///
/// After a yes the first numbers of `waits` are the rules', one for each: how long it waits if it
/// is an until, else [`NO_WAIT`](crate::waits::NO_WAIT). All others, and all after any other
/// answer, are unchanged. The work that 13 demands is zero after a yes, 14 and 15, and is
/// unchanged after every other answer. Work beyond it is never changed.
pub fn judge(
    design: &[u8],
    converter: &[u8],
    work: &mut [u8],
    waits: &mut [u32],
) -> Result<(), u8> {
    let design = read_design(design)?;
    let records = read_converter_memory(converter)?;
    let rules = design.rules.len();
    demand(waits.len() >= rules, refusal::RESULT)?;
    admit(&design, &records, work)?;
    let model = model(&design, &records);
    let holding = model.holding(&design.formulas);
    demand(failing(&design.rules, &holding).is_empty(), refusal::RULE)?;
    let found = rule_waits(&model, &design.formulas, &design.rules, &holding);
    waits[..rules].copy_from_slice(&found);
    Ok(())
}

/// Makes the work that 13 demands for a converter zero and asks whether the converter is matched;
/// or declines with 13 or 14.
pub(crate) fn admit(design: &Design, converter: &[Record], work: &mut [u8]) -> Result<(), u8> {
    let demanded = WORK_PER_RECORD * converter.len();
    demand(work.len() >= demanded, refusal::WORK)?;
    work[..demanded].fill(0);
    demand(matched(design, converter), refusal::UNMATCHED)
}

/// Whether a converter is matched to the sides of a design.
pub fn matched(design: &Design, converter: &[Record]) -> bool {
    let starts = converter.first().is_some_and(|first| first.states == [0; SIDES]);
    starts && converter.iter().all(|record| record_matched(design, converter, record))
}

/// Whether one record obeys what a converter may do.
pub fn record_matched(design: &Design, converter: &[Record], record: &Record) -> bool {
    let joint = record.states.map(usize::from);
    if (0..SIDES).any(|side| joint[side] >= design.sides[side].len()) {
        return false;
    }
    let steps = steps(design, joint);
    let enabled: Option<Vec<Step>> = record
        .links
        .iter()
        .map(|link| {
            let step = steps.iter().find(|step| step.events == link.side_events())?;
            let next = converter.get(usize::from(link.next))?;
            (next.states.map(usize::from) == step.to).then_some(*step)
        })
        .collect();
    let Some(enabled) = enabled else {
        return false;
    };
    let twice = (1..enabled.len()).any(|at| enabled[..at].contains(&enabled[at]));
    !twice && enabling(design, joint).allows(&enabled, steps.len())
}

/// The rules that don't hold at the start under a matched converter, by their
/// place among the rules.
pub fn failing_rules(design: &Design, converter: &[Record]) -> Vec<usize> {
    failing(&design.rules, &model(design, converter).holding(&design.formulas))
}

/// The places of the rules that don't hold at the start, where these are the states in which
/// each formula holds.
fn failing(rules: &[u8], holding: &[States]) -> Vec<usize> {
    (0..rules.len()).filter(|&rule| !holding[usize::from(rules[rule])].contains(&0)).collect()
}

/// The sides under a matched converter. Its records are the states: each names
/// the one joint state in which the sides then are.
pub fn model(design: &Design, converter: &[Record]) -> Model {
    let labels = converter.iter().map(|record| labels(design, record.states.map(usize::from)));
    let next = converter
        .iter()
        .map(|record| record.links.iter().map(|link| usize::from(link.next)).collect());
    Model::new(labels.collect(), next.collect())
}
