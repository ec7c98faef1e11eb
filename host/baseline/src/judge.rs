//! The judge: matched, then every formula labelled, and how long rules wait. The verdict alone
//! labels what its rules need, rule by rule.

use std::array::from_fn;

use crate::converter::{counted_right, names_of, next_of, side_events, transitions, RECORD};
use crate::demand;
use crate::design::{Design, State, DELAYED, NOWHERE, SIDES};
use crate::joint::{duty_of, joint_count, joint_state, show_of, Duty};
use crate::labels::Labels;

/// Judges a converter: yes, or 1 to 8 and 10 to 15. After a yes there is a wait for each rule.
pub fn judge(
    design: &[u8],
    converter: &[u8],
    work: &mut [u8],
    waits: &mut [u32],
) -> Result<(), u8> {
    let design = Design::read(design)?;
    let records = counted_right(converter)?;
    demand(waits.len() >= design.rules.len(), 12)?;
    demand_matched(&design, converter, work, records)?;
    if design.rules.is_empty() {
        return Ok(());
    }
    let mut labels = Labels::new(&design, converter);
    for number in 0..design.formulas.len() as u8 {
        labels.label(number);
    }
    demand(design.rules.iter().all(|&rule| labels.at_start(rule)), 15)?;
    for (wait, &rule) in waits.iter_mut().zip(&design.rules) {
        *wait = labels.wait(rule);
    }
    Ok(())
}

/// The verdict on a converter: yes, or 1 to 8, 10, 11 and 13 to 15. With 15 alone `rule` becomes
/// the place of the first rule that fails.
pub fn verdict(design: &[u8], converter: &[u8], work: &mut [u8], rule: &mut u8) -> Result<(), u8> {
    let design = Design::read(design)?;
    let records = counted_right(converter)?;
    demand_matched(&design, converter, work, records)?;
    if design.rules.is_empty() {
        return Ok(());
    }
    let mut labels = Labels::new(&design, converter);
    for (place, &number) in (0..).zip(&design.rules) {
        labels.label(number);
        if !labels.at_start(number) {
            *rule = place;
            return Err(15);
        }
    }
    Ok(())
}

/// Declines with 13 or 14 a converter of so many records, right in itself. The work that 13
/// demands is cleared.
fn demand_matched(
    design: &Design,
    converter: &[u8],
    work: &mut [u8],
    records: usize,
) -> Result<(), u8> {
    demand(work.len() >= 16 * records, 13)?;
    work[..16 * records].fill(0);
    demand(matched(design, converter), 14)
}

/// For each state of a side and each event, the target.
fn targets(design: &Design, side: usize) -> Vec<[u8; 128]> {
    let of_state = |state: &State| {
        let mut targets = [NOWHERE; 128];
        for place in 0..state.count {
            targets[(state.events[place] + 63) as usize] = state.targets[place];
        }
        targets
    };
    design.sides[side][..design.states[side]].iter().map(of_state).collect()
}

/// Whether a converter, right in itself, is matched to the sides.
fn matched(design: &Design, converter: &[u8]) -> bool {
    let targets: [_; SIDES] = from_fn(|side| targets(design, side));
    let matched = |record: &[u8]| {
        let names = names_of(record);
        if (0..SIDES).any(|side| usize::from(names[side]) >= design.states[side]) {
            return false;
        }
        let targets: [&[u8; 128]; SIDES] = from_fn(|side| &targets[side][usize::from(names[side])]);
        let links = transitions(record);
        for link in links {
            let events = side_events(link);
            let to = names_of(&converter[RECORD * usize::from(next_of(link))..]);
            // A target that isn't there is larger than any state that a record names.
            if (0..SIDES).any(|side| to[side] != targets[side][(events[side] + 63) as usize]) {
                return false;
            }
        }
        let states = joint_state(design, names);
        match duty_of(states) {
            Duty::Every => links.len() == joint_count(states),
            Duty::OneEach => {
                let delayed = states.iter().filter(|state| state.kind == DELAYED).count();
                let show = |link| 1_u32 << show_of(side_events(link));
                let shows = links.iter().fold(0, |shows, link| shows | show(link));
                links.len() == 1 << delayed && shows.count_ones() == 1 << delayed
            }
            Duty::Some => true,
        }
    };
    names_of(converter) == [0; SIDES] && converter.chunks_exact(RECORD).all(matched)
}
