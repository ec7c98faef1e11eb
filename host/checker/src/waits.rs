//! How long rules wait: the least number of ticks within which every path from a state has
//! reached the second part of an until.
//!
//! Nothing is asked of the states at which the second part holds: the paths are followed on
//! from their first state, for as long as they are before it.

use std::collections::BTreeMap;

use crate::bytes::Formula;
use crate::ctl::{Model, States};

/// What a rule gets that isn't an until.
pub const NO_WAIT: u32 = u32::MAX;

/// For each rule, how long it waits at the start of a model in which every rule holds there.
/// The states at which each formula holds are given.
pub fn rule_waits(
    model: &Model,
    formulas: &[Formula],
    rules: &[u8],
    holding: &[States],
) -> Vec<u32> {
    let of_rule = |&rule: &u8| match formulas[usize::from(rule)] {
        Formula::Until(a, b) => {
            let ticks = wait(model, 0, &holding[a], &holding[b]).expect("the rule holds");
            u32::try_from(ticks).expect("there are fewer ticks than records")
        }
        _ => NO_WAIT,
    };
    rules.iter().map(of_rule).collect()
}

/// The least number of ticks within which every path from `start` has reached `b`, or none
/// where A(a U b) fails there.
///
/// The states that paths come to before they reach `b` are taken in the order of the latest
/// tick at which a path is there: a state is taken once every transition to it from such
/// states is behind, first those of tick 0, then those of tick 1, and so on. One tick after
/// the last, every path has reached `b`. States that are left over stand on or behind a loop,
/// in which a path stays for ever.
pub fn wait(model: &Model, start: usize, a: &States, b: &States) -> Option<usize> {
    let mut ahead = before(model, start, b);
    if ahead.keys().any(|state| !a.contains(state)) {
        return None;
    }
    let mut taken = Vec::from_iter((ahead.get(&start) == Some(&0)).then_some(start));
    let mut ticks = 0;
    while !taken.is_empty() {
        let mut later = Vec::new();
        for state in taken {
            ahead.remove(&state);
            for &next in model.next(state) {
                if let Some(transitions) = ahead.get_mut(&next) {
                    *transitions -= 1;
                    if *transitions == 0 {
                        later.push(next);
                    }
                }
            }
        }
        taken = later;
        ticks += 1;
    }
    ahead.is_empty().then_some(ticks)
}

/// The states that some path from `start` comes to before it reaches `b`, each with how many
/// transitions lead to it from such states.
fn before(model: &Model, start: usize, b: &States) -> BTreeMap<usize, usize> {
    let mut leading = BTreeMap::new();
    if b.contains(&start) {
        return leading;
    }
    leading.insert(start, 0);
    let mut fresh = vec![start];
    while let Some(state) = fresh.pop() {
        for &next in model.next(state).iter().filter(|next| !b.contains(next)) {
            let transitions = leading.entry(next).or_insert_with(|| {
                fresh.push(next);
                0
            });
            *transitions += 1;
        }
    }
    leading
}
