//! The running converter, the plain sides beside it, and what holds of every run.

use crate::bytes::{read_record, record_count, Design, RECORD_BYTES, SIDES};
use crate::refusal::{self, demand};

/// What the host lends to a tick.
#[derive(Clone, Copy, Debug, PartialEq, Eq)]
pub struct Runner {
    /// The number of the record in which the converter is.
    pub record: usize,
    /// The events last delivered, one to each side.
    pub delivered: [i8; SIDES],
}

/// One tick: done, or 10, 11 or 17 with the runner unchanged.
pub fn tick(converter: &[u8], runner: &mut Runner, shown: [i8; SIDES]) -> Result<(), u8> {
    let records = record_count(converter)?;
    demand(runner.record < records, refusal::TICK)?;
    let record = read_record(&converter[RECORD_BYTES * runner.record..][..RECORD_BYTES], records)?;
    demand(shown.iter().all(|event| (-63..=0).contains(event)), refusal::TICK)?;
    let taken = record.links.iter().find(|link| {
        let events = link.side_events();
        (0..SIDES).all(|side| fits(shown[side], events[side]))
    });
    let taken = taken.ok_or(refusal::TICK)?;
    *runner = Runner { record: usize::from(taken.next), delivered: taken.side_events() };
    Ok(())
}

/// Whether what a side shows fits its event: 0 fits any event not sent.
fn fits(shown: i8, event: i8) -> bool {
    shown == event || (shown == 0 && event >= 0)
}

/// The sides as their tables alone have them: the state of each.
#[derive(Clone, Copy, Debug, Default, PartialEq, Eq)]
pub struct PlainSides {
    /// The state of each side.
    pub states: [usize; SIDES],
}

impl PlainSides {
    /// Whether each side's table allows what the side shows: an event that its
    /// state sends, or 0 where its state has an event that isn't sent.
    pub fn allow(&self, design: &Design, shown: [i8; SIDES]) -> bool {
        (0..SIDES).all(|side| {
            let state = &design.sides[side][self.states[side]];
            match shown[side] {
                0 => state.transitions.iter().any(|t| t.event >= 0),
                event => event < 0 && state.target(event).is_some(),
            }
        })
    }

    /// Moves each side to the target that its state has for the delivered
    /// event. Where one has no such event, that side's number is answered and
    /// nothing moves.
    pub fn deliver(&mut self, design: &Design, delivered: [i8; SIDES]) -> Result<(), usize> {
        let mut states = self.states;
        for side in 0..SIDES {
            let state = &design.sides[side][self.states[side]];
            states[side] = state.target(delivered[side]).ok_or(side)?;
        }
        self.states = states;
        Ok(())
    }
}

/// Where a run breaks the claim, and how.
#[derive(Clone, Copy, Debug, PartialEq, Eq)]
pub struct Broken {
    /// The call, counted from 0. A wrong start is laid to the first call.
    pub call: usize,
    /// Which part of the claim fails.
    pub part: Part,
}

/// The parts of the claim about a run.
#[derive(Clone, Copy, Debug, PartialEq, Eq)]
pub enum Part {
    /// The answer isn't "done" exactly when all tables allow what is shown.
    Answer,
    /// A refused call changed the runner.
    Unchanged,
    /// A delivered event doesn't stand in the state in which its side was.
    Stands,
    /// A delivered event isn't the shown one, or is sent where 0 was shown.
    Delivered,
    /// The runner's record doesn't name the states of the plain sides.
    Names,
}

/// Runs a converter against a list of shown events and holds the run against
/// the claim. Answers how many ticks were done.
///
/// The tick is passed in, so that any tick can be held against the claim.
pub fn watch(
    design: &Design,
    converter: &[u8],
    delivered: [i8; SIDES],
    script: &[[i8; SIDES]],
    mut tick: impl FnMut(&[u8], &mut Runner, [i8; SIDES]) -> Result<(), u8>,
) -> Result<usize, Broken> {
    let mut runner = Runner { record: 0, delivered };
    let mut sides = PlainSides::default();
    let mut done = 0;
    named(converter, &runner, &sides).map_err(|part| Broken { call: 0, part })?;
    for (call, &shown) in script.iter().enumerate() {
        let broken = |part| Broken { call, part };
        let before = runner;
        let answer = tick(converter, &mut runner, shown);
        let allowed = sides.allow(design, shown);
        match answer {
            Ok(()) if allowed => {
                let right = (0..SIDES).all(|side| {
                    let event = runner.delivered[side];
                    event == shown[side] || (shown[side] == 0 && event >= 0)
                });
                if !right {
                    return Err(broken(Part::Delivered));
                }
                sides.deliver(design, runner.delivered).map_err(|_| broken(Part::Stands))?;
                done += 1;
            }
            Err(refusal::TICK) if !allowed => {
                if runner != before {
                    return Err(broken(Part::Unchanged));
                }
            }
            _ => return Err(broken(Part::Answer)),
        }
        named(converter, &runner, &sides).map_err(broken)?;
    }
    Ok(done)
}

/// Whether the runner's record names the states of the plain sides.
fn named(converter: &[u8], runner: &Runner, sides: &PlainSides) -> Result<(), Part> {
    let at = RECORD_BYTES * runner.record;
    let names = converter.get(at..at + SIDES);
    if names.is_some_and(|names| names.iter().map(|&name| usize::from(name)).eq(sides.states)) {
        Ok(())
    } else {
        Err(Part::Names)
    }
}
