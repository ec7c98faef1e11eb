//! Designs whose states wait, and lists of ranges for them, sound and with one flaw each.

use super::{design, sending, Random, Shape};
use crate::bytes::{idle_side, Design, State, StateKind, Transition, MOST_STATES, SIDES};
use crate::ranges::{list_bytes, Range, ENTRY_BYTES, MOST_WAITS, NO_GREATEST};

/// A well-formed design of any size, of which many states are delayed and wait where they are,
/// so that ranges can be given for them. Some of these send back to themselves.
pub fn waiting_design(random: &mut Random) -> Design {
    let states = *random.pick(&[1, 2, 4, 8, 12, 16]);
    let small = Shape { states, transitions: 3, propositions: 3, ..Shape::TINY };
    let shape = *random.pick(&[small, small, small, Shape { states, ..Shape::FULL }]);
    let made = design(random, &shape);
    with_waits(random, made)
}

/// The design with some of its states made delayed ones that wait where they are. A side that
/// is idle stays so.
pub fn with_waits(random: &mut Random, mut made: Design) -> Design {
    for side in made.sides.iter_mut().filter(|side| **side != idle_side()) {
        let (rare, states) = (*random.pick(&[1, 2, 4]), side.len());
        for (own, state) in side.iter_mut().enumerate() {
            if random.once_in(rare) {
                state.transitions = waiting(random, own, states);
            }
        }
    }
    made
}

/// The transitions of a state that is delayed and waits where it is.
fn waiting(random: &mut Random, own: usize, states: usize) -> Vec<Transition> {
    let (mut send, tick) = (sending(random, states), Transition { event: 0, target: own as u8 });
    if random.once_in(4) {
        send.target = own as u8;
    }
    let mut transitions = vec![send, tick];
    random.shuffle(&mut transitions);
    transitions
}

/// Whether state `own` of a side is delayed and waits where it is. How a list is read isn't asked
/// here, so that a test tells whether the reader takes the right states.
fn waits(own: usize, state: &State) -> bool {
    state.kind() == Some(StateKind::Delayed) && state.target(0) == Some(own)
}

/// The states of a design, each with its side, of which something is so.
fn states_that(
    design: &Design,
    is_so: impl Fn(usize, usize, &State) -> bool,
) -> Vec<(usize, usize)> {
    let states = design.sides.iter().enumerate().flat_map(|(side, states)| {
        states.iter().enumerate().map(move |(own, state)| (side, own, state))
    });
    let so = states.filter(|&(side, own, state)| is_so(side, own, state));
    so.map(|(side, own, _)| (side, own)).collect()
}

/// Ranges for some states of a design, in any order. Each may have one; a side may get too
/// many states, at times just one too many.
pub fn any_ranges(random: &mut Random, design: &Design) -> Vec<Range> {
    let mut chosen = states_that(design, |_, own, state| waits(own, state));
    random.shuffle(&mut chosen);
    let most = if random.once_in(4) { chosen.len() } else { chosen.len().min(4) };
    chosen.truncate(random.from_to(0, most));
    let mut room = design.sides.each_ref().map(|side| MOST_STATES - side.len());
    let mut ranges = Vec::new();
    for (side, state) in chosen {
        let range = any_range(random, side, state, room[side]);
        room[side] = room[side].saturating_sub(range.more_states());
        ranges.push(range);
    }
    ranges
}

/// A range for a state, where the side has room for so many more.
fn any_range(random: &mut Random, side: usize, state: usize, room: usize) -> Range {
    let more = match random.below(8) {
        0 => room,
        1 => room + 1,
        2 => random.below(16),
        3 => 0,
        _ => random.below(room.min(4) + 1),
    };
    let more = more.min(usize::from(MOST_WAITS)) as u8;
    let (least, greatest) = match random.below(6) {
        0 => (more, Some(more)),
        1 => (0, Some(more)),
        2..=3 => (more, None),
        _ => (random.below(usize::from(more) + 1) as u8, Some(more)),
    };
    Range { side, state, least, greatest }
}

/// What is wrong with a list of ranges.
#[derive(Clone, Copy, Debug, PartialEq, Eq, PartialOrd, Ord)]
pub enum Flaw {
    /// Its length is no multiple of four.
    Length,
    /// An entry names a side that there isn't.
    Side,
    /// An entry names a state that there isn't.
    State,
    /// An entry names a state that isn't delayed.
    NotDelayed,
    /// An entry names a delayed state whose tick leads to another.
    LeadsOn,
    /// A least count is over 15.
    Least,
    /// A greatest count is over 15, and doesn't say that there is none.
    Greatest,
    /// A least count is above the greatest.
    Above,
    /// A state is named twice.
    Twice,
}

impl Flaw {
    /// Every flaw.
    pub const ALL: [Flaw; 9] = [
        Flaw::Length,
        Flaw::Side,
        Flaw::State,
        Flaw::NotDelayed,
        Flaw::LeadsOn,
        Flaw::Least,
        Flaw::Greatest,
        Flaw::Above,
        Flaw::Twice,
    ];
}

/// A list of ranges for a design that has one flaw: it is put into these, which have none.
/// Which flaw it is. Some designs can't have each of them.
pub fn flawed_list(random: &mut Random, design: &Design, ranges: &[Range]) -> (Vec<u8>, Flaw) {
    loop {
        let flaw = *random.pick(&Flaw::ALL);
        let mut list = list_bytes(ranges);
        if put_flaw(random, design, ranges, &mut list, flaw).is_some() {
            return (list, flaw);
        }
    }
}

/// Puts a flaw into the list of these ranges, unless it can't be had.
fn put_flaw(
    random: &mut Random,
    design: &Design,
    ranges: &[Range],
    list: &mut Vec<u8>,
    flaw: Flaw,
) -> Option<()> {
    let side = random.below(SIDES);
    let named = |side, own| ranges.iter().any(|range| (range.side, range.state) == (side, own));
    let free = states_that(design, |side, own, state| waits(own, state) && !named(side, own));
    match flaw {
        Flaw::Length => {
            let length = list.len();
            let less = length > 0 && random.once_in(2);
            let by = random.from_to(1, ENTRY_BYTES - 1);
            list.resize(if less { length - by } else { length + by }, 0);
        }
        Flaw::Side => {
            let mut entry = sound_entry(random, &free)?;
            entry[0] = from(random, SIDES, 255);
            put_entry(random, list, entry);
        }
        Flaw::State => {
            let entry = [side as u8, from(random, design.sides[side].len(), 255), 0, NO_GREATEST];
            put_entry(random, list, entry);
        }
        Flaw::NotDelayed | Flaw::LeadsOn => {
            let delayed = flaw == Flaw::LeadsOn;
            let wrong = states_that(design, |_, own, state| {
                (state.kind() == Some(StateKind::Delayed)) == delayed && !waits(own, state)
            });
            let entry = sound_entry(random, &wrong)?;
            put_entry(random, list, entry);
        }
        Flaw::Least | Flaw::Greatest | Flaw::Above => {
            // An entry gets other counts, or one is put in for a state that has none.
            let at = if !list.is_empty() && random.once_in(2) {
                ENTRY_BYTES * random.below(ranges.len())
            } else {
                let entry = sound_entry(random, &free)?;
                put_entry(random, list, entry)
            };
            let counts = match flaw {
                Flaw::Least => [from(random, 16, 255), NO_GREATEST],
                Flaw::Greatest => [random.below(16) as u8, from(random, 16, 254)],
                _ => {
                    let greatest = random.below(15);
                    [random.from_to(greatest + 1, 15) as u8, greatest as u8]
                }
            };
            list[at + 2..at + ENTRY_BYTES].copy_from_slice(&counts);
        }
        Flaw::Twice => {
            let range = if ranges.is_empty() { return None } else { random.pick(ranges) };
            let again = match random.once_in(2) {
                true => *range,
                false => any_range(random, range.side, range.state, 0),
            };
            put_entry(random, list, again.to_bytes());
        }
    }
    Some(())
}

/// A byte from `least` to `most`, at times one of these two.
fn from(random: &mut Random, least: usize, most: usize) -> u8 {
    let between = random.from_to(least, most);
    *random.pick(&[least, between, most]) as u8
}

/// An entry for one of these states, if there is one, with counts that a list may have.
fn sound_entry(random: &mut Random, states: &[(usize, usize)]) -> Option<[u8; ENTRY_BYTES]> {
    let &(side, own) = if states.is_empty() { return None } else { random.pick(states) };
    Some(any_range(random, side, own, 2).to_bytes())
}

/// Puts an entry among the others of a list, and answers where.
fn put_entry(random: &mut Random, list: &mut Vec<u8>, entry: [u8; ENTRY_BYTES]) -> usize {
    let at = ENTRY_BYTES * random.below(list.len() / ENTRY_BYTES + 1);
    list.splice(at..at, entry);
    at
}
