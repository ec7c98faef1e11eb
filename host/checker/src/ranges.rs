//! Waits known by range: chosen delayed states are replaced by states that count.
//!
//! A list of ranges says of some delayed states, whose tick leads back to them, how
//! often they tick at least and at most before they send. [`ranges`](fn@ranges) writes the
//! design in which states that count stand for each of them.
//!
//! # Two ways
//!
//! [`ranges`](fn@ranges) puts the new table down, state by state. [`like`] doesn't know how
//! a table is made. It is handed the old design, the ranges and any new design, plays the old
//! table with a count of waits beside it, and asks whether the new table does the same.
//! The two have in common how designs and lists are read, and nothing else.
//!
//! # Counted waits
//!
//! A side of the old table is *at a place*: in a state, having waited there so many times
//! since the state was entered. Where the state was chosen, its tick is allowed below the
//! greatest count and its send from the least on; a tick is a wait more. Entering a state
//! begins to count anew, also where a send leads back to the state that sent. In all other
//! states everything is as the table has it.
//!
//! The sides move together, and each as it likes. So the runs of all of them are right if
//! those of each are, and each is asked for itself.

use std::array::from_fn;
use std::collections::{BTreeMap, BTreeSet, VecDeque};

use crate::bytes::{
    read_design, Design, State, Transition, BLOCK_BYTES, FIVE_BLOCKS, MOST_STATES, SIDES,
};
use crate::refusal::{self, demand};

/// Bytes of an entry of the list.
pub const ENTRY_BYTES: usize = 4;
/// The most waits that an entry speaks of.
pub const MOST_WAITS: u8 = 15;
/// What an entry has in the place of a greatest count where there is none.
pub const NO_GREATEST: u8 = 255;

/// How often a state waits.
#[derive(Clone, Copy, Debug, PartialEq, Eq)]
pub struct Range {
    /// The side.
    pub side: usize,
    /// The state.
    pub state: usize,
    /// It sends after so many waits, and not before.
    pub least: u8,
    /// After so many it waits no more; without this it may wait for ever.
    pub greatest: Option<u8>,
}

impl Range {
    /// The range as an entry. Nothing is checked but that each part is a byte.
    pub fn to_bytes(&self) -> [u8; ENTRY_BYTES] {
        let byte = |number: usize| u8::try_from(number).expect("a part of an entry is a byte");
        let greatest = self.greatest.unwrap_or(NO_GREATEST);
        [byte(self.side), byte(self.state), self.least, greatest]
    }

    /// How many states are put behind the side's last one.
    pub fn more_states(&self) -> usize {
        usize::from(self.greatest.unwrap_or(self.least))
    }
}

/// A list of ranges as bytes.
pub fn list_bytes(ranges: &[Range]) -> Vec<u8> {
    ranges.iter().flat_map(Range::to_bytes).collect()
}

/// How many states each side has after replacement.
pub fn states_after(design: &Design, ranges: &[Range]) -> [usize; SIDES] {
    from_fn(|side| {
        let more = ranges.iter().filter(|range| range.side == side).map(Range::more_states);
        design.sides[side].len() + more.sum::<usize>()
    })
}

/// Replaces the chosen states: done, with the new design at the front of `result`, or 1 to 8,
/// 22, 23 and 12 with nothing changed. No other byte changes.
pub fn ranges(design: &[u8], entries: &[u8], result: &mut [u8]) -> Result<(), u8> {
    let old = read_design(design)?;
    let ranges = read_ranges(&old, entries)?;
    let fit = states_after(&old, &ranges).iter().all(|&states| states <= MOST_STATES);
    demand(fit, refusal::TOO_MANY_STATES)?;
    demand(result.len() >= design.len(), refusal::RESULT)?;
    let sides = from_fn(|side| replaced(&old.sides[side], &of_side(&ranges, side)));
    let new = Design { sides, ..old };
    let bytes = match design.len() {
        FIVE_BLOCKS => new.to_five_blocks(),
        _ => new.to_bytes(),
    };
    result[..design.len()].copy_from_slice(&bytes);
    Ok(())
}

/// The ranges of one side, in the order of their entries.
fn of_side(ranges: &[Range], side: usize) -> Vec<Range> {
    ranges.iter().copied().filter(|range| range.side == side).collect()
}

/// Reads a list of ranges for a design, or declines with 22.
pub fn read_ranges(design: &Design, entries: &[u8]) -> Result<Vec<Range>, u8> {
    demand(entries.len().is_multiple_of(ENTRY_BYTES), refusal::RANGES)?;
    let mut ranges: Vec<Range> = Vec::new();
    for entry in entries.chunks(ENTRY_BYTES) {
        let range = read_range(design, entry).ok_or(refusal::RANGES)?;
        let named = |other: &Range| (other.side, other.state) == (range.side, range.state);
        demand(!ranges.iter().any(named), refusal::RANGES)?;
        ranges.push(range);
    }
    Ok(ranges)
}

/// One entry, unless it names no state that may be chosen, or a count out of its range.
fn read_range(design: &Design, entry: &[u8]) -> Option<Range> {
    let (side, own, least) = (usize::from(entry[0]), usize::from(entry[1]), entry[2]);
    let greatest = match entry[3] {
        NO_GREATEST => None,
        counted => Some(counted),
    };
    let state = design.sides.get(side)?.get(own)?;
    let counted = |count: u8| count <= MOST_WAITS;
    let right = may_be_chosen(own, state)
        && counted(least)
        && greatest.is_none_or(|greatest| counted(greatest) && least <= greatest);
    right.then_some(Range { side, state: own, least, greatest })
}

/// Whether state `own` of a side is delayed and its tick leads back to it.
pub fn may_be_chosen(own: usize, state: &State) -> bool {
    let back = |transition: &Transition| usize::from(transition.target) == own;
    match &state.transitions[..] {
        [one, other] if one.event < 0 => other.event == 0 && back(other),
        [one, other] if one.event == 0 => other.event < 0 && back(one),
        _ => false,
    }
}

/// The states of a side with those that count in the place of each chosen one.
fn replaced(states: &[State], ranges: &[Range]) -> Vec<State> {
    let mut new = states.to_vec();
    for range in ranges {
        let (least, behind) = (usize::from(range.least), new.len());
        let last = range.more_states();
        let number = |count: usize| if count == 0 { range.state } else { behind + count - 1 };
        for count in 0..=last {
            // Onward; past the last there is no tick, or the last one's leads back to it.
            let wait = if count < last {
                Some(number(count + 1))
            } else {
                range.greatest.is_none().then_some(number(last))
            };
            let transition = |transition: &Transition| {
                if transition.event == 0 {
                    wait.map(|target| Transition { event: 0, target: target as u8 })
                } else {
                    (count >= least).then_some(*transition)
                }
            };
            let old = &states[range.state];
            let transitions = old.transitions.iter().filter_map(transition).collect();
            let counting = State { label: old.label, transitions };
            match count {
                0 => new[range.state] = counting,
                _ => new.push(counting),
            }
        }
    }
    new
}

/// What a new design has otherwise than the ranges say.
#[derive(Clone, Copy, Debug, PartialEq, Eq)]
pub enum Unlike {
    /// It isn't as long as the old one, or it is refused.
    Design,
    /// The block of the formulas, or that of the rules, has another byte.
    Rules,
    /// A state that wasn't chosen is another: this one of this side.
    Unchosen(usize, usize),
    /// This state of this side has other labels than the place that it stands for.
    Labels(usize, usize),
    /// This state of this side has other events than are allowed at the place that it
    /// stands for, or has them in another order.
    Events(usize, usize),
    /// This side has other states than one for each place, or they stand in another order.
    Numbers(usize),
}

/// Holds a new design against the counted waits of the old one, both as bytes. The old one is
/// sound, and the list of ranges isn't refused with 22.
pub fn like(old_bytes: &[u8], entries: &[u8], new_bytes: &[u8]) -> Result<(), Unlike> {
    let old = read_design(old_bytes).expect("the old design is sound");
    let ranges = read_ranges(&old, entries).expect("the list is right");
    let new = read_design(new_bytes).map_err(|_| Unlike::Design)?;
    if old_bytes.len() != new_bytes.len() {
        return Err(Unlike::Design);
    }
    let behind_the_sides = old_bytes.len() - 2 * BLOCK_BYTES;
    if old_bytes[behind_the_sides..] != new_bytes[behind_the_sides..] {
        return Err(Unlike::Rules);
    }
    for side in 0..SIDES {
        let counted = Counted::new(side, &old.sides[side], &ranges);
        counted.unchosen_are_in(&new.sides[side])?;
        let standing = counted.walk(&new.sides[side])?;
        counted.stand_in_order(&new.sides[side], &standing)?;
    }
    Ok(())
}

/// Where a side is: its state, and how often it waited since it entered the state. Of a
/// state that wasn't chosen no waits are counted.
#[derive(Clone, Copy, Debug, PartialEq, Eq, PartialOrd, Ord)]
struct Place {
    state: usize,
    waits: u8,
}

impl Place {
    /// Where a side is that has just entered a state.
    fn entered(state: usize) -> Place {
        Place { state, waits: 0 }
    }
}

/// One side of the old table, with the waits of its chosen states counted.
struct Counted<'a> {
    side: usize,
    states: &'a [State],
    /// The chosen states, in the order of their entries, each with its least and its greatest
    /// count.
    chosen: Vec<(usize, u8, Option<u8>)>,
}

impl Counted<'_> {
    fn new<'a>(side: usize, states: &'a [State], ranges: &[Range]) -> Counted<'a> {
        let chosen = ranges.iter().filter(|range| range.side == side);
        let chosen = chosen.map(|range| (range.state, range.least, range.greatest)).collect();
        Counted { side, states, chosen }
    }

    /// The place of a state among the chosen ones.
    fn entry(&self, state: usize) -> Option<usize> {
        self.chosen.iter().position(|&(own, ..)| own == state)
    }

    /// What the side may do at a place, in the table's order: each event, and the place
    /// that it leads to.
    fn moves(&self, place: Place) -> Vec<(i8, Place)> {
        let mut moves = Vec::new();
        for &Transition { event, target } in &self.states[place.state].transitions {
            let entered = Place::entered(usize::from(target));
            match self.entry(place.state) {
                None => moves.push((event, entered)),
                Some(entry) => {
                    let (_, least, greatest) = self.chosen[entry];
                    if event < 0 && place.waits >= least {
                        moves.push((event, entered));
                    }
                    if event == 0 && greatest.is_none_or(|greatest| place.waits < greatest) {
                        // Where it may wait for ever, waits above the least are all alike.
                        let most = greatest.unwrap_or(least);
                        let waits = (place.waits + 1).min(most);
                        moves.push((event, Place { waits, ..place }));
                    }
                }
            }
        }
        moves
    }

    /// Whether each state that wasn't chosen stands in the new table as it was.
    fn unchosen_are_in(&self, new: &[State]) -> Result<(), Unlike> {
        let other = |&own: &usize| {
            self.entry(own).is_none() && new.get(own).is_none_or(|state| *state != self.states[own])
        };
        match (0..self.states.len()).find(other) {
            Some(own) => Err(Unlike::Unchosen(self.side, own)),
            None => Ok(()),
        }
    }

    /// Walks the new table and the counted one together, breadth first, and answers the
    /// places that new states stand for.
    ///
    /// State 0 is the start of every run. The walk begins at the other states as well, each
    /// just entered at its old number: a converter may name states to which no run comes.
    fn walk(&self, new: &[State]) -> Result<BTreeSet<(usize, Place)>, Unlike> {
        let begin = |own: usize| (own, Place::entered(own));
        let mut queue: VecDeque<(usize, Place)> = (0..self.states.len()).map(begin).collect();
        let mut standing: BTreeSet<(usize, Place)> = queue.iter().copied().collect();
        while let Some((own, place)) = queue.pop_front() {
            let state = new.get(own).ok_or(Unlike::Numbers(self.side))?;
            if state.label != self.states[place.state].label {
                return Err(Unlike::Labels(self.side, own));
            }
            let moves = self.moves(place);
            let allowed = moves.iter().map(|&(event, _)| event);
            if !allowed.eq(state.transitions.iter().map(|transition| transition.event)) {
                return Err(Unlike::Events(self.side, own));
            }
            for (transition, (_, to)) in state.transitions.iter().zip(moves) {
                let pair = (usize::from(transition.target), to);
                if standing.insert(pair) {
                    queue.push_back(pair);
                }
            }
        }
        Ok(standing)
    }

    /// Whether each new state stands for one place, and each place has one state: behind the
    /// side's last state those of the first entry by their waits, then those of the second,
    /// and so on. (Before it, the walk began with the old numbers.)
    fn stand_in_order(
        &self,
        new: &[State],
        standing: &BTreeSet<(usize, Place)>,
    ) -> Result<(), Unlike> {
        let numbers: BTreeMap<usize, Place> = standing.iter().copied().collect();
        let places: BTreeSet<Place> = standing.iter().map(|&(_, place)| place).collect();
        let one_each = [numbers.len(), places.len(), new.len()] == [standing.len(); 3];
        let behind: Vec<(Option<usize>, u8)> = numbers
            .range(self.states.len()..)
            .map(|(_, place)| (self.entry(place.state), place.waits))
            .collect();
        if one_each && behind.is_sorted() {
            Ok(())
        } else {
            Err(Unlike::Numbers(self.side))
        }
    }
}
