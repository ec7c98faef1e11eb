//! Delayed states replaced by states that count their waits.
//!
//! The new design is the old one with some records of the sides' blocks written over and others
//! added; then these blocks get their count and their check.

use crate::design::{Design, State, DELAYED, SIDES, STATES};
use crate::{check, demand};

/// An entry: side, state, least and greatest count.
type Entry = [u8; 4];

/// What says that there is no greatest count.
const NO_GREATEST: u8 = 255;
/// The most that is counted.
const MOST: u8 = 15;

/// Bytes of a block, of its header and of a state's record.
const BLOCK: usize = 512;
const HEADER: usize = 4;
const RECORD: usize = 20;
/// Where the transitions begin in a state's record, and where the second is.
const FIRST: usize = 4;
const SECOND: usize = 6;

/// Replaces the states that a list names: done, with the new design at the front of the
/// result, or 1 to 8, 22, 23 and 12.
pub fn ranges(design: &[u8], entries: &[u8], result: &mut [u8]) -> Result<(), u8> {
    let read = Design::read(design)?;
    let (entries, rest) = entries.as_chunks();
    demand(rest.is_empty() && entries_right(&read, entries), 22)?;
    let mut states = read.states;
    for entry in entries {
        states[usize::from(entry[0])] += last_count(entry);
    }
    demand(states.iter().all(|&states| states <= STATES), 23)?;
    demand(result.len() >= design.len(), 12)?;
    let result = &mut result[..design.len()];
    result.copy_from_slice(design);
    let mut ends = read.states;
    for entry in entries {
        let side = usize::from(entry[0]);
        let block = &mut result[BLOCK * side..BLOCK * (side + 1)];
        put_counts(block, entry, ends[side]);
        ends[side] += last_count(entry);
    }
    for side in 0..SIDES {
        if entries.iter().any(|entry| usize::from(entry[0]) == side) {
            let block = &mut result[BLOCK * side..BLOCK * (side + 1)];
            block[1] = ends[side] as u8;
            let sum = check(block);
            block[510..].copy_from_slice(&sum.to_le_bytes());
        }
    }
    Ok(())
}

/// The highest count that has a state: the greatest, or the least where there is no greatest.
#[inline]
fn last_count(entry: &Entry) -> usize {
    usize::from(if entry[3] == NO_GREATEST { entry[2] } else { entry[3] })
}

/// Whether each entry names a state that may be chosen, none twice, and counts in their range.
fn entries_right(design: &Design, entries: &[Entry]) -> bool {
    // The states named of each side, as bits.
    let mut named = [0_u16; SIDES];
    entries.iter().all(|&[side, own, least, greatest]| {
        let (side, own) = (usize::from(side), usize::from(own));
        if side >= SIDES || own >= design.states[side] || named[side] >> own & 1 == 1 {
            return false;
        }
        named[side] |= 1 << own;
        let counted = greatest == NO_GREATEST || (greatest <= MOST && least <= greatest);
        counted && least <= MOST && waits(&design.sides[side][own], own)
    })
}

/// Whether a state is delayed and its tick leads back to it.
#[inline]
fn waits(state: &State, own: usize) -> bool {
    let tick = usize::from(state.events[0] < 0);
    state.kind == DELAYED && usize::from(state.targets[tick]) == own
}

/// Writes the states that count for one entry into the block of a side, which has `end` states
/// by now.
fn put_counts(block: &mut [u8], entry: &Entry, end: usize) {
    let (own, least, last) = (usize::from(entry[1]), usize::from(entry[2]), last_count(entry));
    let at = |number: usize| HEADER + RECORD * number;
    let mut old = [0; RECORD];
    old.copy_from_slice(&block[at(own)..at(own + 1)]);
    let (tick, send) = if old[FIRST] == 0 { (FIRST, SECOND) } else { (SECOND, FIRST) };
    for count in 0..=last {
        let number = if count == 0 { own } else { end + count - 1 };
        let mut record = old;
        record[tick + 1] = if count < last { end + count } else { number } as u8;
        if count < least {
            leave(&mut record, tick);
        } else if count == last && entry[3] != NO_GREATEST {
            leave(&mut record, send);
        }
        block[at(number)..at(number + 1)].copy_from_slice(&record);
    }
}

/// Leaves a record one of its two transitions.
#[inline]
fn leave(record: &mut [u8; RECORD], place: usize) {
    record.copy_within(place..place + 2, FIRST);
    record[SECOND..SECOND + 2].fill(0);
    record[2] = 1;
}
