//! Converter records, and converter files as blocks.

use std::array::from_fn;
use std::ops::Range;

use crate::design::{PLACES, SIDES, STATES};
use crate::{blank, check, demand, in_range, word};

/// A record has the name of a state of each side, the count of its transitions
/// and their places, these at an even place.
const COUNT_AT: usize = SIDES;
const PLACES_AT: usize = (COUNT_AT + 1).next_multiple_of(2);
/// What is between them is zero.
const GAP: Range<usize> = COUNT_AT + 1..PLACES_AT;

/// A transition has an event for each side and the number of the next record,
/// this at an even place.
const NEXT_AT: usize = SIDES.next_multiple_of(2);
const TRANSITION: usize = NEXT_AT + 2;
/// What is between them is zero.
const TRANSITION_GAP: Range<usize> = SIDES..NEXT_AT;

/// Bytes of a record.
pub const RECORD: usize = PLACES_AT + TRANSITION * PLACES;
/// The most records of a converter.
const MOST_RECORDS: usize = 65_536;

/// The kind of a block of records, the most of its records, and the most blocks.
const KIND: u8 = 5;
const BLOCK_RECORDS: usize = (510 - 4) / RECORD;
const MOST_BLOCKS: usize = MOST_RECORDS.div_ceil(BLOCK_RECORDS);

/// The states that a record names.
#[inline]
pub fn names_of(record: &[u8]) -> [u8; SIDES] {
    from_fn(|side| record[side])
}

/// The transitions of a record.
#[inline]
pub fn transitions(record: &[u8]) -> &[[u8; TRANSITION]] {
    let (places, _) = record[PLACES_AT..RECORD].as_chunks();
    &places[..usize::from(record[COUNT_AT])]
}

/// The side events of a transition: the negations of its own.
#[inline]
pub fn side_events(transition: &[u8; TRANSITION]) -> [i8; SIDES] {
    from_fn(|side| -(transition[side] as i8))
}

/// The number of the record to which a transition leads.
#[inline]
pub fn next_of(transition: &[u8; TRANSITION]) -> u16 {
    word(transition, NEXT_AT)
}

/// Makes the bytes a record that names these states and has no transition yet.
#[inline]
pub fn begin(record: &mut [u8], names: [u8; SIDES]) {
    record.fill(0);
    record[..SIDES].copy_from_slice(&names);
}

/// Adds a transition for these side events, to the record with number `next`.
#[inline]
pub fn add(record: &mut [u8], side_events: [i8; SIDES], next: u16) {
    let at = PLACES_AT + TRANSITION * usize::from(record[COUNT_AT]);
    let transition = &mut record[at..at + TRANSITION];
    transition[..SIDES].copy_from_slice(&side_events.map(|event| -event as u8));
    transition[NEXT_AT..].copy_from_slice(&next.to_le_bytes());
    record[COUNT_AT] += 1;
}

/// The number of records of a converter in memory, or 10.
#[inline]
pub fn count(converter: &[u8]) -> Result<usize, u8> {
    let records = converter.len() / RECORD;
    demand((1..=MOST_RECORDS).contains(&records) && records * RECORD == converter.len(), 10)?;
    Ok(records)
}

/// Whether a record is right in itself, in a converter of so many records.
#[inline]
pub fn record_right(record: &[u8], records: usize) -> bool {
    let count = usize::from(record[COUNT_AT]);
    let named = names_of(record).iter().all(|&name| usize::from(name) < STATES);
    if !named || !(1..=PLACES).contains(&count) || !blank(&record[GAP]) {
        return false;
    }
    let (used, unused) = record[PLACES_AT..RECORD].split_at(TRANSITION * count);
    let mut seen = [[0; SIDES]; PLACES];
    for (at, transition) in used.as_chunks().0.iter().enumerate() {
        let events = from_fn(|side| transition[side]);
        let right =
            events.iter().all(|&event| in_range(event)) && blank(&transition[TRANSITION_GAP]);
        if !right || usize::from(next_of(transition)) >= records {
            return false;
        }
        if seen[..at].contains(&events) {
            return false;
        }
        seen[at] = events;
    }
    blank(unused)
}

/// The number of records of a converter whose records are all right, or 10 or 11.
pub fn counted_right(converter: &[u8]) -> Result<usize, u8> {
    let records = count(converter)?;
    demand(converter.chunks_exact(RECORD).all(|record| record_right(record, records)), 11)?;
    Ok(records)
}

/// Writes a converter's blocks and answers how many, or 10 to 12.
pub fn write(converter: &[u8], lent: &mut [u8]) -> Result<usize, u8> {
    let records = counted_right(converter)?;
    let blocks = records.div_ceil(BLOCK_RECORDS);
    demand(lent.len() >= 512 * blocks, 12)?;
    let parts = converter.chunks(BLOCK_RECORDS * RECORD).zip(lent.chunks_exact_mut(512));
    for (number, (part, block)) in parts.enumerate() {
        block[0] = KIND;
        block[1] = (part.len() / RECORD) as u8;
        block[2..4].copy_from_slice(&((BLOCK_RECORDS * number) as u16).to_le_bytes());
        block[4..4 + part.len()].copy_from_slice(part);
        block[4 + part.len()..].fill(0);
        let sum = check(block);
        block[510..].copy_from_slice(&sum.to_le_bytes());
    }
    Ok(blocks)
}

/// Reads a converter file's records and answers how many, or 1 to 4, 8, 11 or 12.
pub fn read(file: &[u8], lent: &mut [u8]) -> Result<usize, u8> {
    let count = file.len() / 512;
    demand((1..=MOST_BLOCKS).contains(&count) && 512 * count == file.len(), 1)?;
    let blocks = || file.chunks_exact(512);
    demand(blocks().all(|block| check(block) == word(block, 510)), 2)?;
    let headed = |(number, block): (usize, &[u8])| {
        block[0] == KIND && usize::from(word(block, 2)) == BLOCK_RECORDS * number
    };
    demand(blocks().enumerate().all(headed), 3)?;
    let last = usize::from(file[512 * (count - 1) + 1]);
    let records = BLOCK_RECORDS * (count - 1) + last;
    let full = blocks().take(count - 1).all(|block| usize::from(block[1]) == BLOCK_RECORDS);
    demand(full && (1..=BLOCK_RECORDS).contains(&last) && records <= MOST_RECORDS, 4)?;
    let tail = |block: &[u8]| blank(&block[4 + RECORD * usize::from(block[1])..510]);
    demand(blocks().all(tail), 8)?;
    let part = |block: &'_ [u8]| 4 + RECORD * usize::from(block[1]);
    let right = |block: &[u8]| {
        block[4..part(block)].chunks_exact(RECORD).all(|record| record_right(record, records))
    };
    demand(blocks().all(right), 11)?;
    demand(lent.len() >= RECORD * records, 12)?;
    for (block, place) in blocks().zip(lent.chunks_mut(BLOCK_RECORDS * RECORD)) {
        let from = &block[4..part(block)];
        place[..from.len()].copy_from_slice(from);
    }
    Ok(records)
}
