//! Converter records, and converters as they stand in memory.

use std::array::from_fn;
use std::collections::BTreeSet;

use super::{
    blank, in_range, word, FIRST_PLACE, MOST_RECORDS, MOST_STATES, NEXT_AT, PLACES, PLACE_BYTES,
    RECORD_BYTES, SIDES,
};
use crate::refusal::{self, demand};

/// One transition of a converter record.
#[derive(Clone, Copy, Debug, PartialEq, Eq, PartialOrd, Ord)]
pub struct Link {
    /// The converter's events: the duals of the sides' events.
    pub events: [i8; SIDES],
    /// The next record.
    pub next: u16,
}

impl Link {
    /// The events of the sides, of which the converter's are the duals.
    pub fn side_events(&self) -> [i8; SIDES] {
        self.events.map(i8::wrapping_neg)
    }

    /// Writes the transition to a place of zeros.
    fn put(&self, place: &mut [u8]) {
        for (byte, event) in place.iter_mut().zip(self.events) {
            *byte = event as u8;
        }
        place[NEXT_AT..].copy_from_slice(&self.next.to_le_bytes());
    }
}

/// One converter record.
#[derive(Clone, Debug, PartialEq, Eq, PartialOrd, Ord)]
pub struct Record {
    /// The states that it names, one of each side.
    pub states: [u8; SIDES],
    /// Its used transition places, in order.
    pub links: Vec<Link>,
}

impl Record {
    /// The record as bytes. Nothing is checked but that the places suffice.
    pub fn to_bytes(&self) -> [u8; RECORD_BYTES] {
        assert!(self.links.len() <= PLACES, "a record has eight transition places");
        let mut bytes = [0; RECORD_BYTES];
        bytes[..SIDES].copy_from_slice(&self.states);
        bytes[SIDES] = self.links.len() as u8;
        for (place, link) in bytes[FIRST_PLACE..].chunks_mut(PLACE_BYTES).zip(&self.links) {
            link.put(place);
        }
        bytes
    }
}

/// A converter as it stands in memory.
pub fn converter_bytes(records: &[Record]) -> Vec<u8> {
    records.iter().flat_map(Record::to_bytes).collect()
}

/// The number of records of a converter in memory, or 10.
pub fn record_count(bytes: &[u8]) -> Result<usize, u8> {
    let records = bytes.len() / RECORD_BYTES;
    let right = bytes.len().is_multiple_of(RECORD_BYTES) && (1..=MOST_RECORDS).contains(&records);
    demand(right, refusal::CONVERTER_LENGTH)?;
    Ok(records)
}

/// Reads a converter in memory, or declines with 10 or 11.
pub fn read_converter_memory(bytes: &[u8]) -> Result<Vec<Record>, u8> {
    let records = record_count(bytes)?;
    bytes.chunks(RECORD_BYTES).map(|record| read_record(record, records)).collect()
}

/// Reads one record of a converter that has `records` records, or declines with 11.
pub fn read_record(bytes: &[u8], records: usize) -> Result<Record, u8> {
    let count = usize::from(bytes[SIDES]);
    demand((1..=PLACES).contains(&count), refusal::RECORD)?;
    let (used, unused) = bytes[FIRST_PLACE..RECORD_BYTES].split_at(PLACE_BYTES * count);
    let used = used.chunks(PLACE_BYTES);
    let zeros = used.clone().all(|place| blank(&place[SIDES..NEXT_AT]));
    demand(zeros && blank(unused), refusal::RECORD)?;

    let states: [u8; SIDES] = from_fn(|side| bytes[side]);
    demand(states.iter().all(|&state| usize::from(state) < MOST_STATES), refusal::RECORD)?;
    let links: Vec<Link> = used.map(read_link).collect();
    let events: BTreeSet<[i8; SIDES]> = links.iter().map(|link| link.events).collect();
    demand(events.len() == count, refusal::RECORD)?;
    demand(events.iter().flatten().all(|&event| in_range(event)), refusal::RECORD)?;
    demand(links.iter().all(|link| usize::from(link.next) < records), refusal::RECORD)?;
    Ok(Record { states, links })
}

/// The transition that stands in a place.
fn read_link(place: &[u8]) -> Link {
    Link { events: from_fn(|side| place[side] as i8), next: word(place, NEXT_AT) }
}
