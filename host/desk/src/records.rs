//! The records of a converter, with the events as the sides have them.

use gorzhani::RECORD;

use crate::design::SIDES;

/// The places of a record for transitions.
pub const PLACES: usize = 8;

/// A record: the states that it names, and its transitions.
#[derive(Clone, Debug, Default, PartialEq, Eq)]
pub struct Record {
    /// A state of each side, 0 for a third side that the design hasn't.
    pub states: [u8; SIDES],
    /// The transitions, in their order.
    pub links: Vec<Link>,
}

/// A transition of a record.
#[derive(Clone, Copy, Debug, PartialEq, Eq)]
pub struct Link {
    /// What each side does, as its own table has it.
    pub events: [i8; SIDES],
    /// The next record.
    pub next: u16,
}

impl Link {
    /// What each side shows when it does so: the event that it sends, or 0.
    pub fn shows(&self) -> [i8; SIDES] {
        self.events.map(|event| event.min(0))
    }
}

/// The bytes of a converter in memory. A record has at most eight transitions.
pub fn to_bytes(records: &[Record]) -> Vec<u8> {
    let mut bytes = Vec::with_capacity(RECORD * records.len());
    for record in records {
        let end = bytes.len() + RECORD;
        bytes.extend(record.states);
        bytes.push(record.links.len() as u8);
        for link in &record.links {
            bytes.extend(link.events.map(|event| event.wrapping_neg() as u8));
            bytes.push(0);
            bytes.extend(link.next.to_le_bytes());
        }
        bytes.resize(end, 0);
    }
    bytes
}

/// The records of a converter in memory, none of which has a count over eight.
pub fn from_bytes(bytes: &[u8]) -> Vec<Record> {
    let record = |bytes: &[u8]| Record {
        states: [bytes[0], bytes[1], bytes[2]],
        links: bytes[4..]
            .chunks_exact(6)
            .take(usize::from(bytes[3]))
            .map(|place| Link {
                events: [place[0], place[1], place[2]].map(|event| (event as i8).wrapping_neg()),
                next: u16::from_le_bytes([place[4], place[5]]),
            })
            .collect(),
    };
    bytes.chunks_exact(RECORD).map(record).collect()
}
