//! One tick.

use crate::converter::{count, next_of, record_right, side_events, transitions, RECORD};
use crate::demand;
use crate::design::SIDES;

/// The record that a runner stands at, and the events last delivered.
#[derive(Clone, Copy, Debug, Default, PartialEq, Eq)]
pub struct Runner {
    /// The number of the record.
    pub record: u16,
    /// The events last delivered to the sides.
    pub delivered: [i8; SIDES],
}

/// Done, or 10, 11 or 17 with the runner unchanged.
pub fn tick(converter: &[u8], runner: &mut Runner, shown: [i8; SIDES]) -> Result<(), u8> {
    let records = count(converter)?;
    let at = usize::from(runner.record);
    demand(at < records, 17)?;
    let record = &converter[RECORD * at..RECORD * (at + 1)];
    demand(record_right(record, records), 11)?;
    demand(shown.iter().all(|event| (-63..=0).contains(event)), 17)?;
    // 0 fits any event that isn't sent.
    let fits = |shown: i8, event: i8| shown == event || (shown == 0 && event > 0);
    for transition in transitions(record) {
        let events = side_events(transition);
        if (0..SIDES).all(|side| fits(shown[side], events[side])) {
            *runner = Runner { record: next_of(transition), delivered: events };
            return Ok(());
        }
    }
    Err(17)
}
