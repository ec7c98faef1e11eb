//! The numbers with which a call declines.

/// A design or a converter file has a wrong length.
pub const LENGTH: u8 = 1;
/// A block's check is wrong.
pub const CHECK: u8 = 2;
/// A block's kind or first record is wrong.
pub const HEADER: u8 = 3;
/// A block's record count is outside its limits, or a file has too many records.
pub const COUNT: u8 = 4;
/// A state's transition count, events or targets are wrong.
pub const TRANSITIONS: u8 = 5;
/// A state is neither input, output-only nor delayed.
pub const STATE_KIND: u8 = 6;
/// A formula or a rule is wrong.
pub const FORMULA: u8 = 7;
/// An unused byte outside converter records isn't zero.
pub const UNUSED: u8 = 8;
/// There are too many positions to search.
pub const POSITIONS: u8 = 9;
/// A converter in memory has a wrong length.
pub const CONVERTER_LENGTH: u8 = 10;
/// A converter record is wrong in itself.
pub const RECORD: u8 = 11;
/// The lent result is too short.
pub const RESULT: u8 = 12;
/// The lent work is too short.
pub const WORK: u8 = 13;
/// The converter isn't matched to the sides.
pub const UNMATCHED: u8 = 14;
/// Some rule doesn't hold.
pub const RULE: u8 = 15;
/// No converter exists.
pub const NONE: u8 = 16;
/// The tick has no transition to take.
pub const TICK: u8 = 17;
/// A text isn't of the grammar of rules, or is too deep.
pub const TEXT: u8 = 19;
/// A typed rule says "some path", or denies what is temporal.
pub const SOME_PATH: u8 = 20;
/// A text makes too many formulas or too many rules.
pub const TOO_MANY_FORMULAS: u8 = 21;
/// A list of ranges is wrong.
pub const RANGES: u8 = 22;
/// A side has too many states after replacement.
pub const TOO_MANY_STATES: u8 = 23;

/// Declines with `number` unless `holds`.
pub(crate) fn demand(holds: bool, number: u8) -> Result<(), u8> {
    if holds {
        Ok(())
    } else {
        Err(number)
    }
}
