//! Designs, converter records and converter files as bytes.
//!
//! A reader tries each refusal number over the whole input before it tries the
//! next: every pass below looks at all blocks, all states or all records.

mod blocks;
mod design;
mod record;

pub use blocks::{read_blocks, write_blocks};
pub use design::{
    idle_side, positions, read_design, rule_blocks, Design, Formula, State, StateKind, Transition,
    THIRD_KIND,
};
pub use record::{converter_bytes, read_converter_memory, read_record, record_count, Link, Record};

/// Bytes in a block.
pub const BLOCK_BYTES: usize = 512;
/// Bytes of a block that its check adds up.
pub const CHECKED_BYTES: usize = 510;
/// Where a block's records begin.
pub const HEADER_BYTES: usize = 4;
/// The sides of a design: the kernel, the host, then the third side.
pub const SIDES: usize = 3;
/// Bytes in a design that has a block for each side, one for the formulas and one for
/// the rules.
pub const FIVE_BLOCKS: usize = 5 * BLOCK_BYTES;
/// Bytes in a design that has no block for the third side.
pub const FOUR_BLOCKS: usize = 4 * BLOCK_BYTES;
/// Bytes in the last two blocks of a design: that of the formulas and that of the rules.
pub const RULE_BLOCKS: usize = 2 * BLOCK_BYTES;
/// Bytes in a state record.
pub const STATE_BYTES: usize = 20;
/// Bytes in a formula record.
pub const FORMULA_BYTES: usize = 4;
/// Transition places in a state and in a converter record.
pub const PLACES: usize = 8;
/// Where the transition places of a converter record begin: before them stand the states
/// that it names, then the count.
pub const FIRST_PLACE: usize = SIDES + 1;
/// Where the next record stands in a transition place of a converter record: before it
/// stand the events of the sides, then a zero.
pub const NEXT_AT: usize = SIDES + 1;
/// Bytes in a transition place of a converter record.
pub const PLACE_BYTES: usize = NEXT_AT + 2;
/// Bytes in a converter record.
pub const RECORD_BYTES: usize = FIRST_PLACE + PLACES * PLACE_BYTES;
/// The most states that a side has.
pub const MOST_STATES: usize = 16;
/// The labels of a side: the bits of its label words.
pub const SIDE_LABELS: usize = 16;
/// The propositions that formulas may name: every label of every side.
pub const PROPOSITIONS: usize = SIDES * SIDE_LABELS;
/// The most formulas of a design.
pub const MOST_FORMULAS: usize = 64;
/// The most rules of a design.
pub const MOST_RULES: usize = 16;
/// The most records that a converter in memory or in a file has.
pub const MOST_RECORDS: usize = 65_536;
/// Records in every block of a converter file but perhaps the last: as many as it holds.
pub const BLOCK_RECORDS: usize = (CHECKED_BYTES - HEADER_BYTES) / RECORD_BYTES;
/// The most blocks that a converter file has.
pub const MOST_BLOCKS: usize = MOST_RECORDS.div_ceil(BLOCK_RECORDS);

/// The check of a block: its first 510 bytes added up, wrapping at 65,536.
pub fn check(block: &[u8]) -> u16 {
    block[..CHECKED_BYTES].iter().fold(0, |sum: u16, &byte| sum.wrapping_add(u16::from(byte)))
}

/// Writes the right check into every whole block of `bytes`.
pub fn seal(bytes: &mut [u8]) {
    for block in bytes.chunks_exact_mut(BLOCK_BYTES) {
        let sum = check(block);
        block[CHECKED_BYTES..].copy_from_slice(&sum.to_le_bytes());
    }
}

/// Whether the last two bytes of a block are its check.
fn sealed(block: &[u8]) -> bool {
    word(block, CHECKED_BYTES) == check(block)
}

/// The 16-bit number at `at`, low byte first.
fn word(bytes: &[u8], at: usize) -> u16 {
    u16::from_le_bytes([bytes[at], bytes[at + 1]])
}

/// Whether an event byte lies in the range of events.
fn in_range(event: i8) -> bool {
    (-63..=63).contains(&event)
}

/// Whether all bytes are zero.
fn blank(bytes: &[u8]) -> bool {
    bytes.iter().all(|&byte| byte == 0)
}

/// An empty block with its header, not yet sealed.
fn headed(kind: u8, count: usize, first: usize) -> [u8; BLOCK_BYTES] {
    let mut block = [0; BLOCK_BYTES];
    block[0] = kind;
    block[1] = u8::try_from(count).expect("a record count is one byte");
    let first = u16::try_from(first).expect("a first record is a 16-bit number");
    block[2..HEADER_BYTES].copy_from_slice(&first.to_le_bytes());
    block
}
