//! The calls of the library in plain Rust, proved by nobody: what the benchmark
//! measures the proved library against. All are written for speed, but for
//! [`same`], which searches by the library's own steps.
//!
//! - [`design`]: a design in flat arrays, read with every refusal.
//! - `joint`, `joints`: the sides joined, and joint states by number.
//! - [`converter`]: converter records, and converter files as blocks.
//! - `labels`: truth as one bit set over the records for each formula, and waits.
//! - [`judge`](mod@judge): the judge, and the verdict alone.
//! - [`search`](mod@search): the game over bit sets of owed formulas.
//! - [`same`]: the proved search's own computation, over the lent work.
//! - [`tick`](mod@tick): one tick.
//! - [`ranges`](mod@ranges): delayed states replaced by states that count their waits.
//! - [`rules`](mod@rules): typed rules, read in one pass.

#![forbid(unsafe_code)]

pub mod converter;
pub mod design;
mod joint;
mod joints;
pub mod judge;
mod labels;
pub mod ranges;
pub mod rules;
pub mod same;
pub mod search;
pub mod tick;

pub use converter::{read, write};
pub use judge::{judge, verdict};
pub use ranges::ranges;
pub use rules::rules;
pub use search::search;
pub use tick::{tick, Runner};

/// Declines with `number` unless `holds`.
#[inline]
fn demand(holds: bool, number: u8) -> Result<(), u8> {
    if holds {
        Ok(())
    } else {
        Err(number)
    }
}

/// The 16-bit number at `at`, low byte first.
#[inline]
fn word(bytes: &[u8], at: usize) -> u16 {
    u16::from_le_bytes([bytes[at], bytes[at + 1]])
}

/// The check of a block: bytes 0 to 509 added up, wrapping at 65,536.
#[inline]
fn check(block: &[u8]) -> u16 {
    block[..510].iter().fold(0, |sum: u16, &byte| sum.wrapping_add(u16::from(byte)))
}

/// Whether all bytes are zero.
#[inline]
fn blank(bytes: &[u8]) -> bool {
    bytes.iter().fold(0, |all, byte| all | byte) == 0
}

/// Whether an event byte is from -63 to 63.
#[inline]
fn in_range(event: u8) -> bool {
    (event as i8).wrapping_add(63) as u8 <= 126
}
