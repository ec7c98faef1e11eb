//! A second checker for converters between the tables of a kernel, a host and a third side.
//!
//! It answers the same questions as the proved library and is written from the
//! specification alone: plain parsing, explicit sets of states and of formulas,
//! and no numbering of positions. Where the two differ, one is wrong. What the
//! two have in common is told in README.md.
//!
//! - [`bytes`]: designs, converter records and converter files.
//! - [`joined`]: the sides moving together, whose label a proposition is, and what a
//!   converter may enable.
//! - [`ctl`]: the states in which each formula holds.
//! - [`judge`](mod@judge): is a converter matched, and does it keep the rules.
//! - [`waits`]: how long the rules that are untils wait.
//! - [`verdict`](mod@verdict): the first rule that fails, each rule along its own paths.
//! - [`search`](mod@search): is there a converter at all, and if so, one of them.
//! - [`none`]: is there no converter at all, by another method than the search.
//! - [`brute`]: every converter of up to three records, tried in turn.
//! - [`tick`](mod@tick): the running converter, the plain sides, the claim about runs.
//! - [`ranges`](mod@ranges): delayed states replaced by states that count their waits, and
//!   any such table against the old one with counted waits.
//! - [`rules`](mod@rules): rules as people type them, read in two ways, and what they mean as
//!   they were typed.
//! - [`page`]: designs as people write them at their desks, by name, with the places of the
//!   mistakes.
//! - [`generate`]: seeded random designs, converters, files, lists of ranges, texts and pages,
//!   sound and damaged.

#![forbid(unsafe_code)]

pub mod brute;
pub mod bytes;
pub mod ctl;
pub mod generate;
pub mod joined;
pub mod judge;
pub mod none;
pub mod page;
pub mod ranges;
pub mod refusal;
pub mod rules;
pub mod search;
pub mod tick;
pub mod verdict;
pub mod waits;

pub use judge::judge;
pub use ranges::ranges;
pub use rules::rules;
pub use search::search;
pub use tick::tick;
pub use verdict::verdict;
