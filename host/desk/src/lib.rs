//! The program that licensees use at their desks, over the proved library: designs and converters on pages of Markdown, and answers in words. docs/DESK.md says what it reads and writes.
//!
//! What is said of a design or of a converter is the answer of a call ([`library`]); this crate finds names, places, paths and words.
//!
//! - [`design`], [`formulas`], [`records`]: a design with its names, what rules say, a converter.
//! - [`library`]: the calls, each lent the memory that it asks for.
//! - [`page`], [`mistakes`], [`input`]: pages and files, and what is wrong with them.
//! - [`print`], [`verdict`], [`draw`], [`columns`]: what is written.
//! - [`runs`], [`play`]: runs, tick by tick, done by the library's tick.
//! - [`unmatched`], [`explain`]: why the judge says no.
//! - [`why`], [`sizes`]: why there is no converter, and why a design is too large.
//! - [`notes`]: what is legal and may surprise.
//! - [`call`], [`verbs`]: the command line, and what each verb does.

#![forbid(unsafe_code)]

pub mod call;
pub mod columns;
pub mod design;
pub mod draw;
pub mod explain;
pub mod formulas;
pub mod input;
pub mod library;
pub mod mistakes;
pub mod notes;
pub mod page;
pub mod play;
pub mod print;
pub mod records;
pub mod runs;
pub mod sizes;
pub mod unmatched;
pub mod verbs;
pub mod verdict;
pub mod why;
