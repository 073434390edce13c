//! The X-MIND K drive of documents 01 and 02, written a second time, in plain Rust and from the
//! documents alone. A comment that begins with 01 or 02 quotes the sentence of that document that
//! the code states.
//!
//! From the record outward: `memory` (the record and its soundness), `instruction` and `frequency`
//! (what a cell holds), `fields` (words and numbers as text), `format` (cells as text), `command`
//! (what a string asks for), `program` (starting, milliseconds, taking a cell), `stops` (inputs
//! words, the two stops), `board` (reports and orders), `wait`, `serial` (strings and answers),
//! `reasons` (why a string is not taken, in words), `reading` (the full reading), `image` (the
//! memory image, written and read), `totals` (steps and milliseconds before a start). Beside the
//! drive: `usage` (the map of used cells). Around it: `lists` (many calls in one) and `frames` (the
//! engine as a service), `console`, `replay` with its `raw` writes, `explain` (scripts with
//! reasons), `generate` (random scripts and frames) and `bench`.

pub mod bench;
pub mod board;
pub mod command;
pub mod console;
pub mod explain;
pub mod fields;
pub mod format;
pub mod frames;
pub mod frequency;
pub mod generate;
pub mod image;
pub mod instruction;
pub mod lists;
pub mod memory;
pub mod program;
pub mod raw;
pub mod reading;
pub mod reasons;
pub mod replay;
pub mod serial;
pub mod stops;
pub mod totals;
pub mod usage;
pub mod wait;
