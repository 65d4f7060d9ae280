//! Compares the library with the original Rust: inputs, calls and rules.
//! `compare` runs it; `bench` times both sides on the same inputs.

pub mod edited;
pub mod edits;
pub mod empty;
pub mod finding;
pub mod generate;
pub mod judge;
pub mod kinds;
pub mod labels;
pub mod latin9;
pub mod lent;
pub mod library;
pub mod payload;
pub mod repaired;
pub mod rng;
pub mod rules;
pub mod run;
pub mod surrogates;
pub mod tally;
