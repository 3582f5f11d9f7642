//! The rules of a sparse field's jobs, plainly and slowly.
//!
//! `Ledger` says what a list of opens, steps and drops leaves in five lent
//! slices. It reads the calls, the slices' lengths and their first contents,
//! and nothing of any engine. `record` is a model of the records that calls
//! hand on, for forged records too.

pub mod floats;
pub mod grid;
pub mod input;
mod ledger;
pub mod memory;
pub mod record;
pub mod schedule;

#[cfg(test)]
mod tests;

pub use input::{Input, Part};
pub use ledger::Ledger;
pub use memory::{Answer, Call, Counts, Lengths, Memory};
