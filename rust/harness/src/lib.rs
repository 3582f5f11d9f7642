//! The engine's C interface between guard bytes, and lists of calls on it.

pub mod answers;
pub mod arrays;
pub mod dense;
mod forging;
pub mod guarded;
pub mod host;
pub mod lists;
mod poison;
pub mod sample;
mod tally;
