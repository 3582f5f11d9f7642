//! The field engine of a print-preparation station.
//!
//! A client's job is an implicit model: a short list of shapes and operations
//! that gives a value at every point of space. The engine samples the model on a
//! grid, in memory that the station lends it, and keeps a sparse field: leaves
//! with values near the surface, single numbers elsewhere. A job makes its
//! evaluations in steps, each with a budget.
//!
//! ```
//! use jisampode::{Bounds, Child, JobBuilder, Model, OwnedMemory, Refusal};
//!
//! fn main() -> Result<(), Refusal> {
//!     let mut model = Model::new();
//!     model.plane([1.0, 0.0, 0.0], 0.0)?;
//!     let builder = JobBuilder::new()
//!         .bounds(Bounds::new([0.0; 3], [2.0; 3]))
//!         .cell(1.0)
//!         .blocks(2, 2)
//!         .band(-0.25, 0.0)
//!         .model(model);
//!
//!     // A stranger's job gets no more than the station has.
//!     let mut memory = OwnedMemory::for_job_within(&builder, 64 << 20)?;
//!     let mut job = builder.open(memory.lend())?;
//!     while !job.is_finished() {
//!         let progress = job.step(10)?;
//!         println!("{:3.0} %", 100.0 * progress.fraction());
//!     }
//!
//!     assert_eq!(job.counts().evaluations, 59);
//!     assert_eq!(job.field().child(0, 1), Some(Child::Constant(1.5)));
//!     assert_eq!(job.field().leaves().count(), 4);
//!     Ok(())
//! }
//! ```
//!
//! # What the engine keeps to, and what this crate adds
//!
//! The engine's code is proved against contracts before the archive that this
//! crate links is built: what each call returns, and what every lent element
//! holds afterwards. An accepted open zeroes all that it is lent, so that no value
//! of an earlier job is left.
//!
//! This crate adds Rust's rules. While a [`Job`] lives, nothing else can read or
//! write its memory or its record. When it goes out of scope, finished or not, its
//! memory is zeroed. [`OwnedMemory`] is zeroed when it is dropped.
//!
//! # Without the standard library
//!
//! With the feature `std` off the crate needs `core` alone: jobs in lent memory,
//! dense fields and listings into lent bytes are there; [`OwnedMemory`], jobs that
//! own their memory, [`list_job`] and `Error` are not.
//!
//! # Refusals
//!
//! The engine judges what it is given. A call that can be refused returns a
//! [`Refusal`], which has the number of its cause. A refused call changes nothing
//! that it was lent.
//!
//! # NaN
//!
//! A NaN that a call computes has the bits 7ff8000000000000. Constants, min and
//! max copy their operand, and a copied NaN keeps its bits.

#![cfg_attr(not(feature = "std"), no_std)]
#![deny(unsafe_code)]
#![warn(missing_docs, missing_debug_implementations)]

mod bounds;
mod builder;
mod dense;
#[allow(unsafe_code)]
mod engine;
mod field;
mod job;
mod listing;
mod memory;
mod model;
mod progress;
mod record;
mod refusal;
pub mod sys;
mod walks;

/// The version of the engine's archive: major × 10,000 + minor × 100 + patch.
///
/// ```
/// assert_eq!(jisampode::version(), jisampode::sys::VERSION);
/// ```
#[must_use]
pub fn version() -> u32 {
    engine::version()
}

pub use bounds::Bounds;
pub use builder::{JobBuilder, Refused};
pub use dense::{point_count, DenseField, Dimensions};
pub use field::{Active, Child, Field, Leaves};
pub use job::Job;
#[cfg(feature = "std")]
pub use job::OwnedJob;
#[cfg(feature = "std")]
pub use listing::list_job;
pub use listing::{list_job_into, listed_refusal, LISTING_BYTES};
#[cfg(feature = "std")]
pub use memory::OwnedMemory;
pub use memory::{Lengths, Memory, Slices, View};
pub use model::{Model, Part, MOST_PARTS};
pub use progress::Progress;
pub use record::{Counts, Cursor};
pub use refusal::Refusal;
pub use walks::{Cells, Octets, Points};
