//! The lists of opens, steps and drops on a sparse field's job.
//!
//! The ledger answers lists that nobody interferes with, and the model of the
//! records is held to it. That model alone answers where a record is forged or
//! an element set between two calls.

mod forged;
mod jobs;
pub mod original;
mod random_lists;
mod script;

pub use cases::inputs;
use script::Script;

pub fn lists() -> Script {
    let mut script = Script::default();
    jobs::lists(&mut script);
    forged::lists(&mut script);
    random_lists::lists(&mut script);
    script
}
