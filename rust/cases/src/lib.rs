//! Inputs of jobs and calls on dense fields, chosen by a seed. The lists of
//! stored cases, the list harness and the differential harness use them.

pub mod bits;
pub mod dense;
pub mod dense_rules;
pub mod digest;
pub mod inputs;
pub mod jobs;
pub mod random;
