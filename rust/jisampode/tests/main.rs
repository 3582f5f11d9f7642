//! The tests of the wrapper, through its public calls.

mod budgets;
mod case;
mod dense;
mod jobs;
mod lengths;
mod listing;
mod nan;
mod owning;
mod progress;
mod refusals;
mod sizes;
mod stack;
mod walks;
mod wiping;
