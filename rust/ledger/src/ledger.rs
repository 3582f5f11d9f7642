//! The ledger of a list of calls.

use crate::grid;
use crate::memory::{Answer, Call, Counts, Lengths, Memory};
use crate::schedule::Schedule;

/// A job's input with its schedule, and how many evaluations were made.
struct Job {
    schedule: Schedule,
    k: u64,
}

/// The lent elements, and the job where there is one (rule L2).
pub struct Ledger {
    lengths: Lengths,
    /// The elements as they are while there is no job.
    idle: Memory,
    job: Option<Job>,
}

impl Ledger {
    /// A list begins with memory of any contents and no job.
    pub fn new(first: Memory) -> Ledger {
        Ledger {
            lengths: first.lengths(),
            idle: first,
            job: None,
        }
    }

    pub fn call(&mut self, call: &Call) -> Answer {
        match call {
            Call::Open(input) => {
                if let Some(cause) = grid::cause(input, self.lengths) {
                    return Answer::Refused(cause);
                }
                let schedule = Schedule::new(input);
                self.job = Some(Job { schedule, k: 0 });
            }
            Call::Step(budget) => {
                let Some(job) = &mut self.job else {
                    return Answer::Refused(7);
                };
                job.k += (*budget).min(job.schedule.total() - job.k);
            }
            Call::Drop => {
                self.job = None;
                self.idle = Memory::zero(self.lengths);
            }
        }
        Answer::Accepted
    }

    /// What the five slices hold.
    pub fn elements(&self) -> Memory {
        match &self.job {
            Some(job) => job.schedule.memory(self.lengths, job.k),
            None => self.idle.clone(),
        }
    }

    /// The counts of the job, if there is one.
    pub fn counts(&self) -> Option<Counts> {
        self.job.as_ref().map(|job| job.schedule.counts(job.k))
    }

    /// Whether the job is finished, if there is one.
    pub fn finished(&self) -> Option<bool> {
        self.job.as_ref().map(|job| job.k == job.schedule.total())
    }
}
