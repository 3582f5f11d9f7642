//! What a run has done.

use std::fmt::{self, Display, Formatter};

#[derive(Default)]
pub struct Tally {
    pub lists: u64,
    /// Accepted opens, steps and drops.
    pub accepted: [u64; 3],
    /// Refused calls by their cause.
    pub refused: [u64; 9],
    /// Evaluations that the ledger counts.
    pub evaluations: u64,
    /// Jobs that the ledger counts as finished after a call.
    pub finished: u64,
    /// Forged records, by the answer of the step: accepted, 7, 8.
    pub forged: [u64; 3],
    /// Opens and drops with a forged record.
    pub forged_others: u64,
    pub elements: u64,
    /// The bytes of those elements.
    pub bytes: u64,
    /// The most children, values of the store and evaluations of one job.
    pub largest: [u64; 3],
}

impl Tally {
    /// A job of this size after a call.
    pub fn job(&mut self, sizes: [u64; 3]) {
        for (largest, size) in self.largest.iter_mut().zip(sizes) {
            *largest = size.max(*largest);
        }
    }

    pub fn calls(&self) -> u64 {
        self.accepted.iter().chain(&self.refused).sum()
    }
}

impl Display for Tally {
    fn fmt(&self, to: &mut Formatter) -> fmt::Result {
        let [opens, steps, drops] = self.accepted;
        let [accepted, no_job, impossible] = self.forged;
        let refused: Vec<String> = (1..=7)
            .map(|cause| format!("{} by {cause}", self.refused[cause]))
            .collect();
        writeln!(
            to,
            "lists: accepted {opens} opens, {steps} steps, {drops} drops; refused {}",
            refused.join(", ")
        )?;
        let [children, values, evaluations] = self.largest;
        writeln!(
            to,
            "lists: {} evaluations, {} calls after which a job was finished; jobs of up to \
             {children} children, {values} values of the store, {evaluations} evaluations",
            self.evaluations, self.finished
        )?;
        writeln!(
            to,
            "lists: {} forged records: steps accepted {accepted}, refused {no_job} by 7, \
             {impossible} by 8; {} opens and drops",
            accepted + no_job + impossible + self.forged_others,
            self.forged_others
        )?;
        write!(
            to,
            "lists: {} lists, {} calls, {} elements of {} bytes compared by their bits, 0 differences",
            self.lists,
            self.calls(),
            self.elements,
            self.bytes
        )
    }
}
