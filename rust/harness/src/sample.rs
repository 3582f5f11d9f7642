//! The digests of the first jobs and dense cases, from the C interface alone.

use crate::answers::{self, one_nan};
use cases::digest::{Digest, SAMPLE, SEED};
use cases::{dense, jobs};

/// Holds the digests to those that were stored when the answers were compared
/// with the original.
pub fn replay() -> Result<String, String> {
    let mut of_jobs = Digest::default();
    let mut of_dense = Digest::default();
    let mut numbers = 0;
    for number in 0..SAMPLE {
        let job = answers::job(&jobs::numbered(SEED, number))
            .map_err(|what| format!("job {number} of seed {SEED}: {what}"))?;
        let dense = answers::dense(&dense::numbered(SEED, number), one_nan)
            .map_err(|what| format!("dense case {number} of seed {SEED}: {what}"))?;
        of_jobs.add(&job);
        of_dense.add(&dense);
        numbers += job.len() + dense.len();
    }
    of_jobs.holds("jobs")?;
    of_dense.holds("dense")?;
    Ok(format!(
        "sample: {SAMPLE} jobs and {SAMPLE} dense cases, {numbers} numbers, both digests as stored"
    ))
}
