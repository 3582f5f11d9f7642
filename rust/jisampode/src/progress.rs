//! How far a job has come.

use crate::record::{Counts, Record};

/// How far a job has come: evaluations so far, and the most that it can make.
///
/// The most is known from the start: every needed corner, and every point of every
/// active child. A child that becomes a constant has no points to evaluate, so a
/// job may finish with fewer.
///
/// ```
/// use jisampode::Progress;
///
/// let progress = Progress { done: 27, most: 91, finished: false };
/// assert_eq!(format!("{:.1} %", 100.0 * progress.fraction()), "29.7 %");
/// ```
#[derive(Debug, Clone, Copy, PartialEq, Eq)]
pub struct Progress {
    /// Evaluations so far.
    pub done: u64,
    /// No job of this grid makes more.
    pub most: u64,
    /// Whether the job is at its end.
    pub finished: bool,
}

impl Progress {
    /// From 0 to 1, for a bar: 1 exactly when the job is finished.
    #[must_use]
    pub fn fraction(&self) -> f64 {
        if self.finished {
            return 1.0;
        }
        self.done as f64 / self.most as f64
    }
}

/// The most evaluations that a job can make: the needed corners of all nodes, and
/// L³ points for each active child. What has a kind above 0 stays the active
/// children while a job lives, so it comes out the same at any time.
pub(crate) fn most(record: &Record, counts: Counts, kinds: &[u8]) -> u64 {
    let inner = record.inner() as usize;
    let nodes = kinds.chunks_exact(inner.pow(3));
    let corners: u64 = nodes
        .take(counts.nodes as usize)
        .map(|kinds| needed(inner, kinds))
        .sum();
    corners + counts.active * u64::from(record.leaf()).pow(3)
}

/// How many corners a node's active children have. It counts for a bar alone: the
/// engine finds the corners that it evaluates by itself.
fn needed(inner: usize, kinds: &[u8]) -> u64 {
    // The children beside a corner along an axis: the one before it and its own.
    let beside = |corner: usize| corner.saturating_sub(1)..(corner + 1).min(inner);
    let row = |j: usize, k: usize| &kinds[(k * inner + j) * inner..][..inner];
    let mut count = 0;
    for k in 0..=inner {
        for j in 0..=inner {
            for i in 0..=inner {
                let near = beside(k)
                    .any(|k| beside(j).any(|j| row(j, k)[beside(i)].iter().any(|&kind| kind != 0)));
                count += u64::from(near);
            }
        }
    }
    count
}
