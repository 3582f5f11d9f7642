//! A job's record: what calls hand on.

use core::fmt;

use crate::engine;
use crate::refusal::Refusal;
use crate::sys;

/// A job's record, in the arrays that the engine takes.
pub(crate) struct Record {
    pub(crate) words: [u64; sys::WORDS],
    pub(crate) parts: [u32; sys::PARTS],
    pub(crate) settings: [f64; sys::SETTINGS],
    pub(crate) reals: [f64; sys::REALS],
}

/// Where the block sizes stand among the words.
const INNER: usize = 1;
const LEAF: usize = 2;

impl Record {
    /// The counts of its job. Refused by [`Refusal::NoJob`].
    pub(crate) fn counts(&self) -> Result<Counts, Refusal> {
        let [nodes, active, leaves, sampled, evaluations] = engine::counts(self)?;
        Ok(Counts {
            nodes,
            active,
            leaves,
            sampled,
            evaluations,
        })
    }

    /// Where its job has come to. Refused by [`Refusal::NoJob`].
    pub(crate) fn cursor(&self) -> Result<Cursor, Refusal> {
        Ok(match engine::cursor(self)? {
            [sys::AT_END, ..] => Cursor::End,
            [sys::AT_CORNER, node, corner, _] => Cursor::Corner { node, corner },
            [_, node, child, point] => Cursor::Point { node, child, point },
        })
    }

    /// Children of a node along an axis.
    pub(crate) fn inner(&self) -> u32 {
        self.words[INNER] as u32
    }

    /// Points of a leaf along an axis.
    pub(crate) fn leaf(&self) -> u32 {
        self.words[LEAF] as u32
    }
}

/// A record without a job.
impl Default for Record {
    fn default() -> Record {
        Record {
            words: [0; sys::WORDS],
            parts: [0; sys::PARTS],
            settings: [0.0; sys::SETTINGS],
            reals: [0.0; sys::REALS],
        }
    }
}

/// Shows counts and cursor alone, so that no model of a client comes into a log.
impl fmt::Debug for Record {
    fn fmt(&self, f: &mut fmt::Formatter<'_>) -> fmt::Result {
        f.debug_struct("Record")
            .field("counts", &self.counts())
            .field("cursor", &self.cursor())
            .finish()
    }
}

/// What a job has come to.
#[derive(Debug, Clone, Copy, PartialEq, Eq)]
#[non_exhaustive]
pub struct Counts {
    /// Nodes of the grid.
    pub nodes: u64,
    /// Active children of all nodes.
    pub active: u64,
    /// Leaves so far.
    pub leaves: u64,
    /// Points of these leaves.
    pub sampled: u64,
    /// Evaluations so far.
    pub evaluations: u64,
}

/// A job's next evaluation, or its end.
#[derive(Debug, Clone, Copy, PartialEq, Eq)]
pub enum Cursor {
    /// The job is finished.
    End,
    /// At a node's corner.
    Corner {
        /// The node.
        node: u64,
        /// The corner, of (n + 1)³.
        corner: u64,
    },
    /// At a point of a node's child, which is a leaf.
    Point {
        /// The node.
        node: u64,
        /// The child, of n³.
        child: u64,
        /// The point, of L³.
        point: u64,
    },
}
