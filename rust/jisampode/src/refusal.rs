//! The causes by which the engine refuses a call.

use core::fmt;

/// Why a call was refused. Where several causes apply, it is the one with the
/// lowest number.
///
/// ```
/// use jisampode::{JobBuilder, Refusal};
///
/// // A builder with nothing set: its bounds are refused first.
/// let refusal = JobBuilder::new().lengths().unwrap_err();
/// assert_eq!(refusal, Refusal::Bounds);
/// assert_eq!(refusal.number(), 1);
/// ```
#[derive(Debug, Clone, Copy, PartialEq, Eq, Hash)]
#[non_exhaustive]
pub enum Refusal {
    /// A bound or an origin is not finite, a highest bound is below the lowest, or
    /// the cell size is infinite, NaN, 0 or negative (rule C1).
    Bounds,
    /// No block has the inner or the leaf size (rule C2).
    Blocks,
    /// A limit of the band is NaN.
    Band,
    /// A model has no part or more than 64, or a part with an input that does not
    /// stand before it (rule C4).
    Model,
    /// The node size is not finite, there are over 1,024 nodes along an axis, or
    /// over 16,777,216 children.
    Grid,
    /// A lent slice is too short.
    Short,
    /// The record has no job.
    NoJob,
    /// The record is one that no job of this memory can have.
    Record,
    /// A dense field's dimension is 0, their product is above 16,777,216, the
    /// values are not that many, or the scratch is shorter.
    Dimensions,
    /// A cell is outside the field.
    Outside,
    /// A walk has too few or too many points or cells along an axis, or starts
    /// outside them (rule C11).
    Walk,
    /// A job's text is off its form. No call returns it: a listing has it, with the
    /// line ([`listed_refusal`](crate::listed_refusal)).
    Text,
    /// A number that this wrapper does not know: the archive is newer.
    #[non_exhaustive]
    Other(u32),
}

impl Refusal {
    /// Every cause that has a name, in the order of the numbers, which go up from 1.
    pub const ALL: &'static [Refusal] = &[
        Refusal::Bounds,
        Refusal::Blocks,
        Refusal::Band,
        Refusal::Model,
        Refusal::Grid,
        Refusal::Short,
        Refusal::NoJob,
        Refusal::Record,
        Refusal::Dimensions,
        Refusal::Outside,
        Refusal::Walk,
        Refusal::Text,
    ];

    /// The cause's number.
    #[must_use]
    pub fn number(self) -> u32 {
        match self {
            Refusal::Bounds => 1,
            Refusal::Blocks => 2,
            Refusal::Band => 3,
            Refusal::Model => 4,
            Refusal::Grid => 5,
            Refusal::Short => 6,
            Refusal::NoJob => 7,
            Refusal::Record => 8,
            Refusal::Dimensions => 9,
            Refusal::Outside => 10,
            Refusal::Walk => 11,
            Refusal::Text => 12,
            Refusal::Other(number) => number,
        }
    }

    /// The cause of a number; none for 0, which is no refusal.
    #[must_use]
    pub fn from_number(number: u32) -> Option<Refusal> {
        let place = number.checked_sub(1)? as usize;
        Some(
            Refusal::ALL
                .get(place)
                .copied()
                .unwrap_or(Refusal::Other(number)),
        )
    }

    fn text(self) -> &'static str {
        match self {
            Refusal::Bounds => "the bounds, the origin or the cell size",
            Refusal::Blocks => "a block size is not 2, 4, 8, 16, 32 or 64",
            Refusal::Band => "a limit of the band is NaN",
            Refusal::Model => "the number of parts, or a part's input",
            Refusal::Grid => "the node size, or too many nodes or children",
            Refusal::Short => "a lent slice is too short",
            Refusal::NoJob => "the record has no job",
            Refusal::Record => "the record is not one of a job of this memory",
            Refusal::Dimensions => "the dimensions, or the length of the values or the scratch",
            Refusal::Outside => "a cell outside the field",
            Refusal::Walk => "a walk's counts, or its start",
            Refusal::Text => "a job's text is off its form",
            Refusal::Other(_) => "a cause that this version does not know",
        }
    }
}

impl fmt::Display for Refusal {
    fn fmt(&self, f: &mut fmt::Formatter<'_>) -> fmt::Result {
        write!(f, "refused by {}: {}", self.number(), self.text())
    }
}

#[cfg(feature = "std")]
impl std::error::Error for Refusal {}
