//! Walks: over the points and the cells of a grid in bounds, and over the cells of
//! a dense field. The first step is tried out when a walk is made, so that a walk
//! that is refused is refused then.

use core::fmt;
use core::iter::FusedIterator;

use crate::bounds::Bounds;
use crate::dense::Dimensions;
use crate::engine::{self, certain};
use crate::refusal::Refusal;

/// The points of a grid in bounds, x fastest.
///
/// ```
/// use jisampode::{Bounds, Dimensions, Points, Refusal};
///
/// # fn main() -> Result<(), Refusal> {
/// let bounds = Bounds::new([0.0; 3], [1.0, 1.0, 2.0]);
/// let points: Vec<_> = Points::new(bounds, Dimensions::new(2, 2, 3))?.collect();
/// assert_eq!(points.len(), 12);
/// assert_eq!(points[1], [1.0, 0.0, 0.0]);
/// assert_eq!(points[4], [0.0, 0.0, 1.0]);
/// # Ok(())
/// # }
/// ```
#[derive(Debug, Clone)]
pub struct Points {
    bounds: [f64; 6],
    counts: Dimensions,
    cursor: [usize; 3],
}

impl Points {
    /// All points. Refused by [`Refusal::Bounds`], and by [`Refusal::Walk`] for a
    /// count below 2 or above 16,777,216.
    pub fn new(bounds: Bounds, counts: Dimensions) -> Result<Points, Refusal> {
        Points::starting_at(bounds, counts, [0; 3])
    }

    /// The points from one on. Refused also by [`Refusal::Walk`] where its i or j is
    /// not below its count; where its k is not, there is nothing to come.
    pub fn starting_at(
        bounds: Bounds,
        counts: Dimensions,
        cursor: [usize; 3],
    ) -> Result<Points, Refusal> {
        let bounds = bounds.flat();
        engine::point_step(&bounds, counts, &mut cursor.clone())?;
        Ok(Points {
            bounds,
            counts,
            cursor,
        })
    }

    /// The indices of the next point.
    #[must_use]
    pub fn cursor(&self) -> [usize; 3] {
        self.cursor
    }
}

impl Iterator for Points {
    type Item = [f64; 3];

    fn next(&mut self) -> Option<[f64; 3]> {
        certain(engine::point_step(
            &self.bounds,
            self.counts,
            &mut self.cursor,
        ))
    }

    fn size_hint(&self) -> (usize, Option<usize>) {
        self.counts.rest(self.cursor)
    }
}

impl FusedIterator for Points {}

/// The cells of a grid in bounds, x fastest.
///
/// ```
/// use jisampode::{Bounds, Cells, Dimensions, Refusal};
///
/// # fn main() -> Result<(), Refusal> {
/// let bounds = Bounds::new([0.0; 3], [2.0, 1.0, 1.0]);
/// let mut cells = Cells::new(bounds, Dimensions::new(2, 1, 1))?;
/// assert_eq!(cells.next(), Some(Bounds::new([0.0; 3], [1.0; 3])));
/// assert_eq!(cells.cursor(), [1, 0, 0]);
/// # Ok(())
/// # }
/// ```
#[derive(Debug, Clone)]
pub struct Cells {
    bounds: [f64; 6],
    counts: Dimensions,
    cursor: [usize; 3],
}

impl Cells {
    /// All cells. Refused by [`Refusal::Bounds`], and by [`Refusal::Walk`] for a
    /// count below 1 or above 16,777,216.
    pub fn new(bounds: Bounds, counts: Dimensions) -> Result<Cells, Refusal> {
        Cells::starting_at(bounds, counts, [0; 3])
    }

    /// The cells from one on. Refused also by [`Refusal::Walk`] where its i or j is
    /// not below its count; where its k is not, there is nothing to come.
    pub fn starting_at(
        bounds: Bounds,
        counts: Dimensions,
        cursor: [usize; 3],
    ) -> Result<Cells, Refusal> {
        let bounds = bounds.flat();
        engine::cell_step(&bounds, counts, &mut cursor.clone())?;
        Ok(Cells {
            bounds,
            counts,
            cursor,
        })
    }

    /// The indices of the next cell.
    #[must_use]
    pub fn cursor(&self) -> [usize; 3] {
        self.cursor
    }
}

impl Iterator for Cells {
    type Item = Bounds;

    fn next(&mut self) -> Option<Bounds> {
        let cell = engine::cell_step(&self.bounds, self.counts, &mut self.cursor);
        certain(cell).map(Bounds::from_flat)
    }

    fn size_hint(&self) -> (usize, Option<usize>) {
        self.counts.rest(self.cursor)
    }
}

impl FusedIterator for Cells {}

/// The values at the corners of a dense field's cells, x fastest:
/// [`DenseField::octets`](crate::DenseField::octets) makes it. A cell's corners are
/// (0,0,0) (1,0,0) (1,1,0) (0,1,0), and these four with 1 for k.
///
/// ```
/// use jisampode::{DenseField, Dimensions, Refusal};
///
/// # fn main() -> Result<(), Refusal> {
/// let mut values = [0.0, 1.0, 2.0, 3.0, 4.0, 5.0, 6.0, 7.0];
/// let field = DenseField::new(Dimensions::new(2, 2, 2), &mut values)?;
/// let octets: Vec<_> = field.octets().collect();
/// assert_eq!(octets, [[0.0, 1.0, 3.0, 2.0, 4.0, 5.0, 7.0, 6.0]]);
/// # Ok(())
/// # }
/// ```
#[derive(Clone)]
pub struct Octets<'a> {
    dimensions: Dimensions,
    values: &'a [f64],
    cursor: [usize; 3],
}

impl<'a> Octets<'a> {
    pub(crate) fn new(
        dimensions: Dimensions,
        values: &'a [f64],
        cursor: [usize; 3],
    ) -> Result<Octets<'a>, Refusal> {
        engine::octet_step(dimensions, values, &mut cursor.clone())?;
        Ok(Octets {
            dimensions,
            values,
            cursor,
        })
    }

    /// The indices of the next cell.
    #[must_use]
    pub fn cursor(&self) -> [usize; 3] {
        self.cursor
    }
}

impl Iterator for Octets<'_> {
    type Item = [f64; 8];

    fn next(&mut self) -> Option<[f64; 8]> {
        certain(engine::octet_step(
            self.dimensions,
            self.values,
            &mut self.cursor,
        ))
    }

    fn size_hint(&self) -> (usize, Option<usize>) {
        let Dimensions { x, y, z } = self.dimensions;
        Dimensions::new(x - 1, y - 1, z - 1).rest(self.cursor)
    }
}

impl FusedIterator for Octets<'_> {}

/// Shows dimensions and cursor alone, so that no value of a client comes into a log.
impl fmt::Debug for Octets<'_> {
    fn fmt(&self, f: &mut fmt::Formatter<'_>) -> fmt::Result {
        f.debug_struct("Octets")
            .field("dimensions", &self.dimensions)
            .field("cursor", &self.cursor)
            .finish_non_exhaustive()
    }
}
