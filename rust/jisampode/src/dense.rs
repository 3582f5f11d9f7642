//! A dense field: a value at every point of a grid.

use core::fmt;

use crate::bounds::Bounds;
use crate::engine::{self, certain};
use crate::model::Model;
use crate::refusal::Refusal;
use crate::walks::Octets;

/// Points or cells along each axis.
#[derive(Debug, Clone, Copy, PartialEq, Eq)]
pub struct Dimensions {
    /// Along x.
    pub x: usize,
    /// Along y.
    pub y: usize,
    /// Along z.
    pub z: usize,
}

impl Dimensions {
    /// So many along each axis.
    #[must_use]
    pub fn new(x: usize, y: usize, z: usize) -> Dimensions {
        Dimensions { x, y, z }
    }

    /// How many in all; none where a `usize` cannot hold it.
    #[must_use]
    pub fn product(&self) -> Option<usize> {
        self.x.checked_mul(self.y)?.checked_mul(self.z)
    }

    /// How many a walk has to come from a cursor on, for `size_hint`.
    pub(crate) fn rest(self, [i, j, k]: [usize; 3]) -> (usize, Option<usize>) {
        let place = |k: usize| {
            let row = k.checked_mul(self.y)?.checked_add(j)?;
            row.checked_mul(self.x)?.checked_add(i)
        };
        if k >= self.z {
            return (0, Some(0));
        }
        match (self.product(), place(k)) {
            (Some(all), Some(past)) => {
                let rest = all.saturating_sub(past);
                (rest, Some(rest))
            }
            _ => (0, None),
        }
    }
}

/// How many points a dense field over bounds has along each axis: the extent by the
/// cell size, rounded down, and one more. Refused by [`Refusal::Bounds`] and
/// [`Refusal::Dimensions`].
///
/// ```
/// use jisampode::{point_count, Bounds, Dimensions};
///
/// let bounds = Bounds::new([0.0; 3], [1.0, 2.0, 2.5]);
/// assert_eq!(point_count(bounds, 1.0), Ok(Dimensions::new(2, 3, 3)));
/// ```
pub fn point_count(bounds: Bounds, cell: f64) -> Result<Dimensions, Refusal> {
    let [x, y, z] = engine::point_count(&bounds.flat(), cell)?;
    Ok(Dimensions { x, y, z })
}

/// A dense field over lent values, x fastest, then y, z.
///
/// ```
/// use jisampode::{point_count, Bounds, DenseField, Model, Refusal};
///
/// # fn main() -> Result<(), Refusal> {
/// let mut model = Model::new();
/// model.sphere([1.0; 3], 0.75)?;
/// let bounds = Bounds::new([0.0; 3], [2.0; 3]);
/// let dimensions = point_count(bounds, 0.25)?;
///
/// let mut values = vec![0.0; 9 * 9 * 9];
/// let mut scratch = values.clone();
/// let mut field = DenseField::new(dimensions, &mut values)?;
/// field.sample(&model, bounds.min, 0.25)?;
/// field.smooth(0.5, 2, &mut scratch)?;
/// field.pad(1.0);
/// field.threshold(1e-9);
///
/// let cut = field.octets().filter(|octet| octet.iter().any(|v| *v <= 0.0));
/// println!("{} cells meet the part", cut.count());
/// # Ok(())
/// # }
/// ```
pub struct DenseField<'a> {
    dimensions: Dimensions,
    values: &'a mut [f64],
}

impl<'a> DenseField<'a> {
    /// The field of these values. Refused by [`Refusal::Dimensions`]: a dimension is
    /// 0, the product is above 16,777,216, or there are not as many values.
    pub fn new(dimensions: Dimensions, values: &'a mut [f64]) -> Result<DenseField<'a>, Refusal> {
        // The first step of an octet walk judges the dimensions, and writes no
        // value.
        engine::octet_step(dimensions, values, &mut [0; 3])?;
        Ok(DenseField { dimensions, values })
    }

    /// Points along each axis.
    #[must_use]
    pub fn dimensions(&self) -> Dimensions {
        self.dimensions
    }

    /// All values, x fastest.
    #[must_use]
    pub fn values(&self) -> &[f64] {
        self.values
    }

    /// All values, to be changed.
    #[must_use]
    pub fn values_mut(&mut self) -> &mut [f64] {
        self.values
    }

    /// Sets every value to the model's at origin + cell × index. Refused by
    /// [`Refusal::Bounds`] and [`Refusal::Model`].
    pub fn sample(&mut self, model: &Model, origin: [f64; 3], cell: f64) -> Result<(), Refusal> {
        engine::sample(
            &model.laid_out(),
            origin,
            cell,
            self.dimensions,
            self.values,
        )
    }

    /// Sets every point on the outside of the field to a value.
    pub fn pad(&mut self, value: f64) {
        certain(engine::padding(self.dimensions, value, self.values));
    }

    /// Makes every value that is smaller in size than the limit +0.
    pub fn threshold(&mut self, limit: f64) {
        certain(engine::threshold(self.dimensions, limit, self.values));
    }

    /// Rounds of smoothing: an inner value v becomes (1 - factor) × v + factor × the
    /// mean of its six neighbours. The scratch is as long as the values or longer,
    /// and is zeroed whole. Refused by [`Refusal::Dimensions`] where it is shorter.
    pub fn smooth(&mut self, factor: f64, rounds: u32, scratch: &mut [f64]) -> Result<(), Refusal> {
        engine::smooth(self.dimensions, factor, rounds, self.values, scratch)
    }

    /// The values at the corners of each cell.
    #[must_use]
    pub fn octets(&self) -> Octets<'_> {
        certain(self.octets_from([0; 3]))
    }

    /// The values at the corners of each cell from one on. Refused by
    /// [`Refusal::Outside`] where its i or j is past the last; where its k is, or
    /// where the field has no cells, there is nothing to come.
    pub fn octets_from(&self, cell: [usize; 3]) -> Result<Octets<'_>, Refusal> {
        Octets::new(self.dimensions, self.values, cell)
    }
}

/// Shows the dimensions alone, so that no value of a client comes into a log.
impl fmt::Debug for DenseField<'_> {
    fn fmt(&self, f: &mut fmt::Formatter<'_>) -> fmt::Result {
        f.debug_struct("DenseField")
            .field("dimensions", &self.dimensions)
            .finish_non_exhaustive()
    }
}
