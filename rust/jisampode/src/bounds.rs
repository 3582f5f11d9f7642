//! A box in space.

/// A box: the lowest x, y and z, and the highest. Any numbers may stand in it; the
/// calls that take one judge it.
#[derive(Debug, Clone, Copy, PartialEq)]
pub struct Bounds {
    /// The lowest x, y and z.
    pub min: [f64; 3],
    /// The highest x, y and z.
    pub max: [f64; 3],
}

impl Bounds {
    /// The box of two ends.
    #[must_use]
    pub fn new(min: [f64; 3], max: [f64; 3]) -> Bounds {
        Bounds { min, max }
    }

    /// As the engine takes it: lowest x, y, z, highest x, y, z.
    pub(crate) fn flat(&self) -> [f64; 6] {
        let [x0, y0, z0] = self.min;
        let [x1, y1, z1] = self.max;
        [x0, y0, z0, x1, y1, z1]
    }

    /// The box of six numbers in that order.
    pub(crate) fn from_flat([x0, y0, z0, x1, y1, z1]: [f64; 6]) -> Bounds {
        Bounds::new([x0, y0, z0], [x1, y1, z1])
    }
}
