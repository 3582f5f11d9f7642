//! A model: a list of parts.

use core::fmt;

use crate::refusal::Refusal;
use crate::sys;

/// The most parts that a model has.
pub const MOST_PARTS: usize = sys::MOST_PARTS;

/// A part of a model. An operation names its inputs by their places: parts that
/// stand before it, counted from 0.
#[derive(Debug, Clone, Copy, PartialEq)]
pub enum Part {
    /// The same number everywhere. It is copied, a NaN with its bits.
    Constant(f64),
    /// The distance from the centre, less the radius.
    Sphere {
        /// x, y and z of the centre.
        centre: [f64; 3],
        /// The radius.
        radius: f64,
    },
    /// The product of point and normal, less the offset.
    Plane {
        /// x, y and z of the normal.
        normal: [f64; 3],
        /// The offset.
        offset: f64,
    },
    /// The lesser of two inputs; the other one where one is NaN.
    Min(u32, u32),
    /// The greater of two inputs; the other one where one is NaN.
    Max(u32, u32),
    /// The sum of two inputs.
    Add(u32, u32),
    /// The first input less the second.
    Sub(u32, u32),
    /// The input with the other sign.
    Neg(u32),
}

/// A model: up to 64 parts. Its value is its last part's.
///
/// A part is pushed with no more than a count; whether its inputs stand before it
/// is for the engine to judge, where the model is used.
///
/// ```
/// use jisampode::{Model, Part, Refusal};
///
/// # fn main() -> Result<(), Refusal> {
/// // A ball, less a smaller ball.
/// let mut model = Model::new();
/// let ball = model.sphere([0.0; 3], 2.0)?;
/// let hole = model.sphere([1.5, 0.0, 0.0], 1.0)?;
/// let outside = model.neg(hole)?;
/// model.max(ball, outside)?;
/// assert_eq!(model.parts()[3], Part::Max(0, 2));
/// # Ok(())
/// # }
/// ```
#[derive(Clone, PartialEq)]
pub struct Model {
    /// Those from the count on are constants 0.
    parts: [Part; MOST_PARTS],
    count: usize,
}

impl Model {
    /// A model without a part. The engine refuses it as it is.
    #[must_use]
    pub fn new() -> Model {
        Model {
            parts: [Part::Constant(0.0); MOST_PARTS],
            count: 0,
        }
    }

    /// Adds a part, and hands back its place. A 65th part is refused by
    /// [`Refusal::Model`].
    pub fn push(&mut self, part: Part) -> Result<u32, Refusal> {
        let place = self.parts.get_mut(self.count).ok_or(Refusal::Model)?;
        *place = part;
        self.count += 1;
        Ok(self.count as u32 - 1)
    }

    /// Adds a constant.
    pub fn constant(&mut self, value: f64) -> Result<u32, Refusal> {
        self.push(Part::Constant(value))
    }

    /// Adds a sphere.
    pub fn sphere(&mut self, centre: [f64; 3], radius: f64) -> Result<u32, Refusal> {
        self.push(Part::Sphere { centre, radius })
    }

    /// Adds a plane.
    pub fn plane(&mut self, normal: [f64; 3], offset: f64) -> Result<u32, Refusal> {
        self.push(Part::Plane { normal, offset })
    }

    /// Adds the lesser of two parts: their union.
    pub fn min(&mut self, a: u32, b: u32) -> Result<u32, Refusal> {
        self.push(Part::Min(a, b))
    }

    /// Adds the greater of two parts: what they share.
    pub fn max(&mut self, a: u32, b: u32) -> Result<u32, Refusal> {
        self.push(Part::Max(a, b))
    }

    /// Adds the sum of two parts.
    pub fn add(&mut self, a: u32, b: u32) -> Result<u32, Refusal> {
        self.push(Part::Add(a, b))
    }

    /// Adds a part less another.
    pub fn sub(&mut self, a: u32, b: u32) -> Result<u32, Refusal> {
        self.push(Part::Sub(a, b))
    }

    /// Adds a part with the other sign: its outside becomes its inside.
    pub fn neg(&mut self, a: u32) -> Result<u32, Refusal> {
        self.push(Part::Neg(a))
    }

    /// The parts, in order.
    #[must_use]
    pub fn parts(&self) -> &[Part] {
        &self.parts[..self.count]
    }

    /// The parts in the arrays that the engine takes.
    pub(crate) fn laid_out(&self) -> LaidOut {
        let mut laid = LaidOut {
            parts: [0; sys::PARTS],
            reals: [0.0; sys::REALS],
            count: self.count as u32,
        };
        for (place, &part) in self.parts().iter().enumerate() {
            laid.put(place, part);
        }
        laid
    }
}

impl Default for Model {
    fn default() -> Model {
        Model::new()
    }
}

/// Shows the parts that count.
impl fmt::Debug for Model {
    fn fmt(&self, f: &mut fmt::Formatter<'_>) -> fmt::Result {
        f.debug_list().entries(self.parts()).finish()
    }
}

/// A model in arrays: the code of part p at p, its inputs at 64 + p and 128 + p;
/// its vector at p, 64 + p and 128 + p, its number at 192 + p.
pub(crate) struct LaidOut {
    pub parts: [u32; sys::PARTS],
    pub reals: [f64; sys::REALS],
    pub count: u32,
}

impl LaidOut {
    fn put(&mut self, place: usize, part: Part) {
        match part {
            Part::Constant(value) => self.shape(place, sys::CONSTANT, [0.0; 3], value),
            Part::Sphere { centre, radius } => self.shape(place, sys::SPHERE, centre, radius),
            Part::Plane { normal, offset } => self.shape(place, sys::PLANE, normal, offset),
            Part::Min(a, b) => self.operation(place, sys::MIN, a, b),
            Part::Max(a, b) => self.operation(place, sys::MAX, a, b),
            Part::Add(a, b) => self.operation(place, sys::ADD, a, b),
            Part::Sub(a, b) => self.operation(place, sys::SUB, a, b),
            Part::Neg(a) => self.operation(place, sys::NEG, a, 0),
        }
    }

    fn shape(&mut self, place: usize, code: u32, vector: [f64; 3], number: f64) {
        self.parts[place] = code;
        for (row, x) in vector.into_iter().enumerate() {
            self.reals[row * MOST_PARTS + place] = x;
        }
        self.reals[3 * MOST_PARTS + place] = number;
    }

    fn operation(&mut self, place: usize, code: u32, a: u32, b: u32) {
        self.parts[place] = code;
        self.parts[MOST_PARTS + place] = a;
        self.parts[2 * MOST_PARTS + place] = b;
    }
}
