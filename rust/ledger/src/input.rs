//! What a job is opened with, and the value of its model.

use crate::floats::{computed, distance, max, min};

/// The most parts that a model has.
pub const MOST_PARTS: u32 = 64;

/// A part of a model. An operation names its inputs by their places.
#[derive(Debug, Clone, Copy)]
pub enum Part {
    Const(f64),
    /// Centre and radius.
    Sphere([f64; 3], f64),
    /// Normal and offset.
    Plane([f64; 3], f64),
    Min(u32, u32),
    Max(u32, u32),
    Add(u32, u32),
    Sub(u32, u32),
    Neg(u32),
}

/// Bounds, the cell's size, how many children and leaf points there are along
/// an axis, the band, and the first `count` parts of a model. A part that is
/// not there is the constant +0.
#[derive(Debug, Clone)]
pub struct Input {
    pub min: [f64; 3],
    pub max: [f64; 3],
    pub cell: f64,
    pub inner: u32,
    pub leaf: u32,
    pub band_min: f64,
    pub band_max: f64,
    pub count: u32,
    pub parts: Vec<Part>,
}

impl Part {
    /// Whether each input stands below a place.
    fn inputs_below(&self, place: u32) -> bool {
        match *self {
            Part::Const(_) | Part::Sphere(..) | Part::Plane(..) => true,
            Part::Min(a, b) | Part::Max(a, b) | Part::Add(a, b) | Part::Sub(a, b) => {
                a < place && b < place
            }
            Part::Neg(a) => a < place,
        }
    }

    /// The value at a point, where the parts before have these values.
    fn value(&self, before: &[f64], p: [f64; 3]) -> f64 {
        let of = |place: u32| before[place as usize];
        match *self {
            Part::Const(value) => value,
            Part::Sphere(centre, radius) => computed(distance(centre, p) - radius),
            Part::Plane(n, offset) => {
                computed(((p[0] * n[0] + p[1] * n[1]) + p[2] * n[2]) - offset)
            }
            Part::Min(a, b) => min(of(a), of(b)),
            Part::Max(a, b) => max(of(a), of(b)),
            Part::Add(a, b) => computed(of(a) + of(b)),
            Part::Sub(a, b) => computed(of(a) - of(b)),
            Part::Neg(a) => computed(-of(a)),
        }
    }
}

impl Input {
    fn part(&self, place: u32) -> Part {
        let part = self.parts.get(place as usize);
        part.copied().unwrap_or(Part::Const(0.0))
    }

    /// Whether the model has parts, not too many, and none with an input that
    /// is not below its own place.
    pub fn model_in_order(&self) -> bool {
        let some = (1..=MOST_PARTS).contains(&self.count);
        some && (0..self.count).all(|p| self.part(p).inputs_below(p))
    }

    /// The model's value at a point: that of its last part (rule M8).
    pub fn value(&self, p: [f64; 3]) -> f64 {
        let mut values = Vec::new();
        for place in 0..self.count {
            let value = self.part(place).value(&values, p);
            values.push(value);
        }
        values[values.len() - 1]
    }
}
