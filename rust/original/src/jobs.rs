//! Jobs of the ledger, as fields of the original.

use crate::parts::{self, Model};
use crate::types::computation::data::inside::{block, Nodes};
use crate::types::geometry::{BoundingBox, Vec3};
use ledger::{Input, Part};

/// A part, as the original's.
pub fn part(part: &Part) -> parts::Part {
    match *part {
        Part::Const(value) => parts::Part::Const(value),
        Part::Sphere(centre, radius) => parts::Part::Sphere(centre, radius),
        Part::Plane(normal, offset) => parts::Part::Plane(normal, offset),
        Part::Min(a, b) => parts::Part::Min(a, b),
        Part::Max(a, b) => parts::Part::Max(a, b),
        Part::Add(a, b) => parts::Part::Add(a, b),
        Part::Sub(a, b) => parts::Part::Sub(a, b),
        Part::Neg(a) => parts::Part::Neg(a),
    }
}

/// The model of parts that cause 4 does not refuse.
pub fn model(parts: &[Part]) -> Model {
    let parts: Vec<_> = parts.iter().map(part).collect();
    Model::new(&parts).expect("a model in order")
}

/// The field of an input that no cause refuses, with its bounds set.
pub fn nodes(input: &Input) -> Nodes {
    let at = |p: [f64; 3]| Vec3::new(p[0], p[1], p[2]);
    let bounds = BoundingBox::new(at(input.min), at(input.max));
    let block = |n: u32| block(n.into()).expect("a block's size");
    Nodes::new(bounds, input.cell, block(input.inner), block(input.leaf))
}

/// Samples such a field.
pub fn sample(nodes: &mut Nodes, input: &Input) {
    let model = model(&input.parts[..input.count as usize]);
    nodes.sample(&model.graph(), input.band_min, input.band_max);
}
