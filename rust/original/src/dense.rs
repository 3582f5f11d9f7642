//! The way to those functions of the original's dense field that only its own
//! crate can call.

use crate::parts::Graph;
use crate::types::computation::data::DenseField;
use crate::types::geometry::{BoundingBox, Vec3, Vec3i};
use crate::utils::math_helper;

pub use crate::types::computation::data::field_iterator::cursors::{
    cell_step, octet_step, point_step,
};

/// The number of points along each axis.
pub fn point_count(bounds: &BoundingBox<f64>, cell: f64) -> Vec3i {
    DenseField::point_count(bounds, cell)
}

/// A new field's values after sampling.
pub fn sample(graph: &Graph, origin: Vec3<f64>, cell: f64, n: Vec3i) -> Vec<f64> {
    let mut field = DenseField::new(origin, cell, n);
    field.sample_from_graph(&graph.graph);
    field.copy_data()
}

/// The place of (i, j, k) in a flat list.
pub fn place([i, j, k]: [usize; 3], n: [usize; 3]) -> usize {
    math_helper::index1d_from_index3d(i, j, k, n[0], n[1], n[2])
}

/// The indices of a place in a flat list.
pub fn indices(place: usize, n: [usize; 3]) -> [usize; 3] {
    let (i, j, k) = math_helper::index3d_from_index1d(place, n[0], n[1], n[2]);
    [i, j, k]
}
