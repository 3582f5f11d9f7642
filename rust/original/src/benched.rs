//! What the benchmark calls of the original's fields.

use crate::parts::Graph;
pub use crate::types::computation::data::inside::block;
pub use crate::types::computation::data::sampled::{children, Child};
pub use crate::types::computation::data::{DenseField, SparseField, SparseFieldConfig};
pub use crate::types::geometry::{BoundingBox, Vec3, Vec3i};

/// A field of given values, with its origin at (x, y, z).
pub fn field([x, y, z]: [f64; 3], cell: f64, n: [usize; 3], values: Vec<f64>) -> DenseField<f64> {
    let n = Vec3i::new(n[0], n[1], n[2]);
    DenseField::from_data(Vec3::new(x, y, z), cell, n, values).expect("as many values as points")
}

/// Samples a field at all its points.
pub fn sample(field: &mut DenseField<f64>, graph: &Graph) {
    field.sample_from_graph(&graph.graph)
}

/// A box from its two ends.
pub fn bounds(min: [f64; 3], max: [f64; 3]) -> BoundingBox<f64> {
    let at = |p: [f64; 3]| Vec3::new(p[0], p[1], p[2]);
    BoundingBox::new(at(min), at(max))
}

/// How many points a field in bounds has along each axis.
pub fn point_count(bounds: &BoundingBox<f64>, cell: f64) -> [usize; 3] {
    let n = DenseField::point_count(bounds, cell);
    [n.i, n.j, n.k]
}

/// Samples a sparse field that has its bounds, with a band's two limits.
pub fn sample_sparse(field: &mut SparseField<f64>, graph: &Graph, [min, max]: [f64; 2]) {
    let sampled = field.sample_from_graph(&graph.graph, min, max);
    sampled.expect("a field with its bounds set");
}
