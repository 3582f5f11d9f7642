//! What the original answers where the engine refuses, for the items of
//! docs/DIFFERENCES.md that no stored case holds.

use std::panic::catch_unwind;

use original::benched::{block, bounds, field, sample};
use original::dense::octet_step;
use original::parts::{Model, Part};
use original::types::computation::data::inside::Nodes;

/// The nodes over bounds, in blocks of two.
fn nodes(min: [f64; 3], max: [f64; 3], cell: f64) -> Nodes {
    let two = || block(2).expect("a block of 2");
    Nodes::new(bounds(min, max), cell, two(), two())
}

/// The six numbers of a node's box.
fn ends(nodes: &Nodes, node: usize) -> [f64; 6] {
    let b = nodes.node_box(node);
    [b.min.x, b.min.y, b.min.z, b.max.x, b.max.y, b.max.z]
}

#[test]
fn an_infinite_node_size_makes_a_node_of_nan() {
    // The cell is the greatest float, so a node's size is infinite.
    let one = nodes([0.0; 3], [1.0; 3], f64::MAX);
    assert_eq!(one.counts(), [1, 1, 1]);
    let [x0, y0, z0, x1, y1, z1] = ends(&one, 0);
    assert!(x0.is_nan() && y0.is_nan() && z0.is_nan());
    assert!(x1.is_nan() && y1.is_nan() && z1.is_nan());
    assert_eq!(one.active(), 0);
}

#[test]
fn an_infinite_cell_makes_one_too() {
    let one = nodes([0.0; 3], [1.0; 3], f64::INFINITY);
    assert_eq!(one.counts(), [1, 1, 1]);
    assert!(ends(&one, 0).iter().all(|end| end.is_nan()));
    assert_eq!(one.active(), 0);
}

#[test]
fn a_negative_cell() {
    // Over no extent it makes a node whose box is inside out.
    let one = nodes([0.0; 3], [0.0; 3], -1.0);
    assert_eq!(one.counts(), [1, 1, 1]);
    assert_eq!(ends(&one, 0), [0.0, 0.0, 0.0, -2.0, -2.0, -2.0]);
    // Over an extent it panics.
    assert!(catch_unwind(|| nodes([0.0; 3], [2.0; 3], -1.0).counts()).is_err());
}

/// The values of a model that gives x, at 2×2×2 points.
fn along_x(origin: [f64; 3], cell: f64) -> Vec<f64> {
    let model = Model::new(&[Part::Plane([1.0, 0.0, 0.0], 0.0)]).expect("one plane");
    let mut eight = field(origin, cell, [2; 3], vec![0.0; 8]);
    sample(&mut eight, &model.graph());
    eight.copy_data()
}

#[test]
fn sampling_from_an_origin_or_with_a_cell_that_is_not_finite() {
    let infinite = along_x([f64::INFINITY, 0.0, 0.0], 1.0);
    assert!(infinite.iter().all(|&value| value == f64::INFINITY));
    let unknown = along_x([f64::NAN, 0.0, 0.0], 1.0);
    assert!(unknown.iter().all(|value| value.is_nan()));
    // 0 × infinity is NaN, 1 × infinity is not; y × 0 makes NaN of it.
    let wide = along_x([0.0; 3], f64::INFINITY);
    assert!(wide.iter().all(|value| value.is_nan()));
}

#[test]
fn corners_of_a_cell_that_is_not_finite() {
    let eight = field([0.0; 3], f64::INFINITY, [2; 3], vec![0.0; 8]);
    let corners = eight.cell_corners(0, 0, 0);
    assert!(corners[0].x.is_nan());
    assert_eq!(corners[1].x, f64::INFINITY);
    let eight = field([f64::NEG_INFINITY, 0.0, 0.0], 1.0, [2; 3], vec![0.0; 8]);
    let corners = eight.cell_corners(0, 0, 0);
    assert!(corners.iter().all(|corner| corner.x == f64::NEG_INFINITY));
}

#[test]
fn more_than_16_777_216_points() {
    let many = 16_777_217;
    let mut row = field([0.0; 3], 1.0, [many, 1, 1], vec![0.5; many]);
    row.smooth(0.5, 1);
    row.threshold(1.0);
    row.padding(7.0);
    let data = row.copy_data();
    assert_eq!(data.len(), many);
    assert!(data.iter().all(|&value| value == 7.0));
}

#[test]
fn an_octet_walk_over_values_of_a_wrong_length() {
    let values: Vec<f64> = (0..9).map(f64::from).collect();
    // One value more than 2×2×2 points have: it is not looked at.
    let (octet, _) = octet_step(&values, (2, 2, 2), (0, 0, 0));
    assert_eq!(octet, Some([0.0, 1.0, 3.0, 2.0, 4.0, 5.0, 7.0, 6.0]));
    // One value less: the walk panics where it would read it.
    let few = values[..7].to_vec();
    assert!(catch_unwind(|| octet_step(&few, (2, 2, 2), (0, 0, 0))).is_err());
}
