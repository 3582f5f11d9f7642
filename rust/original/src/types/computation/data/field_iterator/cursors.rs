//! One step of each walk of the original, from any cursor: what the walk hands
//! out, and where it stands after.

use super::{CellGridIter, DenseCellValueIterator, PointGridIter};
use crate::types::geometry::{BoundingBox, Vec3};

pub type Cursor = (usize, usize, usize);

pub fn point_step(
    bounds: BoundingBox<f64>,
    counts: Cursor,
    cursor: Cursor,
) -> (Option<Vec3<f64>>, Cursor) {
    let mut walk = PointGridIter::new(bounds, counts);
    walk.current = cursor;
    (walk.next(), walk.current)
}

pub fn cell_step(
    bounds: BoundingBox<f64>,
    counts: Cursor,
    cursor: Cursor,
) -> (Option<BoundingBox<f64>>, Cursor) {
    let mut walk = CellGridIter::new(bounds, counts);
    walk.current = cursor;
    (walk.next(), walk.current)
}

pub fn octet_step(values: &[f64], counts: Cursor, cursor: Cursor) -> (Option<[f64; 8]>, Cursor) {
    let mut walk = DenseCellValueIterator::new(values, counts);
    walk.current = cursor;
    (walk.next(), walk.current)
}
