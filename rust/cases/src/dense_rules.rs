//! The causes of calls on a dense field and of walks, plainly.

/// Indices or numbers of points along the axes.
pub type Triple = [usize; 3];

pub type Point = [f64; 3];

pub type Bounds = [Point; 2];

/// The most points of a field, and the most along an axis of a walk.
pub const MOST: usize = 16_777_216;

/// Cause 1 for a point.
pub fn point_refused(p: Point) -> bool {
    p.iter().any(|x| !x.is_finite())
}

/// Cause 1 for bounds.
pub fn bounds_refused([min, max]: Bounds) -> bool {
    point_refused(min) || point_refused(max) || (0..3).any(|axis| max[axis] < min[axis])
}

/// Cause 1 for a cell's size.
pub fn cell_refused(cell: f64) -> bool {
    !(cell.is_finite() && cell > 0.0)
}

/// Cause 9 for dimensions: one of them 0, or a product above the limit.
pub fn dimensions_refused(n: Triple) -> bool {
    let most = MOST as u128;
    let [x, y, z] = n.map(|n| n as u128);
    x == 0 || y == 0 || z == 0 || x > most || y > most || x * y > most || x * y * z > most
}

/// Cause 9 for dimensions and a number of values.
pub fn values_refused(n: Triple, len: usize) -> bool {
    dimensions_refused(n) || len != n[0] * n[1] * n[2]
}

/// The cause by which a point count is refused, or 0. The counts by the rule may
/// be infinite.
pub fn count_refusal(bounds: Bounds, cell: f64) -> usize {
    if bounds_refused(bounds) || cell_refused(cell) {
        return 1;
    }
    let most = MOST as f64;
    let points = [0, 1, 2].map(|a| ((bounds[1][a] - bounds[0][a]) / cell).floor() + 1.0);
    if points.iter().any(|&n| n > most) || dimensions_refused(points.map(|n| n as usize)) {
        return 9;
    }
    0
}

/// Whether 1 or 11 refuses a walk that has at least so many points or cells on
/// each axis.
pub fn walk_refusal(least: usize, bounds: Bounds, n: Triple, at: Triple) -> usize {
    if bounds_refused(bounds) {
        1
    } else if n.iter().any(|&n| n < least || n > MOST) || at[0] >= n[0] || at[1] >= n[1] {
        11
    } else {
        0
    }
}

/// Whether 9 or 10 refuses an octet walk's step. Past the last one it is done,
/// and so is a walk over a dimension of 1.
pub fn octet_refusal(n: Triple, at: Triple, len: usize) -> usize {
    if values_refused(n, len) {
        9
    } else if n.contains(&1) || at[2] >= n[2] - 1 {
        0
    } else if at[0] >= n[0] - 1 || at[1] >= n[1] - 1 {
        10
    } else {
        0
    }
}
