//! Floats, points, boxes, and the points of walks and of the grid.

extern "C" {
    fn bench_floor(x: f64) -> f64;
    fn bench_ceil(x: f64) -> f64;
    fn bench_abs(x: f64) -> f64;
    fn bench_min(a: f64, b: f64) -> f64;
    fn bench_max(a: f64, b: f64) -> f64;
    fn bench_distance(x0: f64, y0: f64, z0: f64, x1: f64, y1: f64, z1: f64) -> f64;
    fn bench_average(octet: &[f64; 8]) -> f64;
    fn bench_lowest(octet: &[f64; 8]) -> f64;
    fn bench_highest(octet: &[f64; 8]) -> f64;
    fn bench_half_diagonal(x0: f64, y0: f64, z0: f64, x1: f64, y1: f64, z1: f64) -> f64;
    fn bench_node_size(cell: f64, inner: u32, leaf: u32) -> f64;
    fn bench_node_box(
        x0: f64,
        y0: f64,
        z0: f64,
        x1: f64,
        y1: f64,
        z1: f64,
        cell: f64,
        inner: u32,
        leaf: u32,
        v: usize,
        out: &mut [f64; 6],
    );
    fn bench_child_box(
        x0: f64,
        y0: f64,
        z0: f64,
        x1: f64,
        y1: f64,
        z1: f64,
        n: u32,
        c: usize,
        out: &mut [f64; 6],
    );
    fn bench_dimensions(x0: f64, y0: f64, z0: f64, x1: f64, y1: f64, z1: f64, out: &mut [f64; 3]);
    fn bench_cell_corner(
        x: f64,
        y: f64,
        z: f64,
        cell: f64,
        nx: usize,
        ny: usize,
        nz: usize,
        i: usize,
        j: usize,
        k: usize,
        corner: usize,
        out: &mut [f64; 3],
    ) -> u32;
    fn bench_corner_point(
        x0: f64,
        y0: f64,
        z0: f64,
        x1: f64,
        y1: f64,
        z1: f64,
        n: u32,
        corner: usize,
        out: &mut [f64; 3],
    );
    fn bench_leaf_point(
        x0: f64,
        y0: f64,
        z0: f64,
        x1: f64,
        y1: f64,
        z1: f64,
        l: u32,
        p: usize,
        out: &mut [f64; 3],
    );
    fn jisampode_point_step(
        bounds: &[f64; 6],
        nx: usize,
        ny: usize,
        nz: usize,
        cursor: &mut [usize; 3],
        point: &mut [f64; 3],
    ) -> u32;
    fn jisampode_cell_step(
        bounds: &[f64; 6],
        nx: usize,
        ny: usize,
        nz: usize,
        cursor: &mut [usize; 3],
        cell: &mut [f64; 6],
    ) -> u32;
}

/// A box: its least end and its most.
pub type Ends = [[f64; 3]; 2];

pub fn floor(x: f64) -> f64 {
    unsafe { bench_floor(x) }
}

pub fn ceil(x: f64) -> f64 {
    unsafe { bench_ceil(x) }
}

pub fn abs(x: f64) -> f64 {
    unsafe { bench_abs(x) }
}

pub fn min(a: f64, b: f64) -> f64 {
    unsafe { bench_min(a, b) }
}

pub fn max(a: f64, b: f64) -> f64 {
    unsafe { bench_max(a, b) }
}

pub fn distance([[x0, y0, z0], [x1, y1, z1]]: Ends) -> f64 {
    unsafe { bench_distance(x0, y0, z0, x1, y1, z1) }
}

pub fn average(octet: &[f64; 8]) -> f64 {
    unsafe { bench_average(octet) }
}

pub fn lowest(octet: &[f64; 8]) -> f64 {
    unsafe { bench_lowest(octet) }
}

pub fn highest(octet: &[f64; 8]) -> f64 {
    unsafe { bench_highest(octet) }
}

pub fn half_diagonal([[x0, y0, z0], [x1, y1, z1]]: Ends) -> f64 {
    unsafe { bench_half_diagonal(x0, y0, z0, x1, y1, z1) }
}

pub fn node_size(cell: f64, inner: u32, leaf: u32) -> f64 {
    unsafe { bench_node_size(cell, inner, leaf) }
}

/// The ends of a node's box in a grid.
pub fn node_box([p, q]: Ends, cell: f64, inner: u32, leaf: u32, v: usize) -> [f64; 6] {
    let mut out = [0.0; 6];
    unsafe {
        bench_node_box(
            p[0], p[1], p[2], q[0], q[1], q[2], cell, inner, leaf, v, &mut out,
        )
    };
    out
}

/// The ends of the box of a child of a node that has n children along an axis.
pub fn child_box([[x0, y0, z0], [x1, y1, z1]]: Ends, n: u32, c: usize) -> [f64; 6] {
    let mut out = [0.0; 6];
    unsafe { bench_child_box(x0, y0, z0, x1, y1, z1, n, c, &mut out) };
    out
}

pub fn dimensions([[x0, y0, z0], [x1, y1, z1]]: Ends) -> [f64; 3] {
    let mut out = [0.0; 3];
    unsafe { bench_dimensions(x0, y0, z0, x1, y1, z1, &mut out) };
    out
}

/// One of a cell's eight corners.
pub fn cell_corner(
    [x, y, z]: [f64; 3],
    cell: f64,
    n: [usize; 3],
    at: [usize; 3],
    corner: usize,
) -> [f64; 3] {
    let mut out = [0.0; 3];
    let [nx, ny, nz] = n;
    let [i, j, k] = at;
    unsafe { bench_cell_corner(x, y, z, cell, nx, ny, nz, i, j, k, corner, &mut out) };
    out
}

/// The point at a walk's cursor.
pub fn point_step([p, q]: Ends, [nx, ny, nz]: [usize; 3], mut at: [usize; 3]) -> Option<[f64; 3]> {
    let bounds = [p[0], p[1], p[2], q[0], q[1], q[2]];
    let mut point = [0.0; 3];
    let answer = unsafe { jisampode_point_step(&bounds, nx, ny, nz, &mut at, &mut point) };
    (answer == 0).then_some(point)
}

/// The ends of the cell at a walk's cursor.
pub fn cell_step([p, q]: Ends, [nx, ny, nz]: [usize; 3], mut at: [usize; 3]) -> Option<[f64; 6]> {
    let bounds = [p[0], p[1], p[2], q[0], q[1], q[2]];
    let mut cell = [0.0; 6];
    let answer = unsafe { jisampode_cell_step(&bounds, nx, ny, nz, &mut at, &mut cell) };
    (answer == 0).then_some(cell)
}

/// A corner of a node that has n children along an axis.
pub fn corner_point([[x0, y0, z0], [x1, y1, z1]]: Ends, n: u32, corner: usize) -> [f64; 3] {
    let mut out = [0.0; 3];
    unsafe { bench_corner_point(x0, y0, z0, x1, y1, z1, n, corner, &mut out) };
    out
}

/// Point p of a leaf that has l points along an axis.
pub fn leaf_point([[x0, y0, z0], [x1, y1, z1]]: Ends, l: u32, p: usize) -> [f64; 3] {
    let mut out = [0.0; 3];
    unsafe { bench_leaf_point(x0, y0, z0, x1, y1, z1, l, p, &mut out) };
    out
}
