//! The rules of the grid, written plainly, for inputs that the original does
//! not take.

/// What a grid is made from.
#[derive(Clone, Copy)]
pub struct Grid {
    pub min: [f64; 3],
    pub max: [f64; 3],
    pub cell: f64,
    pub inner: u64,
    pub leaf: u64,
}

/// A box: its lowest and its highest point.
pub type Bounds = ([f64; 3], [f64; 3]);

pub const MOST_NODES: u64 = 1024;
pub const MOST_CHILDREN: u128 = 16_777_216;

/// How long a node is along an axis (rule G2).
pub fn node_size(cell: f64, inner: u64, leaf: u64) -> f64 {
    cell * (inner * leaf.saturating_sub(1)) as f64
}

/// Nodes along an axis, one at least (rule G3). A quotient past 64 bits counts
/// as the largest number of 64 bits, a NaN as 0.
pub fn nodes_along(least: f64, most: f64, s: f64) -> u64 {
    (((most - least) / s).ceil() as u64).max(1)
}

/// Place i along an axis that is cut into n steps.
fn along(least: f64, most: f64, n: u64, i: u64) -> (f64, f64) {
    let step = (most - least) / n as f64;
    let begin = least + i as f64 * step;
    (begin, begin + step)
}

/// Indices of a number, i fastest.
pub fn indices(number: u64, nx: u64, ny: u64) -> [u64; 3] {
    [number % nx, number / nx % ny, number / nx / ny]
}

/// Where node i of an axis begins and ends.
pub fn node_ends(least: f64, s: f64, i: u64) -> (f64, f64) {
    let begin = least + i as f64 * s;
    (begin, begin + s)
}

/// On one axis: whether bounds meet child c of node i.
pub fn axis_active(least: f64, most: f64, s: f64, inner: u64, i: u64, c: u64) -> bool {
    let (begin, end) = node_ends(least, s, i);
    let (low, high) = along(begin, end, inner, c);
    least <= high && most >= low
}

impl Grid {
    pub fn size(&self) -> f64 {
        node_size(self.cell, self.inner, self.leaf)
    }

    pub fn counts(&self) -> [u64; 3] {
        [0, 1, 2].map(|axis| nodes_along(self.min[axis], self.max[axis], self.size()))
    }

    pub fn nodes(&self) -> u128 {
        self.counts().iter().map(|&n| n as u128).product()
    }

    pub fn children(&self) -> u128 {
        self.nodes() * (self.inner as u128).pow(3)
    }

    pub fn node_box(&self, v: u64) -> Bounds {
        let [nx, ny, _] = self.counts();
        let at = indices(v, nx, ny);
        let ends = [0, 1, 2].map(|axis| node_ends(self.min[axis], self.size(), at[axis]));
        (ends.map(|e| e.0), ends.map(|e| e.1))
    }

    pub fn child_box(&self, v: u64, c: u64) -> Bounds {
        let (min, max) = self.node_box(v);
        let at = indices(c, self.inner, self.inner);
        let ends = [0, 1, 2].map(|axis| along(min[axis], max[axis], self.inner, at[axis]));
        (ends.map(|e| e.0), ends.map(|e| e.1))
    }

    /// Whether the bounds meet a child, were it only by touching it (rule G7).
    pub fn is_active(&self, v: u64, c: u64) -> bool {
        let (min, max) = self.child_box(v, c);
        (0..3).all(|axis| self.min[axis] <= max[axis] && self.max[axis] >= min[axis])
    }

    /// The active children of all nodes: on each axis those of all its nodes.
    pub fn active(&self) -> u64 {
        let (counts, s) = (self.counts(), self.size());
        let along = |axis: usize| {
            let (least, most) = (self.min[axis], self.max[axis]);
            let mut met = 0;
            for i in 0..counts[axis] {
                for c in 0..self.inner {
                    met += axis_active(least, most, s, self.inner, i, c) as u64;
                }
            }
            met
        };
        along(0) * along(1) * along(2)
    }
}

/// A corner of a node, by the steps of the x axis (rule G8).
pub fn corner_point(b: Bounds, inner: u64, corner: u64) -> [f64; 3] {
    let c = (b.1[0] - b.0[0]) / inner as f64;
    let at = indices(corner, inner + 1, inner + 1);
    [0, 1, 2].map(|axis| b.0[axis] + c * at[axis] as f64)
}

/// A point of a leaf (rule G15).
pub fn leaf_point(b: Bounds, leaf: u64, p: u64) -> [f64; 3] {
    let at = indices(p, leaf, leaf);
    [0, 1, 2].map(|axis| along(b.0[axis], b.1[axis], leaf - 1, at[axis]).0)
}

/// Whether a child becomes a constant (rule G13).
pub fn is_pruned(min_val: f64, max_val: f64, lo: f64, hi: f64, h: f64) -> bool {
    hi + h < min_val || lo - h > max_val
}

/// A model whose parts are constants but for one: how many parts, and that
/// one's place, its kind (0 to 3 with two inputs, 4 with one, 5 constant) and
/// inputs.
#[derive(Clone, Copy)]
pub struct Model {
    pub count: u64,
    pub place: u64,
    pub kind: u64,
    pub inputs: [u64; 2],
}

impl Model {
    /// Cause 4.
    fn refused(&self) -> bool {
        if self.count == 0 || self.count > 64 {
            return true;
        }
        let reads = match self.kind {
            0..=3 => 2,
            4 => 1,
            _ => 0,
        };
        let bad = self.inputs[..reads]
            .iter()
            .any(|&input| input >= self.place);
        self.place < self.count && bad
    }
}

/// The lengths of kinds, numbers, places, store and corners.
pub type Lengths = [u64; 5];

/// The lengths that a grid needs.
pub fn lengths_needed(g: &Grid) -> Lengths {
    let children = g.children() as u64;
    let store = g.active() * g.leaf.pow(3);
    [children, children, children, store, (g.inner + 1).pow(3)]
}

pub fn is_block(n: u64) -> bool {
    [2, 4, 8, 16, 32, 64].contains(&n)
}

/// The cause by which open refuses a job, or 0.
pub fn refusal(g: &Grid, band: [f64; 2], model: &Model, lengths: &Lengths) -> u64 {
    let finite = |p: [f64; 3]| p.iter().all(|x| x.is_finite());
    let below = (0..3).any(|axis| g.max[axis] < g.min[axis]);
    if !finite(g.min) || !finite(g.max) || below || !g.cell.is_finite() || g.cell <= 0.0 {
        return 1;
    }
    if !is_block(g.inner) || !is_block(g.leaf) {
        return 2;
    }
    if band[0].is_nan() || band[1].is_nan() {
        return 3;
    }
    if model.refused() {
        return 4;
    }
    let many = g.counts().iter().any(|&n| n > MOST_NODES);
    if !g.size().is_finite() || many || g.children() > MOST_CHILDREN {
        return 5;
    }
    let needed = lengths_needed(g);
    if (0..5).any(|slice| lengths[slice] < needed[slice]) {
        return 6;
    }
    0
}
