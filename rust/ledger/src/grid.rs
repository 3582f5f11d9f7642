//! The grid of an input: causes, nodes, children, corners, leaf points, and
//! when a child becomes a constant.

use crate::floats::{computed, distance, max, min};
use crate::input::Input;
use crate::memory::Lengths;

type Point = [f64; 3];

/// The most nodes along an axis, and children of all nodes.
const MOST_NODES: f64 = 1024.0;
const MOST_CHILDREN: u64 = 16_777_216;

/// The corners of a cell, in the order of an octet.
const OCTET: [[u64; 3]; 8] = [
    [0, 0, 0],
    [1, 0, 0],
    [1, 1, 0],
    [0, 1, 0],
    [0, 0, 1],
    [1, 0, 1],
    [1, 1, 1],
    [0, 1, 1],
];

#[derive(Debug, Clone, Copy)]
pub struct Bounds {
    pub min: Point,
    pub max: Point,
}

impl Bounds {
    fn dimensions(&self) -> Point {
        [0, 1, 2].map(|axis| self.max[axis] - self.min[axis])
    }

    /// Touching counts.
    fn intersects(&self, other: &Bounds) -> bool {
        let meet = |a: usize| self.min[a] <= other.max[a] && other.min[a] <= self.max[a];
        (0..3).all(meet)
    }
}

/// What an active child becomes.
pub enum Decision {
    Constant(f64),
    Leaf,
}

/// The indices of a place, i fastest.
fn indices(place: u64, counts: [u64; 3]) -> [u64; 3] {
    let [nx, ny, _] = counts;
    [place % nx, place / nx % ny, place / nx / ny]
}

fn place_of(at: [u64; 3], n: u64) -> u64 {
    (at[2] * n + at[1]) * n + at[0]
}

fn is_block(n: u32) -> bool {
    [2, 4, 8, 16, 32, 64].contains(&n)
}

fn node_size(input: &Input) -> f64 {
    let steps = u64::from(input.inner) * (u64::from(input.leaf) - 1);
    input.cell * steps as f64
}

/// Nodes along each axis, as floats.
fn node_counts(input: &Input) -> Point {
    let s = node_size(input);
    [0, 1, 2].map(|axis| max(((input.max[axis] - input.min[axis]) / s).ceil(), 1.0))
}

fn by_one(input: &Input) -> bool {
    let bad = |axis: usize| {
        let (low, high) = (input.min[axis], input.max[axis]);
        !low.is_finite() || !high.is_finite() || high < low
    };
    (0..3).any(bad) || !input.cell.is_finite() || input.cell <= 0.0
}

fn by_five(input: &Input) -> bool {
    if !node_size(input).is_finite() {
        return true;
    }
    let counts = node_counts(input);
    if counts.iter().any(|&count| count > MOST_NODES) {
        return true;
    }
    let nodes: u64 = counts.iter().map(|&count| count as u64).product();
    nodes * u64::from(input.inner).pow(3) > MOST_CHILDREN
}

/// What a job of an input needs that causes 1, 2 and 5 do not refuse.
pub fn lengths_needed(input: &Input) -> Lengths {
    let grid = Grid::new(input);
    let children = grid.nodes() * grid.children();
    Lengths {
        kinds: children,
        numbers: children,
        places: children,
        store: grid.active_total() * grid.leaf_points(),
        corners: grid.corners(),
    }
}

fn by_six(input: &Input, lengths: Lengths) -> bool {
    let needed = lengths_needed(input);
    lengths.kinds < needed.kinds
        || lengths.numbers < needed.numbers
        || lengths.places < needed.places
        || lengths.corners < needed.corners
        || lengths.store < needed.store
}

/// The first cause by which open refuses an input on slices of these lengths.
pub fn cause(input: &Input, lengths: Lengths) -> Option<u32> {
    if by_one(input) {
        Some(1)
    } else if !is_block(input.inner) || !is_block(input.leaf) {
        Some(2)
    } else if input.band_min.is_nan() || input.band_max.is_nan() {
        Some(3)
    } else if !input.model_in_order() {
        Some(4)
    } else if by_five(input) {
        Some(5)
    } else if by_six(input, lengths) {
        Some(6)
    } else {
        None
    }
}

/// The grid of an input that causes 1, 2 and 5 do not refuse.
pub struct Grid<'a> {
    input: &'a Input,
    size: f64,
    counts: [u64; 3],
    inner: u64,
    leaf: u64,
}

impl<'a> Grid<'a> {
    pub fn new(input: &'a Input) -> Grid<'a> {
        Grid {
            input,
            size: node_size(input),
            counts: node_counts(input).map(|count| count as u64),
            inner: u64::from(input.inner),
            leaf: u64::from(input.leaf),
        }
    }

    pub fn nodes(&self) -> u64 {
        self.counts.iter().product()
    }

    /// The children of a node.
    pub fn children(&self) -> u64 {
        self.inner.pow(3)
    }

    /// The corners of a node.
    pub fn corners(&self) -> u64 {
        (self.inner + 1).pow(3)
    }

    /// The points of a leaf.
    pub fn leaf_points(&self) -> u64 {
        self.leaf.pow(3)
    }

    fn node_box(&self, v: u64) -> Bounds {
        let at = indices(v, self.counts);
        let least = [0, 1, 2].map(|a| self.input.min[a] + at[a] as f64 * self.size);
        Bounds {
            min: least,
            max: least.map(|x| x + self.size),
        }
    }

    fn child_box(&self, v: u64, c: u64) -> Bounds {
        let node = self.node_box(v);
        let at = indices(c, [self.inner; 3]);
        let step = node.dimensions().map(|size| size / self.inner as f64);
        let least = [0, 1, 2].map(|a| node.min[a] + at[a] as f64 * step[a]);
        Bounds {
            min: least,
            max: [0, 1, 2].map(|a| least[a] + step[a]),
        }
    }

    pub fn is_active(&self, v: u64, c: u64) -> bool {
        let bounds = Bounds {
            min: self.input.min,
            max: self.input.max,
        };
        bounds.intersects(&self.child_box(v, c))
    }

    /// The active ones among a node's children below a place.
    pub fn active_below(&self, v: u64, c: u64) -> u64 {
        (0..c).filter(|&c| self.is_active(v, c)).count() as u64
    }

    pub fn active_total(&self) -> u64 {
        let of = |v: u64| self.active_below(v, self.children());
        (0..self.nodes()).map(of).sum()
    }

    /// The places of a child's corners among its node's.
    fn octet(&self, c: u64) -> [u64; 8] {
        let at = indices(c, [self.inner; 3]);
        let corner = |d: [u64; 3]| [0, 1, 2].map(|a| at[a] + d[a]);
        OCTET.map(|d| place_of(corner(d), self.inner + 1))
    }

    /// For each corner of a node, whether an active child has it.
    pub fn needed(&self, v: u64) -> Vec<bool> {
        let mut needed = vec![false; self.corners() as usize];
        for c in (0..self.children()).filter(|&c| self.is_active(v, c)) {
            for corner in self.octet(c) {
                needed[corner as usize] = true;
            }
        }
        needed
    }

    pub fn corner_value(&self, v: u64, corner: u64) -> f64 {
        let node = self.node_box(v);
        let step = node.dimensions()[0] / self.inner as f64;
        let at = indices(corner, [self.inner + 1; 3]);
        let point = [0, 1, 2].map(|a| node.min[a] + step * at[a] as f64);
        self.input.value(point)
    }

    pub fn point_value(&self, v: u64, c: u64, p: u64) -> f64 {
        let child = self.child_box(v, c);
        let step = child.dimensions().map(|size| size / (self.leaf - 1) as f64);
        let at = indices(p, [self.leaf; 3]);
        let point = [0, 1, 2].map(|a| child.min[a] + at[a] as f64 * step[a]);
        self.input.value(point)
    }

    /// hi + h and lo - h of an active child, where its node's corners hold these
    /// values.
    pub fn limits(&self, v: u64, c: u64, corners: &[f64]) -> [f64; 2] {
        let child = self.child_box(v, c);
        let h = distance(child.min, child.max) / 2.0;
        let values = self.octet(c).map(|corner| corners[corner as usize]);
        let low = values[1..].iter().fold(values[0], |a, &b| min(a, b));
        let high = values[1..].iter().fold(values[0], |a, &b| max(a, b));
        [high + h, low - h]
    }

    /// What an active child becomes, where its node's corners hold these
    /// values.
    pub fn decide(&self, v: u64, c: u64, corners: &[f64]) -> Decision {
        let [above, below] = self.limits(v, c, corners);
        if above < self.input.band_min || below > self.input.band_max {
            let values = self.octet(c).map(|corner| corners[corner as usize]);
            let sum = values.iter().fold(0.0, |sum, value| sum + value);
            Decision::Constant(computed(sum / 8.0))
        } else {
            Decision::Leaf
        }
    }
}
