//! Points and boxes that are computed from boxes and indices: walks, corners,
//! leaves, nodes and children; and what is worked out from an octet.

use super::floats::chosen;
use super::{computed, number, Random, Tally, SPECIAL};
use crate::host::points::{self as host, Ends};
use crate::roots::hardware_sqrt;

const ROUNDS: usize = 100_000;

/// One step of an axis that is cut into so many.
fn step(ends: Ends, axis: usize, steps: usize) -> f64 {
    (ends[1][axis] - ends[0][axis]) / steps as f64
}

/// Where step i of an axis begins.
fn along(ends: Ends, axis: usize, steps: usize, i: usize) -> f64 {
    ends[0][axis] + i as f64 * step(ends, axis, steps)
}

/// The indices of a place in a grid of n by n, i fastest.
fn indices(place: usize, n: usize) -> [usize; 3] {
    [place % n, place / n % n, place / (n * n)]
}

/// A finite number, at times the largest.
fn finite(random: &mut Random) -> f64 {
    match random.next() % 8 {
        0 => f64::MAX,
        1 => -f64::MAX,
        _ => loop {
            let x = number(random);
            if x.is_finite() {
                break x;
            }
        },
    }
}

/// Compares bits. Answers how many differ.
pub fn values() -> usize {
    let mut random = Random(17);
    let mut tally = Tally::default();
    for _ in 0..ROUNDS {
        walks(&mut random, &mut tally);
        corners(&mut random, &mut tally);
        grid(&mut random, &mut tally);
        nodes(&mut random, &mut tally);
        octet(&mut random, &mut tally);
    }
    tally.report()
}

/// Bounds that cause 1 does not refuse; their size may be infinite.
fn walks(random: &mut Random, tally: &mut Tally) {
    let axes = [(); 3].map(|_| {
        let (a, b) = (finite(random), finite(random));
        if b < a {
            [b, a]
        } else {
            [a, b]
        }
    });
    let ends = [0, 1].map(|end| axes.map(|axis| axis[end]));
    let n = [(); 3].map(|_| 2 + random.next() as usize % 5);
    let at = n.map(|n| random.next() as usize % n);
    let point = host::point_step(ends, n, at).expect("a point");
    let cell = host::cell_step(ends, n, at).expect("a cell");
    for axis in 0..3 {
        let expected = along(ends, axis, n[axis] - 1, at[axis]);
        tally.compare("walk's point", point[axis], computed(expected));
        let least = along(ends, axis, n[axis], at[axis]);
        let most = least + step(ends, axis, n[axis]);
        tally.compare("walk's cell", cell[axis], computed(least));
        tally.compare("walk's cell's end", cell[axis + 3], computed(most));
    }
}

/// A cell's eight corners, in octet order.
fn corners(random: &mut Random, tally: &mut Tally) {
    let origin = [(); 3].map(|_| finite(random));
    let cell = match finite(random).abs() {
        size if size > 0.0 => size,
        _ => 1.0,
    };
    let n = [(); 3].map(|_| 2 + random.next() as usize % 5);
    let at = n.map(|n| random.next() as usize % (n - 1));
    for corner in 0..8 {
        let over = [
            corner % 4 == 1 || corner % 4 == 2,
            corner % 4 > 1,
            corner > 3,
        ];
        let point = host::cell_corner(origin, cell, n, at, corner);
        for axis in 0..3 {
            let index = at[axis] as f64;
            let index = if over[axis] { index + 1.0 } else { index };
            let expected = origin[axis] + index * cell;
            tally.compare("cell's corner", point[axis], computed(expected));
        }
    }
}

/// Boxes of any ends.
fn grid(random: &mut Random, tally: &mut Tally) {
    let ends = [(); 2].map(|_| [(); 3].map(|_| number(random)));
    let block = 1 << (1 + random.next() % 3);
    let n = block as usize;
    let place = random.next() as usize % (n * n * n);
    let corner = random.next() as usize % ((n + 1) * (n + 1) * (n + 1));
    let corners = host::corner_point(ends, block, corner);
    let leaves = host::leaf_point(ends, block, place);
    for axis in 0..3 {
        let i = indices(place, n)[axis];
        let c = step(ends, 0, n);
        let expected = ends[0][axis] + c * indices(corner, n + 1)[axis] as f64;
        tally.compare("node's corner", corners[axis], computed(expected));
        let expected = along(ends, axis, n - 1, i);
        tally.compare("leaf's point", leaves[axis], computed(expected));
    }
}

/// The nodes of any bounds and cells, and the children of any box.
fn nodes(random: &mut Random, tally: &mut Tally) {
    let ends = [(); 2].map(|_| [(); 3].map(|_| number(random)));
    let cell = number(random);
    let [inner, leaf] = [(); 2].map(|_| 1u32 << (1 + random.next() % 6));
    let size = cell * (inner * (leaf - 1)) as f64;
    let ours = host::node_size(cell, inner, leaf);
    tally.compare("node size", ours, computed(size));
    let half = distance(ends) / 2.0;
    tally.compare("half diagonal", host::half_diagonal(ends), computed(half));
    let v = random.next() as usize % 1000;
    let node = host::node_box(ends, cell, inner, leaf, v);
    let count = |axis: usize| ((ends[1][axis] - ends[0][axis]) / size).ceil() as usize;
    let (nx, ny) = (count(0).max(1), count(1).max(1));
    let at = [v % nx, v / nx % ny, v / nx / ny];
    let n = inner as usize;
    let place = random.next() as usize % (n * n * n);
    let child = host::child_box(ends, inner, place);
    for axis in 0..3 {
        let least = ends[0][axis] + at[axis] as f64 * size;
        tally.compare("node's box", node[axis], computed(least));
        tally.compare("node's box's end", node[axis + 3], computed(least + size));
        let least = along(ends, axis, n, indices(place, n)[axis]);
        let most = least + step(ends, axis, n);
        tally.compare("child's box", child[axis], computed(least));
        tally.compare("child's box's end", child[axis + 3], computed(most));
    }
}

/// The distance between a box's ends.
fn distance(ends: Ends) -> f64 {
    let square = |axis: usize| {
        let d = ends[1][axis] - ends[0][axis];
        d * d
    };
    hardware_sqrt(square(0) + square(1) + square(2))
}

/// The mean of eight values is computed, the least and the greatest are copied.
fn octet(random: &mut Random, tally: &mut Tally) {
    // One octet in eight is of NaNs alone.
    let nans = random.next() % 8 == 0;
    let nan = |random: &mut Random| f64::from_bits(SPECIAL[7 + random.next() as usize % 3]);
    let octet = [(); 8].map(|_| if nans { nan(random) } else { number(random) });
    let sum = octet.iter().fold(0.0, |sum, value| sum + value);
    tally.compare("average", host::average(&octet), computed(sum / 8.0));
    let [first, rest @ ..] = octet;
    let lowest = rest.iter().fold(first, |a, &b| chosen(a, b, b < a));
    tally.compare("lowest", host::lowest(&octet), lowest.to_bits());
    let highest = rest.iter().fold(first, |a, &b| chosen(a, b, b > a));
    tally.compare("highest", host::highest(&octet), highest.to_bits());
}
