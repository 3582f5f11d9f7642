//! The list of calls on a dense field, each with the original's answer. Where
//! the rules refuse a call the original is not run: the answer is the cause's
//! number.

mod cells;
mod counts;
mod indices;
mod sampling;
mod seeded;
mod values;
mod walks;

use crate::bits::*;
use crate::fields::List;
use crate::random::Random;
use cases::dense_rules::*;

pub use original::types::geometry::{BoundingBox, Vec3, Vec3i};

const ORIGIN: Point = [0.0, 0.0, 0.0];

pub fn list() -> List {
    let mut list = List::default();
    let mut random = Random::new(3);
    counts::write(&mut list, &mut random);
    sampling::write(&mut list, &mut random);
    values::write(&mut list, &mut random);
    cells::write(&mut list, &mut random);
    walks::write(&mut list, &mut random);
    indices::write(&mut list);
    seeded::write(&mut list);
    list
}

fn put(list: &mut List, word: &str, case: Row, answer: Row) {
    list.add(word, &case.0, &answer.0);
}

/// The numbers of a case or of an answer.
struct Row(Vec<u64>);

impl Row {
    fn new() -> Row {
        Row(Vec::new())
    }

    fn count(mut self, n: usize) -> Row {
        self.0.push(n as u64);
        self
    }

    fn counts(mut self, n: Triple) -> Row {
        self.0.extend(n.map(|n| n as u64));
        self
    }

    /// Floats as they are.
    fn floats(mut self, xs: &[f64]) -> Row {
        self.0.extend(xs.iter().map(|x| x.to_bits()));
        self
    }

    /// Floats of an answer, with one pattern for NaN.
    fn results(mut self, xs: &[f64]) -> Row {
        self.0.extend(xs.iter().map(|&x| result(x)));
        self
    }

    fn bounds(self, bounds: Bounds) -> Row {
        self.floats(&bounds[0]).floats(&bounds[1])
    }
}

fn vec3([x, y, z]: Point) -> Vec3<f64> {
    Vec3::new(x, y, z)
}

fn vec3i([i, j, k]: Triple) -> Vec3i {
    Vec3i::new(i, j, k)
}

fn bounding_box([min, max]: Bounds) -> BoundingBox<f64> {
    BoundingBox::new(vec3(min), vec3(max))
}

fn coordinates(p: Vec3<f64>) -> Point {
    [p.x, p.y, p.z]
}

/// A number of ordinary size with all its digits.
fn full(random: &mut Random) -> f64 {
    let x = f64::from_bits(scaled(random.with_digits(53), random.between(-55, -49)));
    if random.below(2) == 0 {
        x
    } else {
        -x
    }
}

fn full_point(random: &mut Random) -> Point {
    [full(random), full(random), full(random)]
}

/// Bounds of ordinary size, each number with all its digits.
fn full_bounds(random: &mut Random) -> Bounds {
    let min = full_point(random);
    let max = min.map(|x| x + full(random).abs());
    [min, max]
}

/// The point with one coordinate set.
fn with(p: Point, axis: usize, x: f64) -> Point {
    let mut p = p;
    p[axis] = x;
    p
}

/// The triple with one number set.
fn with_count(n: Triple, axis: usize, count: usize) -> Triple {
    let mut n = n;
    n[axis] = count;
    n
}

/// All triples below a triple, i fastest.
fn all_below(n: Triple) -> Vec<Triple> {
    let mut all = Vec::new();
    for k in 0..n[2] {
        for j in 0..n[1] {
            for i in 0..n[0] {
                all.push([i, j, k]);
            }
        }
    }
    all
}

/// All triples of numbers from 1 to 4.
fn small_sizes() -> Vec<Triple> {
    all_below([4, 4, 4])
        .into_iter()
        .map(|n| n.map(|n| n + 1))
        .collect()
}

/// Dimensions that cause 9 refuses, some with a product that wraps to a small
/// number.
fn refused_dimensions() -> Vec<Triple> {
    let wide = 1 << 32;
    vec![
        [0, 0, 0],
        [0, 2, 2],
        [2, 0, 2],
        [2, 2, 0],
        [MOST, 0, 1],
        [MOST + 1, 1, 1],
        [1, MOST + 1, 1],
        [1, 1, MOST + 1],
        [4096, 4097, 1],
        [4096, 4096, 2],
        [256, 256, 257],
        [wide, wide, 1],
        [1, wide, wide],
        [wide, 1, wide],
        [(1 << 62) + 1, 4, 1],
        [4, (1 << 62) + 1, 1],
        [2, 2, (1 << 62) + 1],
        [usize::MAX, usize::MAX, 4],
        [usize::MAX, 1, 1],
        [1, 1, usize::MAX],
    ]
}

/// The product of refused dimensions where it wraps in 64 bits, 4 at most.
fn wrapped(n: Triple) -> usize {
    n.into_iter().fold(1, usize::wrapping_mul).min(4)
}

/// Sizes of a cell that cause 1 refuses.
const REFUSED_CELLS: [f64; 7] = [
    0.0,
    -0.0,
    -1.0,
    -5e-324,
    f64::INFINITY,
    f64::NEG_INFINITY,
    f64::NAN,
];

const NOT_FINITE: [f64; 3] = [f64::NAN, f64::INFINITY, f64::NEG_INFINITY];

/// The next float above and below a positive one.
fn above(x: f64) -> f64 {
    f64::from_bits(x.to_bits() + 1)
}

fn below(x: f64) -> f64 {
    f64::from_bits(x.to_bits() - 1)
}
