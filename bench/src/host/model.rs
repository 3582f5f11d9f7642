//! Models, laid out in flat arrays.

use super::ROW;
use crate::models::Part;

extern "C" {
    fn bench_evaluate(
        words: &[u32; 3 * ROW],
        numbers: &[f64; 4 * ROW],
        count: usize,
        x: f64,
        y: f64,
        z: f64,
        values: &mut [f64; ROW],
    ) -> f64;
    fn bench_evaluate_row(
        words: &[u32; 3 * ROW],
        numbers: &[f64; 4 * ROW],
        count: usize,
        px: &[f64; ROW],
        py: &[f64; ROW],
        pz: &[f64; ROW],
        n: usize,
        values: &mut [f64; ROW * ROW],
    );
}

/// A model laid out in flat arrays: rows of codes, first and second inputs, and rows of x, y, z and w.
pub struct Layout {
    pub(super) words: [u32; 3 * ROW],
    pub(super) numbers: [f64; 4 * ROW],
    pub(super) count: usize,
}

impl Layout {
    pub fn new(parts: &[Part]) -> Layout {
        let mut layout = Layout {
            words: [0; 3 * ROW],
            numbers: [0.0; 4 * ROW],
            count: parts.len(),
        };
        for (place, part) in parts.iter().enumerate() {
            match *part {
                Part::Const(value) => layout.shape(place, 0, [0.0; 3], value),
                Part::Sphere(centre, radius) => layout.shape(place, 1, centre, radius),
                Part::Plane(normal, offset) => layout.shape(place, 2, normal, offset),
                Part::Min(a, b) => layout.operation(place, 3, a, b),
                Part::Max(a, b) => layout.operation(place, 4, a, b),
                Part::Add(a, b) => layout.operation(place, 5, a, b),
                Part::Sub(a, b) => layout.operation(place, 6, a, b),
                Part::Neg(a) => layout.operation(place, 7, a, 0),
            }
        }
        layout
    }

    fn shape(&mut self, place: usize, code: u32, c: [f64; 3], w: f64) {
        self.words[place] = code;
        for (row, number) in [c[0], c[1], c[2], w].into_iter().enumerate() {
            self.numbers[row * ROW + place] = number;
        }
    }

    fn operation(&mut self, place: usize, code: u32, a: u32, b: u32) {
        for (row, word) in [code, a, b].into_iter().enumerate() {
            self.words[row * ROW + place] = word;
        }
    }
}

/// The model's value at a point. The values of the parts are written too.
pub fn evaluate(l: &Layout, x: f64, y: f64, z: f64, values: &mut [f64; ROW]) -> f64 {
    unsafe { bench_evaluate(&l.words, &l.numbers, l.count, x, y, z, values) }
}

/// The values of the parts at a row of points, part by part.
pub fn evaluate_row(l: &Layout, [px, py, pz]: [&[f64; ROW]; 3], values: &mut [f64; ROW * ROW]) {
    unsafe { bench_evaluate_row(&l.words, &l.numbers, l.count, px, py, pz, ROW, values) }
}
