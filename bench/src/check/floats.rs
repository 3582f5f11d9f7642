//! Functions of floats, points and boxes.

use super::{computed, number, operand, Random, Tally};
use crate::host::points as host;
use crate::roots::hardware_sqrt;

const ROUNDS: usize = 200_000;

/// min and max, of which `beyond` says whether b is beyond a (rules F9 and F10).
/// Both copy.
pub fn chosen(a: f64, b: f64, beyond: bool) -> f64 {
    if b.is_nan() || !(a.is_nan() || beyond) {
        a
    } else {
        b
    }
}

/// Compares bits. Answers how many differ.
pub fn values() -> usize {
    let mut random = Random(13);
    let mut tally = Tally::default();
    for _ in 0..ROUNDS {
        let [a, b] = [(); 2].map(|_| match random.next() % 2 {
            0 => operand(&mut random),
            _ => number(&mut random),
        });
        tally.compare("floor", host::floor(a), computed(a.floor()));
        tally.compare("ceiling", host::ceil(a), computed(a.ceil()));
        tally.compare("size", host::abs(a), computed(a.abs()));
        tally.compare("min", host::min(a, b), chosen(a, b, b < a).to_bits());
        tally.compare("max", host::max(a, b), chosen(a, b, b > a).to_bits());
        boxes(&mut random, &mut tally);
    }
    tally.report()
}

fn boxes(random: &mut Random, tally: &mut Tally) {
    let ends = [(); 2].map(|_| [(); 3].map(|_| number(random)));
    let [p, q] = ends;
    let d = [0, 1, 2].map(|axis| p[axis] - q[axis]);
    let distance = hardware_sqrt((d[0] * d[0] + d[1] * d[1]) + d[2] * d[2]);
    tally.compare("distance", host::distance(ends), computed(distance));
    let dimensions = host::dimensions(ends);
    for axis in 0..3 {
        tally.compare("dimension", dimensions[axis], computed(q[axis] - p[axis]));
    }
}
