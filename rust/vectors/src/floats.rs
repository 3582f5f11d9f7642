//! The list of roots, roundings, minima and maxima: lines `OP A B R`.

use crate::bits::*;
use crate::random::Random;
use original::parts::{max, min};
use std::collections::HashSet;

/// Zeros, subnormals, ordinary and huge numbers, infinities and NaNs.
const SPECIAL: [u64; 18] = [
    0,
    SIGN,
    SMALLEST,
    SIGN | SMALLEST,
    LARGEST_SUBNORMAL,
    SIGN | SMALLEST_NORMAL,
    0x3fe0_0000_0000_0000,
    0xbfe0_0000_0000_0000,
    0x3ff0_0000_0000_0000,
    0xbff0_0000_0000_0000,
    0x4008_0000_0000_0000,
    LARGEST,
    SIGN | LARGEST,
    INFINITY,
    SIGN | INFINITY,
    NAN,
    SIGN | NAN,
    INFINITY | 1,
];

/// The lines so far. A line is kept once.
struct Lines {
    text: String,
    seen: HashSet<String>,
}

impl Lines {
    fn add(&mut self, op: &str, a: u64, b: u64, r: f64) {
        let line = format!("{op} {a:016x} {b:016x} {:016x}\n", result(r));
        if self.seen.insert(line.clone()) {
            self.text.push_str(&line);
        }
    }

    fn root(&mut self, a: u64) {
        self.add("sqrt", a, 0, f64::from_bits(a).sqrt());
    }

    fn roundings(&mut self, a: u64) {
        self.add("floor", a, 0, f64::from_bits(a).floor());
        self.add("ceil", a, 0, f64::from_bits(a).ceil());
    }

    fn selections(&mut self, a: u64, b: u64) {
        let (x, y) = (f64::from_bits(a), f64::from_bits(b));
        self.add("min", a, b, min(x, y));
        self.add("max", a, b, max(x, y));
    }
}

pub fn list() -> String {
    let mut lines = Lines {
        text: String::new(),
        seen: HashSet::new(),
    };
    let mut random = Random::new(1);
    special_roots(&mut lines);
    every_exponent(&mut lines, &mut random);
    subnormals(&mut lines, &mut random);
    powers_of_two(&mut lines);
    exact_squares(&mut lines, &mut random);
    rounded_squares(&mut lines, &mut random);
    near_half_way(&mut lines, &mut random);
    roundings(&mut lines, &mut random);
    selections(&mut lines, &mut random);
    lines.text
}

fn special_roots(lines: &mut Lines) {
    for a in SPECIAL {
        lines.root(a);
    }
    // Small whole numbers, above and below 0.
    for n in 1..=30u64 {
        lines.root((n as f64).to_bits());
        if n <= 5 {
            lines.root(SIGN | (n as f64).to_bits());
        }
    }
}

/// Every exponent of a normal number.
fn every_exponent(lines: &mut Lines, random: &mut Random) {
    for exponent in 1..=2046 {
        lines.root(normal(exponent, random.draw()));
    }
}

/// Below the normal numbers: every place of the leading digit.
fn subnormals(lines: &mut Lines, random: &mut Random) {
    for place in 0..52u32 {
        lines.root(1 << place);
        lines.root((2 << place) - 1);
        lines.root(random.with_digits(place + 1));
    }
}

/// Powers of two and four, with their neighbours.
fn powers_of_two(lines: &mut Lines) {
    let ends = [1, 2, 2045, 2046];
    let middle = 1013..1034;
    for exponent in ends.into_iter().chain(middle).chain((31..2046).step_by(31)) {
        for a in around(normal(exponent, 0)) {
            lines.root(a);
        }
    }
}

/// Squares that are floats: of whole numbers of at most 26 digits, scaled by
/// powers of four, with their neighbours.
fn exact_squares(lines: &mut Lines, random: &mut Random) {
    for count in 1..=26 {
        for _ in 0..2 {
            let q = random.with_digits(count) as f64;
            let scale = 2f64.powi(2 * random.between(-400, 400) as i32);
            for a in around((q * q * scale).to_bits()) {
                lines.root(a);
            }
        }
    }
}

/// Squares of numbers of 53 digits, rounded, with their neighbours: the root
/// is near a float.
fn rounded_squares(lines: &mut Lines, random: &mut Random) {
    for _ in 0..60 {
        let q = scaled(random.with_digits(53), random.between(-500, 400));
        let x = f64::from_bits(q);
        for a in around((x * x).to_bits()) {
            lines.root(a);
        }
    }
}

/// Numbers whose root is as near as can be to the middle of two floats.
///
/// With q of 53 digits, the number is q² + q - r for a small even r: the
/// middle's square is q² + q + 1/4. Where r is 0 or above, the root is q, and
/// below 0 it is q + 1.
fn near_half_way(lines: &mut Lines, random: &mut Random) {
    for zeros in [52u32, 53] {
        for half in -60..=60i64 {
            for q in square_ends(zeros, 2 * half) {
                let square = (q as i128) * (q as i128 + 1) - 2 * half as i128;
                let m = (square >> zeros) as u64;
                if m >> 52 == 1 {
                    let e = zeros as i64 + 2 * random.between(-500, 400);
                    lines.root(scaled(m, e));
                }
            }
        }
    }
}

/// The numbers q of 53 digits for which q² + q - r ends in this many zeros
/// (52 or 53), for an even r. Each further digit of q is settled by the next
/// digit of q² + q - r.
fn square_ends(zeros: u32, r: i64) -> Vec<u64> {
    let mut found = Vec::new();
    for first in [0u64, 1] {
        let mut q = first;
        for place in 1..zeros {
            let left = (q as i128) * (q as i128 + 1) - r as i128;
            if (left >> place) & 1 == 1 {
                q |= 1 << place;
            }
        }
        if zeros == 52 {
            q |= 1 << 52;
        }
        if q >> 52 == 1 {
            found.push(q);
        }
    }
    found
}

fn roundings(lines: &mut Lines, random: &mut Random) {
    for a in SPECIAL {
        lines.roundings(a);
    }
    for a in [LARGEST_SUBNORMAL, SMALLEST_NORMAL, LARGEST] {
        for sign in [0, SIGN] {
            lines.roundings(sign | a);
        }
    }
    // Around whole numbers and halves, 0.5 among them.
    for n in 1..=32u64 {
        both_sides(lines, n as f64 / 2.0);
    }
    // Around powers of two, up to where every float is whole and past it.
    for power in 4..=54 {
        both_sides(lines, 2f64.powi(power));
    }
    // Around halves near the last floats that have one.
    for power in 45..=52 {
        both_sides(lines, 2f64.powi(power) - 0.5);
        both_sides(lines, 2f64.powi(power) + 1.0);
    }
    // Any digits, from tiny to huge, most of them where a part is cut off.
    for _ in 0..220 {
        lines.roundings(scaled(random.with_digits(53), random.between(-56, 3)) | sign(random));
    }
    for _ in 0..40 {
        lines.roundings(scaled(random.with_digits(53), random.between(-1000, 900)) | sign(random));
    }
}

fn both_sides(lines: &mut Lines, x: f64) {
    for a in around(x.to_bits()) {
        lines.roundings(a);
        lines.roundings(SIGN | a);
    }
}

fn sign(random: &mut Random) -> u64 {
    random.below(2) * SIGN
}

fn selections(lines: &mut Lines, random: &mut Random) {
    for a in SPECIAL {
        for b in SPECIAL {
            lines.selections(a, b);
        }
    }
    for _ in 0..60 {
        let a = normal(random.between(1, 2046) as u64, random.draw()) | sign(random);
        let b = normal(random.between(1, 2046) as u64, random.draw()) | sign(random);
        lines.selections(a, b);
    }
    // Neighbours, and a number against itself with the other sign.
    for _ in 0..30 {
        let a = normal(random.between(1, 2045) as u64, random.draw()) | sign(random);
        lines.selections(a, a + 1);
        lines.selections(a + 1, a);
        lines.selections(a, a ^ SIGN);
    }
}
