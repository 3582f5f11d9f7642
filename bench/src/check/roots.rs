//! Roots, alone and in rows of 1 to 200, against the machine's.

use super::{computed, operand, Random, Tally, SPECIAL};
use crate::host;
use crate::roots::hardware_sqrt;

/// How many roots are compared, each of them alone and in a row.
const ROOTS: usize = 20_000_000;

/// The longest row.
const LONGEST: u64 = 200;

const DIGITS: u64 = (1 << 52) - 1;

type Class = (&'static str, fn(&mut Random) -> f64);

const CLASSES: [Class; 9] = [
    ("root of any bits", |random| f64::from_bits(random.next())),
    ("root of a normal number", |random| {
        f64::from_bits((1 + random.next() % 2046) << 52 | random.next() & DIGITS)
    }),
    ("root of a square or a neighbour", |random| {
        let x = f64::from_bits(1023 << 52 | random.next() & DIGITS);
        neighbour(x * x, random)
    }),
    ("root next to the middle of two floats", middle),
    ("root of a power of two or a neighbour", |random| {
        neighbour(f64::from_bits((1 + random.next() % 2045) << 52), random)
    }),
    ("root of a subnormal number", |random| {
        let bits = random.next();
        f64::from_bits((bits & DIGITS) >> (bits >> 58).min(51))
    }),
    ("root of what is below 0", |random| {
        -f64::from_bits(random.next() >> 1)
    }),
    ("root of a zero, an infinity or a NaN", |random| {
        f64::from_bits(SPECIAL[(random.next() % SPECIAL.len() as u64) as usize])
    }),
    ("root of a number with few digits", operand),
];

/// x, or the float before or after it.
fn neighbour(x: f64, random: &mut Random) -> f64 {
    f64::from_bits(x.to_bits() + random.next() % 3 - 1)
}

/// A number whose root lies as near as can be to the middle of two floats: q² + q
/// less a small even number, for a q of 53 digits, with 52 zeros at its end. Those
/// zeros fix the last digits of q, which are found by Newton's steps on them.
fn middle(random: &mut Random) -> f64 {
    let less = (random.next() % 64).wrapping_sub(32) << 1;
    let mut q = random.next() & 1;
    for _ in 0..6 {
        let slope = q.wrapping_mul(2) | 1;
        let inverse = (0..6).fold(slope, |i, _| {
            i.wrapping_mul(2u64.wrapping_sub(slope.wrapping_mul(i)))
        });
        let value = q.wrapping_mul(q.wrapping_add(1)).wrapping_sub(less);
        q = q.wrapping_sub(value.wrapping_mul(inverse));
    }
    let q = 1 << 52 | u128::from(q & DIGITS);
    let number = (q * (q + 1)).wrapping_sub(less as i64 as u128) >> 52;
    let scale = f64::from_bits((523 + 2 * (random.next() % 500)) << 52);
    number as f64 * scale
}

/// Rows of one class each, and rows of all classes by turns. Answers how many
/// roots differ.
pub fn values() -> usize {
    let mut random = Random(7);
    let mut tally = Tally::default();
    let mut compared = 0;
    while compared < ROOTS {
        let length = 1 + random.next() % LONGEST;
        let one = random.next() as usize % (2 * CLASSES.len());
        let drawn: Vec<(&str, f64)> = (0..length)
            .map(|place| {
                let class = if one < CLASSES.len() {
                    one
                } else {
                    place as usize
                };
                let (name, draw) = CLASSES[class % CLASSES.len()];
                (name, draw(&mut random))
            })
            .collect();
        let mut row: Vec<f64> = drawn.iter().map(|&(_, x)| x).collect();
        host::sqrt_row(&mut row);
        for (&(name, x), in_row) in drawn.iter().zip(row) {
            let expected = computed(hardware_sqrt(x));
            tally.compare(name, host::sqrt(x), expected);
            tally.compare(name, in_row, expected);
        }
        compared += drawn.len();
    }
    tally.report()
}
