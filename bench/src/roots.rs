//! The rows about roots: ours against the machine's.

use crate::host::{self, ROW};
use crate::measure::row;

/// The machine's root, behind a call as ours is.
#[inline(never)]
pub fn hardware_sqrt(x: f64) -> f64 {
    x.sqrt()
}

#[inline(never)]
fn hardware_sqrt_row(xs: &mut [f64]) {
    for x in xs {
        *x = x.sqrt();
    }
}

pub fn rows() {
    let numbers = numbers();
    row(
        "root, each from the one before",
        ROW,
        &mut |out| chain(host::sqrt, &numbers, out),
        Some(&mut |out| chain(hardware_sqrt, &numbers, out)),
    );
    row(
        "roots, one call each",
        ROW,
        &mut |out| each(host::sqrt, &numbers, out),
        Some(&mut |out| each(hardware_sqrt, &numbers, out)),
    );
    row(
        "roots, in rows of 64",
        ROW,
        &mut |out| whole(host::sqrt_row, &numbers, out),
        Some(&mut |out| whole(hardware_sqrt_row, &numbers, out)),
    );
}

/// Positive numbers of ordinary size with all their digits.
fn numbers() -> [f64; ROW] {
    let mut digits = 0x9e37_79b9_7f4a_7c15u64;
    [(); ROW].map(|_| {
        digits = digits.wrapping_mul(0x5851_f42d_4c95_7f2d).wrapping_add(1);
        (1 + digits % 1000) as f64 * f64::from_bits(0x3ff0_0000_0000_0000 | digits >> 12)
    })
}

/// Each root waits for the one before it.
fn chain(root: impl Fn(f64) -> f64, numbers: &[f64; ROW], out: &mut [f64]) {
    let mut x = 1.0;
    for (number, result) in numbers.iter().zip(out) {
        x = root(x + number);
        *result = x;
    }
}

/// No root waits for another.
fn each(root: impl Fn(f64) -> f64, numbers: &[f64; ROW], out: &mut [f64]) {
    for (number, result) in numbers.iter().zip(out) {
        *result = root(*number);
    }
}

/// All roots by one call.
fn whole(roots: impl Fn(&mut [f64]), numbers: &[f64; ROW], out: &mut [f64]) {
    out.copy_from_slice(numbers);
    roots(out);
}
