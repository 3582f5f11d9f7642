//! The functions of the two archives: the C interface (`jisampode`), and what the
//! benchmark calls beyond it (`bench_host`).

pub mod fields;
#[cfg(feature = "original")]
pub mod many;
mod model;
pub mod points;
pub mod sparse;

pub use model::{evaluate, evaluate_row, Layout};

/// The length of a row, and the most parts of a model.
pub const ROW: usize = 64;

#[link(name = "bench_host", kind = "static")]
extern "C" {
    fn bench_sqrt(x: f64) -> f64;
    fn bench_sqrt_row(xs: *mut f64, len: usize);
}

pub fn sqrt(x: f64) -> f64 {
    unsafe { bench_sqrt(x) }
}

pub fn sqrt_row(xs: &mut [f64]) {
    unsafe { bench_sqrt_row(xs.as_mut_ptr(), xs.len()) }
}
