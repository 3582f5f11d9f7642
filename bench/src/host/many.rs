//! A model at many points in one call.

use super::{Layout, ROW};

extern "C" {
    fn bench_values(
        words: &[u32; 3 * ROW],
        numbers: &[f64; 4 * ROW],
        count: u32,
        px: *const f64,
        px_length: usize,
        py: *const f64,
        py_length: usize,
        pz: *const f64,
        pz_length: usize,
        results: *mut f64,
        results_length: usize,
    );
}

/// The model's values at points, one after the other. The model is made of its arrays once.
pub fn values(l: &Layout, [px, py, pz]: [&[f64]; 3], results: &mut [f64]) {
    unsafe {
        bench_values(
            &l.words,
            &l.numbers,
            l.count as u32,
            px.as_ptr(),
            px.len(),
            py.as_ptr(),
            py.len(),
            pz.as_ptr(),
            pz.len(),
            results.as_mut_ptr(),
            results.len(),
        )
    }
}
