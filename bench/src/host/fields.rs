//! Dense fields. All calls are to be accepted.

use super::{Layout, ROW};

#[link(name = "jisampode", kind = "static")]
extern "C" {
    #[cfg(feature = "original")]
    fn jisampode_point_count(bounds: &[f64; 6], cell: f64, counts: &mut [usize; 3]) -> u32;
    fn jisampode_sample(
        parts: &[u32; 3 * ROW],
        reals: &[f64; 4 * ROW],
        count: u32,
        x: f64,
        y: f64,
        z: f64,
        cell: f64,
        nx: usize,
        ny: usize,
        nz: usize,
        values: *mut f64,
        values_length: usize,
    ) -> u32;
    fn jisampode_padding(
        nx: usize,
        ny: usize,
        nz: usize,
        value: f64,
        values: *mut f64,
        values_length: usize,
    ) -> u32;
    fn jisampode_threshold(
        nx: usize,
        ny: usize,
        nz: usize,
        limit: f64,
        values: *mut f64,
        values_length: usize,
    ) -> u32;
    fn jisampode_smooth(
        nx: usize,
        ny: usize,
        nz: usize,
        factor: f64,
        rounds: u32,
        values: *mut f64,
        values_length: usize,
        scratch: *mut f64,
        scratch_length: usize,
    ) -> u32;
}

fn accepted(answer: u32) {
    assert_eq!(answer, 0, "a call was refused");
}

/// The points along each axis of a field in bounds.
#[cfg(feature = "original")]
pub fn point_count([x0, y0, z0]: [f64; 3], [x1, y1, z1]: [f64; 3], cell: f64) -> [usize; 3] {
    let mut counts = [0; 3];
    accepted(unsafe { jisampode_point_count(&[x0, y0, z0, x1, y1, z1], cell, &mut counts) });
    counts
}

pub fn sample(l: &Layout, [x, y, z]: [f64; 3], cell: f64, n: [usize; 3], values: &mut [f64]) {
    let (count, [nx, ny, nz]) = (l.count as u32, n);
    let (place, len) = (values.as_mut_ptr(), values.len());
    accepted(unsafe {
        jisampode_sample(
            &l.words, &l.numbers, count, x, y, z, cell, nx, ny, nz, place, len,
        )
    });
}

pub fn padding([nx, ny, nz]: [usize; 3], value: f64, values: &mut [f64]) {
    let (place, len) = (values.as_mut_ptr(), values.len());
    accepted(unsafe { jisampode_padding(nx, ny, nz, value, place, len) });
}

pub fn threshold([nx, ny, nz]: [usize; 3], limit: f64, values: &mut [f64]) {
    let (place, len) = (values.as_mut_ptr(), values.len());
    accepted(unsafe { jisampode_threshold(nx, ny, nz, limit, place, len) });
}

pub fn smooth(
    [nx, ny, nz]: [usize; 3],
    factor: f64,
    rounds: u32,
    values: &mut [f64],
    scratch: &mut [f64],
) {
    let (place, len) = (values.as_mut_ptr(), values.len());
    let (spare, spare_len) = (scratch.as_mut_ptr(), scratch.len());
    accepted(unsafe { jisampode_smooth(nx, ny, nz, factor, rounds, place, len, spare, spare_len) });
}
