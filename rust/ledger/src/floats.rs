//! Floats: the NaN rule, min, max, distance.

/// The bits of every computed NaN.
pub const NAN: u64 = 0x7ff8_0000_0000_0000;

/// A computed value. The test is on the bits: a compiler may take a NaN for
/// any other.
pub fn computed(x: f64) -> f64 {
    let bits = x.to_bits();
    if bits & !(1 << 63) > f64::INFINITY.to_bits() {
        f64::from_bits(NAN)
    } else {
        x
    }
}

/// The smaller, a number before a NaN (rule F9).
pub fn min(a: f64, b: f64) -> f64 {
    if b.is_nan() {
        a
    } else if a.is_nan() || b < a {
        b
    } else {
        a
    }
}

/// The larger, a number before a NaN (rule F10).
pub fn max(a: f64, b: f64) -> f64 {
    if b.is_nan() {
        a
    } else if a.is_nan() || b > a {
        b
    } else {
        a
    }
}

/// sqrt((dx² + dy²) + dz²).
pub fn distance(a: [f64; 3], b: [f64; 3]) -> f64 {
    let [dx, dy, dz] = [0, 1, 2].map(|axis| a[axis] - b[axis]);
    computed(((dx * dx + dy * dy) + dz * dz).sqrt())
}
