//! Floats by their bits.

/// Every NaN result is written with this pattern.
pub const NAN: u64 = 0x7ff8_0000_0000_0000;

/// The sign's bit.
pub const SIGN: u64 = 1 << 63;

pub const INFINITY: u64 = 0x7ff0_0000_0000_0000;

/// The largest finite number, the smallest normal one, the largest and the
/// smallest below that.
pub const LARGEST: u64 = 0x7fef_ffff_ffff_ffff;
pub const SMALLEST_NORMAL: u64 = 0x0010_0000_0000_0000;
pub const LARGEST_SUBNORMAL: u64 = 0x000f_ffff_ffff_ffff;
pub const SMALLEST: u64 = 1;

/// The 52 digits after the leading one.
pub const DIGITS: u64 = (1 << 52) - 1;

/// The positive normal number with this biased exponent (1 to 2046) and digits.
pub fn normal(exponent: u64, digits: u64) -> u64 {
    (exponent << 52) | (digits & DIGITS)
}

/// m × 2^e, where m has exactly 53 binary digits and the result is normal.
pub fn scaled(m: u64, e: i64) -> u64 {
    assert!(m >> 52 == 1);
    let exponent = e + 52 + 1023;
    assert!((1..=2046).contains(&exponent));
    normal(exponent as u64, m)
}

/// A finite positive number with its neighbours below and above.
pub fn around(x: u64) -> [u64; 3] {
    [x.saturating_sub(1), x, x + 1]
}

/// The bits of a result, with one pattern for NaN.
///
/// Never inlined: next to a root, the compiler takes the test for NaN out and
/// leaves the pattern that the machine's root gives.
#[inline(never)]
pub fn result(x: f64) -> u64 {
    if x.is_nan() {
        NAN
    } else {
        x.to_bits()
    }
}
