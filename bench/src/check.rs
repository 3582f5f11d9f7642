//! Compares bits, which no contract speaks of where a NaN is concerned: a
//! computed NaN has one pattern, and a copied one keeps its own.

#[cfg(feature = "original")]
pub mod fields;
pub mod floats;
#[cfg(feature = "original")]
pub mod models;
pub mod points;
pub mod roots;
#[cfg(feature = "original")]
pub mod sparse;

use std::collections::BTreeMap;

/// The pattern of a NaN that was computed.
const COMPUTED_NAN: u64 = 0x7ff8_0000_0000_0000;

/// A small generator of numbers (splitmix64).
pub struct Random(u64);

impl Random {
    fn next(&mut self) -> u64 {
        self.0 = self.0.wrapping_add(0x9e37_79b9_7f4a_7c15);
        let z = (self.0 ^ (self.0 >> 30)).wrapping_mul(0xbf58_476d_1ce4_e5b9);
        let z = (z ^ (z >> 27)).wrapping_mul(0x94d0_49bb_1331_11eb);
        z ^ (z >> 31)
    }
}

/// Numbers for which an operation may have a rule of its own. The last three are
/// NaNs.
const SPECIAL: [u64; 10] = [
    0,
    0x8000_0000_0000_0000,
    0x3ff0_0000_0000_0000,
    1,
    0x7fef_ffff_ffff_ffff,
    0x7ff0_0000_0000_0000,
    0xfff0_0000_0000_0000,
    0x7ff8_0000_0000_0000,
    0xfff8_0000_0000_0000,
    0x7ff8_0000_0000_1234,
];

/// Mostly of ordinary size with all digits, at times special.
fn number(random: &mut Random) -> f64 {
    let bits = random.next();
    if bits % 16 == 0 {
        return f64::from_bits(SPECIAL[(random.next() % 10) as usize]);
    }
    let exponent = 1015 + bits % 16;
    f64::from_bits((bits & 0x800f_ffff_ffff_ffff) | exponent << 52)
}

/// For each kind of result how many were compared, how many of them are NaN and
/// how many wrong.
#[derive(Default)]
struct Tally(BTreeMap<&'static str, [usize; 3]>);

impl Tally {
    fn compare(&mut self, kind: &'static str, got: f64, expected: u64) {
        let got = got.to_bits();
        let [compared, nans, wrong] = self.0.entry(kind).or_default();
        *compared += 1;
        *nans += f64::from_bits(expected).is_nan() as usize;
        if got != expected {
            *wrong += 1;
            if *wrong <= 10 {
                println!("{kind}: {got:016x}, not {expected:016x}");
            }
        }
    }

    /// Prints what was compared, and answers how many differ.
    fn report(&self) -> usize {
        for (kind, [compared, nans, wrong]) in &self.0 {
            println!("check: {kind}: {compared}, {nans} of them NaN, {wrong} wrong");
        }
        self.0.values().map(|counts| counts[2]).sum()
    }
}

/// The bits of a computed result.
///
/// Never inlined: next to a root, the compiler takes the test for NaN out and
/// leaves the pattern that the machine's root gives.
#[inline(never)]
fn computed(x: f64) -> u64 {
    if x.is_nan() {
        COMPUTED_NAN
    } else {
        x.to_bits()
    }
}

/// Any bits; squares and numbers near them; few digits.
fn operand(random: &mut Random) -> f64 {
    let any = random.next();
    let x = f64::from_bits(any);
    match random.next() % 8 {
        0..=3 => f64::from_bits(any >> 1),
        4 => x,
        5 => f64::from_bits(
            (x * x)
                .to_bits()
                .wrapping_add(random.next() % 3)
                .wrapping_sub(1),
        ),
        6 => f64::from_bits(any & 0x7fff_ffff_0000_0000),
        _ => f64::from_bits(any >> (12 + random.next() % 52)),
    }
}
