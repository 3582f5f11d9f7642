//! Calls that change a field's values. The values of a case end its line, and
//! every value after the call ends its answer.
//! - `pad NX NY NZ VALUE V V ..`, answered by the refusal and the values.
//! - `threshold NX NY NZ LIMIT V V ..`, likewise.
//! - `smooth NX NY NZ FACTOR ROUNDS SCRATCH V V ..`: SCRATCH values of scratch
//!   are lent, each of them 100 before the call. The answer is the refusal, the
//!   scratch after (1 unchanged, 0 every value +0, 2 anything else), the values.

use super::*;
use original::types::computation::data::DenseField;

/// Numbers for which an operation may have a rule of its own.
const SPECIAL: [f64; 12] = [
    0.0,
    -0.0,
    1.0,
    -1.0,
    5e-324,
    -5e-324,
    f64::INFINITY,
    f64::NEG_INFINITY,
    f64::NAN,
    f64::MAX,
    -f64::MAX,
    2.2250738585072014e-308,
];

pub fn write(list: &mut List, random: &mut Random) {
    measured(list);
    paddings(list, random);
    thresholds(list, random);
    smooth_sizes(list, random);
    smooth_factors(list, random);
    smooth_special(list, random);
    smooth_refused(list);
}

fn field(n: Triple, values: &[f64]) -> DenseField<f64> {
    DenseField::from_data(vec3(ORIGIN), 1.0, vec3i(n), values.to_vec()).unwrap()
}

/// The answer of a call that only cause 9 refuses.
fn answer(n: Triple, values: &[f64], call: impl Fn(&mut DenseField<f64>)) -> Row {
    if values_refused(n, values.len()) {
        return Row::new().count(9).results(values);
    }
    let mut field = field(n, values);
    call(&mut field);
    Row::new().count(0).results(field.data())
}

pub fn pad(list: &mut List, n: Triple, value: f64, values: &[f64]) {
    let answer = answer(n, values, |field| field.padding(value));
    let case = Row::new().counts(n).floats(&[value]).floats(values);
    put(list, "pad", case, answer);
}

pub fn threshold(list: &mut List, n: Triple, limit: f64, values: &[f64]) {
    let answer = answer(n, values, |field| field.threshold(limit));
    let case = Row::new().counts(n).floats(&[limit]).floats(values);
    put(list, "threshold", case, answer);
}

pub struct Smoothing {
    pub n: Triple,
    pub factor: f64,
    pub rounds: u32,
    pub scratch: usize,
}

pub fn smooth(list: &mut List, call: Smoothing, values: &[f64]) {
    let Smoothing {
        n,
        factor,
        rounds,
        scratch,
    } = call;
    let case = Row::new()
        .counts(n)
        .floats(&[factor])
        .count(rounds as usize)
        .count(scratch)
        .floats(values);
    let answer = if values_refused(n, values.len()) || scratch < values.len() {
        Row::new().count(9).count(1).results(values)
    } else {
        let mut field = field(n, values);
        field.smooth(factor, rounds);
        Row::new().count(0).count(0).results(field.data())
    };
    put(list, "smooth", case, answer);
}

/// With a scratch as long as the values.
fn smooth_exact(list: &mut List, n: Triple, factor: f64, rounds: u32, values: &[f64]) {
    let call = Smoothing {
        n,
        factor,
        rounds,
        scratch: values.len(),
    };
    smooth(list, call, values);
}

/// As many values as a field of this size has: 1, 2, 3 and so on.
fn numbered(n: Triple) -> Vec<f64> {
    (1..=n[0] * n[1] * n[2]).map(|v| v as f64).collect()
}

fn full_values(random: &mut Random, n: Triple) -> Vec<f64> {
    (0..n[0] * n[1] * n[2]).map(|_| full(random)).collect()
}

/// Measured facts about the rules.
fn measured(list: &mut List) {
    pad(list, [4, 4, 4], -1.0, &numbered([4, 4, 4]));
    let n = [3, 3, 3];
    let mut values = [1.0; 27];
    for at in [4, 10, 12, 14, 16, 22] {
        values[at] = 6.0;
    }
    values[13] = 0.0;
    smooth_exact(list, n, 0.5, 1, &values);
    smooth_exact(list, [2, 2, 2], 0.5, 1, &numbered([2, 2, 2]));
    threshold(list, [2, 1, 1], 1.0, &[-1.0, -0.0]);
}

fn paddings(list: &mut List, random: &mut Random) {
    for n in small_sizes() {
        pad(list, n, -1.0, &numbered(n));
    }
    for n in [[5, 5, 5], [5, 3, 4], [3, 4, 5], [1, 1, 20], [20, 1, 1]] {
        let value = full(random);
        let values = full_values(random, n);
        pad(list, n, value, &values);
    }
    // Any value goes in, and what is inside stays as it is.
    let n = [3, 3, 4];
    for value in SPECIAL {
        let mut values = numbered(n);
        values[13] = value;
        values[22] = -value;
        pad(list, n, value, &values);
    }
    lengths(list, |list, n, values| pad(list, n, 7.0, values));
}

/// Lengths and dimensions that cause 9 refuses.
fn lengths(list: &mut List, call: impl Fn(&mut List, Triple, &[f64])) {
    let values = numbered([5, 5, 5]);
    for n in [[1, 1, 1], [2, 2, 2], [3, 3, 3], [2, 3, 4]] {
        let points = n[0] * n[1] * n[2];
        for len in [0, points - 1, points + 1] {
            call(list, n, &values[..len]);
        }
    }
    for n in refused_dimensions() {
        call(list, n, &values[..wrapped(n)]);
    }
}

fn thresholds(list: &mut List, random: &mut Random) {
    let n = [3, 2, 2];
    for limit in SPECIAL {
        threshold(list, n, limit, &SPECIAL);
        threshold(list, n, -limit, &SPECIAL);
    }
    // A limit equal to a value's size, and the floats on both sides.
    for _ in 0..8 {
        let value = full(random);
        for limit in [below(value.abs()), value.abs(), above(value.abs())] {
            threshold(list, [2, 1, 1], limit, &[value, -value]);
        }
    }
    let tiny = f64::from_bits(SMALLEST);
    for limit in [2.0 * tiny, above(1.0), below(f64::MAX), 1e-308] {
        threshold(list, n, limit, &SPECIAL);
    }
    for n in [[1, 1, 1], [4, 4, 4], [1, 5, 3], [4, 2, 1], [17, 1, 1]] {
        let limit = full(random).abs();
        let values = full_values(random, n);
        threshold(list, n, limit, &values);
    }
    lengths(list, |list, n, values| threshold(list, n, 3.5, values));
}

/// Every small size, and some larger, with few rounds.
fn smooth_sizes(list: &mut List, random: &mut Random) {
    for (number, n) in small_sizes().into_iter().enumerate() {
        let values = full_values(random, n);
        smooth_exact(list, n, 0.3, 1 + number as u32 % 3, &values);
    }
    for n in [
        [5, 3, 3],
        [3, 5, 3],
        [3, 3, 5],
        [4, 5, 6],
        [6, 5, 4],
        [9, 3, 3],
        [5, 5, 5],
    ] {
        let values = full_values(random, n);
        smooth_exact(list, n, full(random), 2, &values);
    }
}

fn smooth_factors(list: &mut List, random: &mut Random) {
    let factors = [
        0.0,
        -0.0,
        0.5,
        1.0,
        -1.0,
        2.0,
        0.1,
        1e-300,
        5e-324,
        f64::INFINITY,
        f64::NEG_INFINITY,
        f64::NAN,
    ];
    for (number, factor) in factors.into_iter().enumerate() {
        for rounds in [0, 1, 2, 3, 7] {
            let n = [[3, 3, 3], [4, 3, 3], [3, 4, 3], [3, 3, 4]][(number + rounds as usize) % 4];
            let values = full_values(random, n);
            // The scratch is as long as the values, or longer.
            let call = Smoothing {
                n,
                factor,
                rounds,
                scratch: values.len() + [0, 1, 30, 0, 100][random.below(5) as usize],
            };
            smooth(list, call, &values);
        }
    }
    for rounds in [2, 3, 7] {
        let values = full_values(random, [4, 4, 4]);
        smooth_exact(list, [4, 4, 4], 0.25, rounds, &values);
    }
    // No rounds: the scratch is zeroed all the same.
    for n in [[1, 1, 1], [2, 2, 2], [4, 1, 3]] {
        let call = Smoothing {
            n,
            factor: 0.5,
            rounds: 0,
            scratch: 40,
        };
        smooth(list, call, &numbered(n));
    }
}

/// A 3×3×3 field: its centre, then the neighbours in the order of the sum.
fn star(centre: f64, neighbours: [f64; 6]) -> Vec<f64> {
    let mut values = vec![1.0; 27];
    values[13] = centre;
    for (at, value) in [14, 12, 16, 10, 22, 4].into_iter().zip(neighbours) {
        values[at] = value;
    }
    values
}

fn smooth_special(list: &mut List, random: &mut Random) {
    let n = [3, 3, 3];
    // The same number all over, and at the centre alone.
    for value in SPECIAL {
        smooth_exact(list, n, 0.5, 1, &star(value, [value; 6]));
        smooth_exact(list, n, 1.0, 1, &star(value, [1.0; 6]));
    }
    // One of the neighbours is special.
    for at in 0..6 {
        for value in [f64::NAN, f64::INFINITY, 5e-324] {
            let mut neighbours = [-0.0; 6];
            neighbours[at] = value;
            smooth_exact(list, n, 0.5, 1, &star(-0.0, neighbours));
        }
        let mut neighbours = [f64::INFINITY; 6];
        neighbours[at] = f64::NEG_INFINITY;
        smooth_exact(list, n, 0.5, 1, &star(0.0, neighbours));
    }
    // The order of the sum shows.
    for _ in 0..12 {
        let mut neighbours = [1e16, -1e16, 1.0, 3.0, 1e-3, -1.0];
        for last in (1..6).rev() {
            neighbours.swap(last, random.below(last as u64 + 1) as usize);
        }
        smooth_exact(list, n, 1.0, 1, &star(0.25, neighbours));
    }
    // Old values alone count: two inner points side by side on each axis.
    for n in [[4, 3, 3], [3, 4, 3], [3, 3, 4]] {
        smooth_exact(list, n, 1.0, 1, &numbered(n));
        smooth_exact(list, n, 1.0, 2, &numbered(n));
    }
    // Infinities and NaNs that spread over the rounds.
    for value in [f64::NAN, f64::INFINITY, 1e308] {
        let mut values = numbered([5, 3, 3]);
        values[16] = value;
        for rounds in [1, 2, 3] {
            smooth_exact(list, [5, 3, 3], 0.5, rounds, &values);
        }
    }
}

fn smooth_refused(list: &mut List) {
    for n in [[1, 1, 1], [2, 2, 2], [3, 3, 3], [2, 3, 4]] {
        let values = numbered(n);
        for rounds in [0, 2] {
            let call = |scratch| Smoothing {
                n,
                factor: 0.5,
                rounds,
                scratch,
            };
            smooth(list, call(values.len() - 1), &values);
            smooth(list, call(0), &values);
            smooth(list, call(values.len() - 1), &values[1..]);
            smooth(list, call(values.len()), &values[1..]);
        }
        let mut longer = values.clone();
        longer.push(9.0);
        smooth_exact(list, n, 0.5, 1, &longer);
    }
    lengths(list, |list, n, values| {
        let call = Smoothing {
            n,
            factor: 0.5,
            rounds: 2,
            scratch: 130,
        };
        smooth(list, call, values);
    });
}
