//! Calls on dense fields against the rules, bit for bit: a computed NaN
//! has one pattern, and a copied one keeps its own. The points and boxes of grid
//! walks follow the original and are not worked out here; of their NaNs the
//! pattern is compared.

use crate::answers::{self, as_it_is};
use cases::dense::{numbered, Case, Walk};
use cases::dense_rules::{octet_refusal, Triple};
use ledger::floats::{computed, NAN};
use ledger::{Input, Part};

/// The corners of a cell, in the order of an octet.
const OCTET: [Triple; 8] = [
    [0, 0, 0],
    [1, 0, 0],
    [1, 1, 0],
    [0, 1, 0],
    [0, 0, 1],
    [1, 0, 1],
    [1, 1, 1],
    [0, 1, 1],
];

/// Runs cases with these numbers.
pub fn run(first: u64, count: u64, seed: u64) -> Result<String, String> {
    let mut compared = 0;
    let mut nans = 0;
    for number in first..first + count {
        let case = numbered(seed, number);
        let got = answers::dense(&case, as_it_is).and_then(|got| holds(&case, got));
        let got = got.map_err(|what| {
            format!(
                "dense case {number} of seed {seed}: {what}\n{case:?}\n\
                 repeat with: harness dense 1 {seed} {number}"
            )
        })?;
        compared += got.len();
        nans += got.iter().filter(|&&bits| is_nan(bits)).count();
    }
    Ok(format!(
        "dense: {count} dense cases, {compared} numbers compared by their bits, \
         {nans} of them NaN, 0 differences"
    ))
}

fn is_nan(bits: u64) -> bool {
    f64::from_bits(bits).is_nan()
}

fn holds(case: &Case, got: Vec<u64>) -> Result<Vec<u64>, String> {
    let expected = match case.refusal() {
        0 => expected(case),
        cause => Some(vec![cause as u64]),
    };
    let Some(expected) = expected else {
        // Cursors are no floats, and none of an accepted walk has a NaN's bits.
        let other = got.iter().find(|&&bits| is_nan(bits) && bits != NAN);
        return match other {
            None => Ok(got),
            Some(bits) => Err(format!("a computed NaN is {bits:x}")),
        };
    };
    if got == expected {
        return Ok(got);
    }
    let differ = got.iter().zip(&expected).position(|(a, b)| a != b);
    Err(format!(
        "{:x?} and {:x?} differ at {differ:?}",
        got, expected
    ))
}

/// What an accepted call answers, but for points and boxes of grid walks.
fn expected(case: &Case) -> Option<Vec<u64>> {
    Some(match case {
        Case::Count([min, max], cell) => {
            let along = |a: usize| ((max[a] - min[a]) / cell).floor() + 1.0;
            vec![0, along(0) as u64, along(1) as u64, along(2) as u64]
        }
        Case::Sample {
            parts,
            origin,
            cell,
            n,
            ..
        } => {
            let model = of_parts(parts);
            let point = |at: Triple| [0, 1, 2].map(|a| origin[a] + cell * at[a] as f64);
            whole(places(*n).map(|at| model.value(point(at))).collect())
        }
        Case::Padding(n, value, values) => {
            let outer = |at: Triple| (0..3).any(|a| at[a] == 0 || at[a] == n[a] - 1);
            let padded = |(at, &old): (Triple, &f64)| if outer(at) { *value } else { old };
            whole(places(*n).zip(values).map(padded).collect())
        }
        Case::Threshold(_, limit, values) => {
            let cut = |&old: &f64| if old.abs() < *limit { 0.0 } else { old };
            whole(values.iter().map(cut).collect())
        }
        Case::Smooth {
            n,
            factor,
            rounds,
            values,
            ..
        } => {
            let round = |old: Vec<f64>, _| smoothed(*n, *factor, &old);
            whole((0..*rounds).fold(values.clone(), round))
        }
        Case::Points(..) | Case::Cells(..) => return None,
        Case::Octets(walk, values) => octets(walk, values),
        Case::Corners(inner, active) => corners(*inner as usize, active),
    })
}

/// All places of a field, i fastest.
fn places(n: Triple) -> impl Iterator<Item = Triple> {
    (0..n[0] * n[1] * n[2]).map(move |p| [p % n[0], p / n[0] % n[1], p / n[0] / n[1]])
}

fn place([i, j, k]: Triple, n: Triple) -> usize {
    (k * n[1] + j) * n[0] + i
}

/// The values, and a scratch that is all 0.
fn whole(values: Vec<f64>) -> Vec<u64> {
    let mut numbers = vec![0];
    numbers.extend(values.iter().map(|x| x.to_bits()));
    numbers.push(0);
    numbers
}

/// An input whose model has these parts. The rest of it is not looked at.
fn of_parts(parts: &[Part]) -> Input {
    cases::inputs::with_parts(cases::inputs::plane_case(), parts)
}

fn smoothed(n: Triple, factor: f64, old: &[f64]) -> Vec<f64> {
    let value = |at: Triple| {
        let here = place(at, n);
        if (0..3).any(|a| at[a] == 0 || at[a] + 1 >= n[a]) {
            return old[here];
        }
        let (row, layer) = (n[0], n[0] * n[1]);
        let sum = old[here + 1] + old[here - 1] + old[here + row] + old[here - row];
        let sum = sum + old[here + layer] + old[here - layer];
        computed((1.0 - factor) * old[here] + factor * (sum / 6.0))
    };
    places(n).map(value).collect()
}

fn octets(walk: &Walk, values: &[f64]) -> Vec<u64> {
    let n = walk.n;
    let mut numbers = Vec::new();
    let mut at = walk.from;
    for _ in 0..walk.steps {
        let refused = octet_refusal(n, at, values.len());
        if refused != 0 || n.contains(&1) || at[2] >= n[2] - 1 {
            numbers.push(refused as u64);
            break;
        }
        numbers.push(1);
        let corner = |d: Triple| place([0, 1, 2].map(|a| at[a] + d[a]), n);
        numbers.extend(OCTET.map(|d| values[corner(d)].to_bits()));
        at[0] += 1;
        if at[0] == n[0] - 1 {
            at = [0, at[1] + 1, at[2]];
        }
        if at[1] == n[1] - 1 {
            at = [0, 0, at[2] + 1];
        }
        numbers.extend(at.map(|n| n as u64));
    }
    numbers
}

/// The count and the corners of active children, ascending.
fn corners(inner: usize, active: &[bool]) -> Vec<u64> {
    let mut needed = vec![false; (inner + 1).pow(3)];
    for (at, _) in places([inner; 3]).zip(active).filter(|(_, &is)| is) {
        for d in OCTET {
            needed[place([0, 1, 2].map(|a| at[a] + d[a]), [inner + 1; 3])] = true;
        }
    }
    let needed = (0..).zip(needed).filter(|(_, is)| *is);
    let corners: Vec<u64> = needed.map(|(corner, _)| corner).collect();
    let mut numbers = vec![0, corners.len() as u64];
    numbers.extend(corners);
    numbers
}
