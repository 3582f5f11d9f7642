//! The first cases that the differential harness compares with the original.
//! Of a walk it is the first step.

use super::sampling::Call;
use super::values::Smoothing;
use super::*;
use cases::dense::{numbered, Case};
use cases::digest::SEED;
use original::jobs::part;

const CASES: usize = 120;

/// The most values that are lent, and the most parts that are given.
const LENT: usize = 150;
const GIVEN: usize = 30;

pub fn write(list: &mut List) {
    let cases = (0..).map(|number| numbered(SEED, number));
    for case in cases.filter(fits).take(CASES) {
        write_case(list, case);
    }
}

/// Whether the list has such calls, and the program takes one so long.
fn fits(case: &Case) -> bool {
    match case {
        Case::Count(..) | Case::Points(..) | Case::Cells(..) => true,
        Case::Sample { parts, length, .. } => parts.len() <= GIVEN && *length <= LENT,
        Case::Padding(_, _, values) | Case::Threshold(_, _, values) | Case::Octets(_, values) => {
            values.len() <= LENT
        }
        Case::Smooth {
            values, scratch, ..
        } => values.len().max(*scratch) <= LENT,
        Case::Corners(..) => false,
    }
}

/// With one pattern for NaN: the bounds are computed, and a computed NaN has
/// other bits on other machines.
fn one_nan(bounds: Bounds) -> Bounds {
    bounds.map(|p| p.map(|x| f64::from_bits(result(x))))
}

fn write_case(list: &mut List, case: Case) {
    match case {
        Case::Count(bounds, cell) => counts::case(list, one_nan(bounds), cell),
        Case::Sample {
            parts,
            origin,
            cell,
            n,
            length,
        } => {
            let call = Call {
                origin,
                cell,
                n,
                len: length,
                count: parts.len(),
                parts: parts.iter().map(part).collect(),
            };
            sampling::case(list, call);
        }
        Case::Padding(n, value, values) => values::pad(list, n, value, &values),
        Case::Threshold(n, limit, values) => values::threshold(list, n, limit, &values),
        Case::Smooth {
            n,
            factor,
            rounds,
            values,
            scratch,
        } => {
            let call = Smoothing {
                n,
                factor,
                rounds,
                scratch,
            };
            values::smooth(list, call, &values);
        }
        Case::Points(bounds, walk) => {
            walks::points(list, one_nan(bounds), walk.n, walk.from);
        }
        Case::Cells(bounds, walk) => {
            walks::cells(list, one_nan(bounds), walk.n, walk.from);
        }
        Case::Octets(walk, values) => {
            walks::octets(list, walk.n, walk.from, &values);
        }
        Case::Corners(..) => unreachable!("a case that does not fit"),
    }
}
