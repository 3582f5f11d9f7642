//! Texts of jobs that are run to their end.

use super::faults;
use super::text::written;
use super::{of_lines, List, CASE};
use crate::sparse::inputs::{self, of_grid, one_child, plane_case, with_band, with_parts};
use crate::sparse::inputs::{ALL, NONE};
use ledger::floats::NAN;
use ledger::{Input, Part};

/// The listing of the plane case, with letters for its numbers.
const CASE_LISTING: [&str; 9] = [
    "(done 1 8 4 32 59)",
    "(leaf 0 0 Z P Z P Z P Z P)",
    "(constant 0 1 3ff8000000000000)",
    "(leaf 0 2 Z P Z P Z P Z P)",
    "(constant 0 3 3ff8000000000000)",
    "(leaf 0 4 Z P Z P Z P Z P)",
    "(constant 0 5 3ff8000000000000)",
    "(leaf 0 6 Z P Z P Z P Z P)",
    "(constant 0 7 3ff8000000000000)",
];

/// The texts of the examples.
const CASE_JOB: &str = include_str!("../../../../examples/case.job");
const BRACKET_JOB: &str = include_str!("../../../../examples/bracket.job");

/// Patterns of NaN: with digits, signalling, negative, negative and signalling
/// with digits, all ones.
const NANS: [u64; 5] = [
    0x7ff8_0000_0000_0001,
    0x7ff0_0000_0000_0001,
    0xfff8_0000_0000_0000,
    0xfff0_0000_0000_1234,
    u64::MAX,
];

pub fn texts(list: &mut List) {
    assert_eq!(of_lines(&CASE), CASE_JOB);
    list.exactly(CASE_JOB, &of_lines(&CASE_LISTING));
    list.add(BRACKET_JOB);
    small_grids(list);
    extreme_grids(list);
    full_slices(list);
    bands(list);
    models(list);
    nan_constants(list);
    nan_chains(list);
    nan_points(list);
}

impl List {
    /// The text of a job, and the counts of its answer.
    fn done(&mut self, input: &Input, counts: &str) {
        self.due(written(input), &format!("(done {counts})"));
    }

    /// A model whose values have these bits, by turns along x.
    fn values(&mut self, parts: &[Part], at_0: u64, at_1: u64) {
        let pair = format!(" {at_0:016x} {at_1:016x}");
        let answer = format!("(done 1 1 1 8 16)\n(leaf 0 0{})\n", pair.repeat(4));
        self.exactly(written(&one_leaf(parts)), &answer);
    }

    /// A model with the same value everywhere.
    fn value(&mut self, parts: &[Part], bits: u64) {
        self.values(parts, bits, bits);
    }
}

/// Bounds that touch children, and bounds of a point, a line and a face.
fn small_grids(list: &mut List) {
    let all = |max, inner| with_band(of_grid([0.0; 3], max, 1.0, inner, 2), ALL);
    list.done(&all([1.0; 3], 2), "1 8 8 64 91");
    list.done(&all([0.5; 3], 2), "1 1 1 8 16");
    list.done(&all([1.0; 3], 4), "1 8 8 64 91");
    list.done(&all([0.0; 3], 2), "1 1 1 8 16");
    list.done(&all([0.0; 3], 4), "1 1 1 8 16");
    list.done(&all([1.0, 0.0, 0.0], 2), "1 2 2 16 28");
    list.done(&all([1.0, 1.0, 0.0], 2), "1 4 4 32 50");
    list.done(&all([2.0, 0.0, 0.0], 2), "1 2 2 16 28");
    let above = f64::from_bits(2.0f64.to_bits() + 1);
    list.done(&all([above, 0.0, 0.0], 2), "2 3 3 24 44");
    list.done(&all([4.0, 0.0, 0.0], 2), "2 4 4 32 56");
    list.done(&all([4.0; 3], 4), "1 64 64 512 637");
    list.add(written(&inputs::large()));
    list.add(written(&inputs::two_nodes()));
    for leaf in [2, 4, 8] {
        list.add(written(&of_grid(
            [-0.3, 0.1, 7.0],
            [0.3, 0.2, 7.0],
            0.1,
            2,
            leaf,
        )));
    }
    list.add(written(&of_grid(
        [-1.0, 0.0, 0.25],
        [0.5, 3.5, 0.25],
        0.5,
        2,
        2,
    )));
    list.add(written(&of_grid([-0.0; 3], [0.0; 3], 1.0 / 3.0, 4, 4)));
}

/// Infinite ends, nodes below the spacing of their place, infinite half
/// diagonals, the smallest cell.
fn extreme_grids(list: &mut List) {
    list.done(&inputs::no_child(), "1 0 0 0 0");
    list.done(&inputs::empty_node(), "2 2 2 16 28");
    list.done(&with_band(inputs::all_active(), ALL), "1 8 8 64 91");
    list.add(written(&inputs::all_active()));
    // No store is needed where no child is active.
    let cell = 1e308 / 126.0;
    list.done(&of_grid([1e308; 3], [1e308; 3], cell, 2, 64), "1 0 0 0 0");
    for value in [f64::NEG_INFINITY, -1e308, -1.0] {
        let point = of_grid([0.0; 3], [0.0; 3], 1e155, 2, 2);
        let input = with_parts(point, &[Part::Const(value)]);
        list.done(&with_band(input, [0.0, 0.0]), "1 1 1 8 16");
    }
    list.done(&of_grid([0.0; 3], [0.0; 3], 5e-324, 2, 2), "1 1 1 8 16");
    list.done(
        &of_grid([-5e-324; 3], [5e-324; 3], 5e-324, 2, 2),
        "1 8 8 64 91",
    );
    list.done(
        &of_grid([f64::MAX; 3], [f64::MAX; 3], 1.0, 2, 2),
        "1 8 0 0 27",
    );
}

/// All that is lent: 512 children, 4,096 values, 125 corners; 64 parts.
fn full_slices(list: &mut List) {
    let all = |max, inner, leaf| with_band(of_grid([0.0; 3], max, 1.0, inner, leaf), ALL);
    list.done(&all([8.0; 3], 2, 2), "64 512 512 4096 5824");
    list.done(&all([8.0; 3], 4, 2), "8 512 512 4096 5096");
    list.done(&with_band(all([8.0; 3], 2, 2), NONE), "64 512 0 0 1728");
    list.done(&with_band(all([8.0; 3], 4, 2), NONE), "8 512 0 0 1000");
    list.done(&all([12.0; 3], 4, 4), "1 64 64 4096 4221");
    list.done(&all([14.0; 3], 2, 8), "1 8 8 4096 4123");
    list.done(&all([0.0; 3], 2, 16), "1 1 1 4096 4104");
    list.done(&all([128.0, 0.0, 0.0], 2, 2), "64 128 128 1024 1792");
    for count in [63, 64] {
        list.due(faults::with_parts(count), "(done 1 8 8 64 91)");
    }
    for count in [40, 63, 64] {
        list.add(written(&with_parts(
            plane_case(),
            &inputs::long_model()[..count],
        )));
    }
}

/// Bands that give leaves, constants, and both; hi + h at the lower end.
fn bands(list: &mut List) {
    let infinity = f64::INFINITY;
    list.done(&with_band(plane_case(), ALL), "1 8 8 64 91");
    list.done(&with_band(plane_case(), NONE), "1 8 0 0 27");
    for band in [
        [1.0, -1.0],
        [-infinity, -infinity],
        [infinity, -infinity],
        [0.5, 0.75],
    ] {
        list.add(written(&with_band(plane_case(), band)));
        list.add(written(&with_band(inputs::two_nodes(), band)));
    }
    let h = 3.0f64.sqrt() / 2.0;
    let at = |value: f64, band: f64| {
        with_band(with_parts(one_child(), &[Part::Const(value)]), [band, band])
    };
    let next = |x: f64| f64::from_bits(x.to_bits() + 1);
    list.done(&at(0.0, h), "1 1 1 8 16");
    list.done(&at(0.0, -h), "1 1 1 8 16");
    list.exactly(
        written(&at(0.0, next(h))),
        &of_lines(&["(done 1 1 0 0 8)", "(constant 0 0 Z)"]),
    );
    list.done(&at(0.0, next(-h)), "1 1 0 0 8");
    list.exactly(
        written(&at(-0.0, 5.0)),
        &of_lines(&["(done 1 1 0 0 8)", "(constant 0 0 Z)"]),
    );
}

fn models(list: &mut List) {
    for parts in inputs::models() {
        for band in [[-0.25, 0.0], [0.5, 0.75]] {
            let input = with_parts(plane_case(), &parts);
            list.add(written(&with_band(input, band)));
        }
    }
}

/// One child with eight points, whatever the model.
fn one_leaf(parts: &[Part]) -> Input {
    with_band(with_parts(one_child(), parts), ALL)
}

fn constant(bits: u64) -> Part {
    Part::Const(f64::from_bits(bits))
}

/// NaN constants alone, and under each operation on either side.
fn nan_constants(list: &mut List) {
    for nan in NANS {
        list.value(&[constant(nan)], nan);
        list.value(&[constant(nan), Part::Neg(0)], NAN);
    }
    list.value(&[constant(NAN)], NAN);
    let operands = [
        NANS[0],
        NANS[3],
        (-0.0f64).to_bits(),
        f64::INFINITY.to_bits(),
    ];
    for a in operands {
        for b in operands {
            for operation in [Part::Min, Part::Max, Part::Add, Part::Sub] {
                let parts = [constant(a), constant(b), operation(0, 1)];
                list.add(written(&one_leaf(&parts)));
            }
        }
    }
}

/// NaNs copied and computed one after the other.
fn nan_chains(list: &mut List) {
    let [a, b, c, ..] = NANS;
    let with = |operations: &[Part]| {
        let mut parts = vec![constant(a), constant(b), constant(c), Part::Const(1.0)];
        parts.extend(operations);
        parts
    };
    let one = 1.0f64.to_bits();
    list.value(&with(&[Part::Min(0, 1)]), a);
    list.value(&with(&[Part::Max(1, 0)]), b);
    list.value(&with(&[Part::Min(1, 1)]), b);
    list.value(&with(&[Part::Min(0, 3)]), one);
    list.value(&with(&[Part::Max(3, 0)]), one);
    list.value(&with(&[Part::Max(1, 2), Part::Min(4, 0)]), b);
    list.value(&with(&[Part::Max(1, 2), Part::Min(0, 4)]), a);
    list.value(
        &with(&[Part::Min(2, 1), Part::Max(4, 0), Part::Min(5, 1)]),
        c,
    );
    list.value(&with(&[Part::Add(0, 3), Part::Min(4, 1)]), NAN);
    list.value(&with(&[Part::Add(0, 3), Part::Min(1, 4)]), b);
    list.value(
        &with(&[Part::Neg(2), Part::Max(4, 2), Part::Min(5, 1)]),
        NAN,
    );
    list.value(&with(&[Part::Max(2, 0), Part::Sub(4, 4)]), NAN);
    list.value(&with(&[Part::Max(2, 0), Part::Neg(4)]), NAN);
    list.value(&with(&[Part::Min(2, 3), Part::Neg(4)]), (-1.0f64).to_bits());
    list.value(
        &with(&[Part::Min(1, 2), Part::Add(0, 1), Part::Max(4, 5)]),
        b,
    );
    let mut long = vec![constant(a)];
    long.extend((1..63).map(|place| Part::Min(place - 1, 0)));
    list.value(&long, a);
    long.push(Part::Neg(62));
    list.value(&long, NAN);
}

/// Shapes with values that are NaN, all or some of them.
fn nan_points(list: &mut List) {
    let infinity = f64::INFINITY;
    // NaN at x = 0, infinite elsewhere.
    let half = Part::Plane([infinity, 0.0, 0.0], 0.0);
    let (nan, other) = (constant(NANS[1]), infinity.to_bits());
    list.values(&[half], NAN, other);
    list.values(&[half, nan, Part::Min(0, 1)], NAN, other);
    list.values(&[half, nan, Part::Min(1, 0)], NANS[1], other);
    list.values(&[nan, half, Part::Max(0, 1)], NANS[1], other);
    list.values(
        &[half, Part::Const(2.0), Part::Min(0, 1)],
        2.0f64.to_bits(),
        2.0f64.to_bits(),
    );
    list.values(&[half, Part::Neg(0)], NAN, other | 1 << 63);
    for shape in [
        Part::Sphere([infinity, 0.0, 0.0], infinity),
        Part::Sphere([0.0, f64::NAN, 0.0], 1.0),
        Part::Sphere([0.0; 3], f64::NAN),
        Part::Plane([0.0, 0.0, f64::NAN], 1.0),
        Part::Plane([1.0; 3], f64::NAN),
    ] {
        list.value(&[shape], NAN);
    }
    list.value(&[Part::Const(infinity), Part::Sub(0, 0)], NAN);
    list.value(
        &[
            Part::Const(infinity),
            Part::Const(-infinity),
            Part::Add(0, 1),
        ],
        NAN,
    );
    // Four corners are NaN, so the average is, and the others prune.
    let pruned = with_band(with_parts(one_child(), &[half]), [-1.0, 0.0]);
    let answer = "(done 1 1 0 0 8)\n(constant 0 0 7ff8000000000000)\n";
    list.exactly(written(&pruned), answer);
    let copied = with_parts(pruned, &[nan, half, Part::Min(0, 1)]);
    list.exactly(written(&copied), answer);
}
