//! Texts on their form that causes 1 to 6 refuse, and what lies just beside.

use super::faults;
use super::text::written;
use super::{of_lines, List, CASE};
use crate::sparse::inputs::{of_grid, plane_case, with_band, with_parts, NONE};
use ledger::{Input, Part};

pub fn texts(list: &mut List) {
    by_one(list);
    by_two(list);
    by_three(list);
    by_four(list);
    by_five(list);
    by_six(list);
    several(list);
}

impl List {
    /// The text of a job that a cause refuses.
    fn refused(&mut self, input: &Input, cause: u32) {
        self.due(written(input), &format!("(refused {cause})"));
    }

    /// The plane case with a change, which a cause refuses.
    fn changed(&mut self, cause: u32, change: impl Fn(&mut Input)) {
        let mut input = plane_case();
        change(&mut input);
        self.refused(&input, cause);
    }
}

fn above(x: f64) -> f64 {
    f64::from_bits(x.to_bits() + 1)
}

fn by_one(list: &mut List) {
    for axis in 0..3 {
        for bad in [f64::INFINITY, f64::NEG_INFINITY, f64::NAN] {
            list.changed(1, |input| input.min[axis] = bad);
            list.changed(1, |input| input.max[axis] = bad);
        }
        list.changed(1, |input| input.min[axis] = above(2.0));
        list.changed(1, |input| input.max[axis] = -5e-324);
    }
    let signalling = f64::from_bits(0x7ff0_0000_0000_0001);
    for bad in [
        0.0,
        -0.0,
        -1.0,
        -5e-324,
        f64::INFINITY,
        -f64::INFINITY,
        f64::NAN,
        signalling,
    ] {
        list.changed(1, |input| input.cell = bad);
    }
}

fn by_two(list: &mut List) {
    for size in [0, 1, 3, 5, 6, 7, 9, 15, 33, 63, 65, 128, u32::MAX] {
        list.changed(2, |input| input.inner = size);
        list.changed(2, |input| input.leaf = size);
    }
    list.due(faults::longest(), "(refused 2)");
}

fn by_three(list: &mut List) {
    for bits in [0x7ff8_0000_0000_0000, 0x7ff0_0000_0000_0001, u64::MAX] {
        list.changed(3, |input| input.band_min = f64::from_bits(bits));
        list.changed(3, |input| input.band_max = f64::from_bits(bits));
    }
}

/// No part, and inputs at their own place and after it.
fn by_four(list: &mut List) {
    list.due(of_lines(&CASE[..4]), "(refused 4)");
    list.due(
        of_lines(&[&CASE[..4], &["(neg 0)", CASE[4]]].concat()),
        "(refused 4)",
    );
    let x = plane_case().parts[0];
    let operations = [Part::Min, Part::Max, Part::Add, Part::Sub];
    for place in [2, 3, 64, u32::MAX] {
        for operation in operations {
            for bad in [operation(place, 0), operation(1, place)] {
                list.refused(&with_parts(plane_case(), &[x, x, bad]), 4);
            }
        }
        list.refused(&with_parts(plane_case(), &[x, x, Part::Neg(place)]), 4);
    }
    list.refused(&with_parts(plane_case(), &[x, Part::Neg(1), x]), 4);
    let mut long = vec![x; 64];
    long[63] = Part::Neg(63);
    list.refused(&with_parts(plane_case(), &long), 4);
}

/// A grid of this extent with nodes of 2 × 2 × 2 cells.
fn extent(max: [f64; 3]) -> Input {
    of_grid([0.0; 3], max, 1.0, 2, 2)
}

/// An infinite node size, nodes along an axis, and children in all. What is
/// just within these limits is too much for the slices.
fn by_five(list: &mut List) {
    list.changed(5, |input| input.cell = f64::MAX);
    list.changed(5, |input| input.cell = 5e-324);
    list.changed(5, |input| input.cell = 1e-300);
    list.refused(&of_grid([-1e308; 3], [1e308; 3], 1.0, 2, 2), 5);
    for axis in 0..3 {
        let along = |length: f64| {
            let mut max = [0.0; 3];
            max[axis] = length;
            extent(max)
        };
        list.refused(&along(2048.0), 6);
        list.refused(&along(above(2048.0)), 5);
        list.refused(&along(2050.0), 5);
    }
    list.refused(&extent([256.0; 3]), 6);
    list.refused(&extent([256.0, 256.0, above(256.0)]), 5);
    list.refused(&of_grid([0.0; 3], [256.0; 3], 1.0, 64, 2), 6);
    list.refused(&of_grid([0.0; 3], [257.0, 256.0, 256.0], 1.0, 64, 2), 5);
}

/// Children, corners and store values past what is lent.
fn by_six(list: &mut List) {
    // 65 nodes of 8 children, and 9 of 64.
    list.refused(&extent([130.0, 0.0, 0.0]), 6);
    list.refused(&extent([above(128.0), 0.0, 0.0]), 6);
    list.refused(&of_grid([0.0; 3], [36.0, 0.0, 0.0], 1.0, 4, 2), 6);
    // 729 corners and more.
    for inner in [8, 16, 32, 64] {
        list.refused(&of_grid([0.0; 3], [0.0; 3], 1.0, inner, 2), 6);
    }
    // 12 leaves of 512 values, 2 of 4,096, 1 of 32,768 and of 262,144, 80 of 64.
    list.refused(&of_grid([0.0; 3], [15.0, 14.0, 14.0], 1.0, 2, 8), 6);
    list.refused(&of_grid([0.0; 3], [15.0, 0.0, 0.0], 1.0, 2, 16), 6);
    for leaf in [32, 64] {
        list.refused(&of_grid([0.0; 3], [0.0; 3], 1.0, 2, leaf), 6);
    }
    let many = of_grid([0.0; 3], [12.5, 12.0, 12.0], 1.0, 4, 4);
    list.refused(&many, 6);
    // The store is for active children, also where none becomes a leaf.
    list.refused(&with_band(many, NONE), 6);
}

/// Two causes at once: the lower number. A text off its form: 12.
fn several(list: &mut List) {
    let mut input = plane_case();
    input.count = 0;
    input.cell = f64::MAX;
    list.refused(&input, 4);
    input.band_max = f64::NAN;
    list.refused(&input, 3);
    input.leaf = 3;
    list.refused(&input, 2);
    input.min[1] = f64::NAN;
    list.refused(&input, 1);
    list.due(written(&input) + "(const)\n", "(refused 12 5)");
    let model = [Part::Neg(0)];
    let many = with_parts(of_grid([0.0; 3], [5000.0; 3], 1.0, 8, 2), &model);
    list.refused(&many, 4);
    let parts = plane_case().parts;
    list.refused(&with_parts(many, &parts), 5);
}
