//! The values of models, against the original's.

use super::{computed, number, Random, Tally, COMPUTED_NAN};
use crate::host::{self, Layout, ROW};
use crate::models::{theirs, Part};
use original::parts::Model;

/// How many models are compared, each at a row of points.
const MODELS: usize = 20_000;

/// A model of at most so many parts.
pub fn model(random: &mut Random, most: u32) -> Vec<Part> {
    let count = 1 + random.next() as u32 % most;
    (0..count).map(|place| part(random, place)).collect()
}

fn part(random: &mut Random, place: u32) -> Part {
    let vector = [(); 3].map(|_| number(random));
    let w = number(random);
    let (a, b) = match place {
        0 => (0, 0),
        _ => (
            (random.next() % place as u64) as u32,
            (random.next() % place as u64) as u32,
        ),
    };
    let kinds = if place == 0 { 3 } else { 8 };
    match random.next() % kinds {
        0 => Part::Const(w),
        1 => Part::Sphere(vector, w),
        2 => Part::Plane(vector, w),
        3 => Part::Min(a, b),
        4 => Part::Max(a, b),
        5 => Part::Add(a, b),
        6 => Part::Sub(a, b),
        _ => Part::Neg(a),
    }
}

/// The bits of a NaN that the part at a place gives. Min and max give one only
/// where both inputs are NaN, and then the first, as it is; a constant is
/// copied too.
fn nan_bits(parts: &[Part], place: usize) -> u64 {
    match parts[place] {
        Part::Const(value) => value.to_bits(),
        Part::Min(a, _) | Part::Max(a, _) => nan_bits(parts, a as usize),
        _ => COMPUTED_NAN,
    }
}

/// The bits of a model's value.
pub fn expected(parts: &[Part], value: f64) -> u64 {
    if value.is_nan() {
        nan_bits(parts, parts.len() - 1)
    } else {
        computed(value)
    }
}

/// The last part's values at a row of points.
fn in_a_row(layout: &Layout, parts: &[Part], points: [&[f64; ROW]; 3]) -> [f64; ROW] {
    let mut values = [0.0; ROW * ROW];
    host::evaluate_row(layout, points, &mut values);
    let last = (parts.len() - 1) * ROW;
    values[last..last + ROW].try_into().expect("a row")
}

/// Compares values at points, alone, many in one call, and in rows. Answers how many differ.
pub fn values() -> usize {
    let mut random = Random(11);
    let mut tally = Tally::default();
    for _ in 0..MODELS {
        let parts = model(&mut random, 64);
        let [x, y, z] = [(); 3].map(|_| [(); ROW].map(|_| number(&mut random)));
        let layout = Layout::new(&parts);
        let row = in_a_row(&layout, &parts, [&x, &y, &z]);
        let mut many = [0.0; ROW];
        host::many::values(&layout, [&x, &y, &z], &mut many);
        let original: Vec<_> = parts.iter().map(theirs).collect();
        let model = Model::new(&original).expect("a model that is not refused");
        let graph = model.graph();
        for i in 0..ROW {
            let expected = expected(&parts, graph.evaluate_at_coord(x[i], y[i], z[i]));
            let alone = host::evaluate(&layout, x[i], y[i], z[i], &mut [0.0; ROW]);
            tally.compare("model, at points", alone, expected);
            tally.compare("model, at many points", many[i], expected);
            tally.compare("model, in rows", row[i], expected);
        }
    }
    tally.report()
}
