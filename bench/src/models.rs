//! The rows about models: ours against the original's `evaluate_at_coord`.

use crate::host::{self, Layout, ROW};
use crate::measure::row;

/// A part of a model. Inputs are places in the list of parts.
#[derive(Clone, Copy)]
pub enum Part {
    #[cfg_attr(not(feature = "original"), allow(dead_code))]
    Const(f64),
    /// Centre and radius.
    Sphere([f64; 3], f64),
    /// Normal and offset.
    Plane([f64; 3], f64),
    Min(u32, u32),
    Max(u32, u32),
    Add(u32, u32),
    Sub(u32, u32),
    Neg(u32),
}

pub fn rows() {
    for (name, parts) in measured() {
        model(name, &parts);
    }
}

/// The models of the table, with their names there.
pub fn measured() -> [(&'static str, Vec<Part>); 4] {
    [
        ("one plane", vec![PLANE]),
        ("one sphere", vec![Part::Sphere([0.5, 1.0, -0.25], 2.0)]),
        ("32 spheres under 31 mins", union(32)),
        ("a chain of 64 parts", chain()),
    ]
}

const PLANE: Part = Part::Plane([0.6, -0.64, 0.48], 0.125);

/// Spheres, and a min for each after the first.
pub fn union(count: u32) -> Vec<Part> {
    let centre = |n: u32| {
        [
            (n % 4) as f64,
            (n / 4 % 4) as f64 * 1.25,
            (n / 16) as f64 * 1.5,
        ]
    };
    let spheres = (0..count).map(|n| Part::Sphere(centre(n), 0.75));
    let mut parts: Vec<Part> = spheres.collect();
    let mut last = 0;
    for next in 1..count {
        parts.push(Part::Min(last, next));
        last = count + next - 1;
    }
    parts
}

fn chain() -> Vec<Part> {
    let mut parts = vec![PLANE];
    for place in 1..64 {
        let last = place - 1;
        parts.push(match place % 5 {
            0 => Part::Min(last, last / 2),
            1 => Part::Neg(last),
            2 => Part::Add(last, last / 2),
            3 => Part::Sub(last, last / 2),
            _ => Part::Max(last, last / 2),
        });
    }
    parts
}

/// The points of a row: one coordinate goes on, two stay.
struct Points {
    x: [f64; ROW],
    y: [f64; ROW],
    z: [f64; ROW],
}

fn points() -> Points {
    let mut x = [0.0; ROW];
    for (i, place) in x.iter_mut().enumerate() {
        *place = 0.05 + 0.1 * i as f64;
    }
    Points {
        x,
        y: [1.3; ROW],
        z: [0.7; ROW],
    }
}

/// The table's rows for one model.
fn model(name: &str, parts: &[Part]) {
    let at = points();
    let layout = Layout::new(parts);
    let mut parts_values = [0.0; ROW];
    let mut at_points = |out: &mut [f64]| {
        for (i, result) in out.iter_mut().enumerate() {
            *result = host::evaluate(&layout, at.x[i], at.y[i], at.z[i], &mut parts_values);
        }
    };
    compare(&format!("{name}, at points"), parts, &at, &mut at_points);
    in_rows(name, parts, &at, &layout);
}

fn in_rows(name: &str, parts: &[Part], at: &Points, layout: &Layout) {
    let mut values = [0.0; ROW * ROW];
    let mut ours = |out: &mut [f64]| {
        host::evaluate_row(layout, [&at.x, &at.y, &at.z], &mut values);
        let last = (parts.len() - 1) * ROW;
        out.copy_from_slice(&values[last..last + ROW]);
    };
    compare(&format!("{name}, in rows of 64"), parts, at, &mut ours);
}

type Ours<'a> = &'a mut dyn FnMut(&mut [f64]);

#[cfg(feature = "original")]
fn compare(name: &str, parts: &[Part], at: &Points, ours: Ours) {
    let parts: Vec<original::parts::Part> = parts.iter().map(theirs).collect();
    let model = original::parts::Model::new(&parts).expect("a model that is not refused");
    let graph = model.graph();
    let mut original = |out: &mut [f64]| {
        for (i, result) in out.iter_mut().enumerate() {
            *result = graph.evaluate_at_coord(at.x[i], at.y[i], at.z[i]);
        }
    };
    row(name, ROW, ours, Some(&mut original));
}

#[cfg(feature = "original")]
pub fn theirs(part: &Part) -> original::parts::Part {
    use original::parts::Part as Original;
    match *part {
        Part::Const(value) => Original::Const(value),
        Part::Sphere(centre, radius) => Original::Sphere(centre, radius),
        Part::Plane(normal, offset) => Original::Plane(normal, offset),
        Part::Min(a, b) => Original::Min(a, b),
        Part::Max(a, b) => Original::Max(a, b),
        Part::Add(a, b) => Original::Add(a, b),
        Part::Sub(a, b) => Original::Sub(a, b),
        Part::Neg(a) => Original::Neg(a),
    }
}

#[cfg(not(feature = "original"))]
fn compare(name: &str, _: &[Part], _: &Points, ours: Ours) {
    row(name, ROW, ours, None);
}
