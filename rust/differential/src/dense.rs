//! Dense fields, walks and corner lists, against `DenseField` and its walks.

use crate::{Expected, Tally};
use cases::bits::result;
use cases::dense::{numbered, Case, Walk};
use cases::dense_rules::{octet_refusal, walk_refusal, Bounds, Point, Triple};
use harness::answers::{self, one_nan};
use original::dense::{cell_step, octet_step, point_count, point_step, sample};
use original::jobs::model;
use original::types::computation::data::inside::{block, needed_corners};
use original::types::computation::data::DenseField;
use original::types::geometry::{BoundingBox, Vec3, Vec3i};

type Cursor = (usize, usize, usize);

pub fn compare(seed: u64, number: u64, tally: &mut Tally) -> Result<(), String> {
    let case = numbered(seed, number);
    let expected = match case.refusal() {
        0 if case.without_cells() => Expected::Rule(vec![0]),
        0 => Expected::Original(answer(&case)),
        cause => Expected::Refused(cause as u64),
    };
    let compared = answers::dense(&case, one_nan).and_then(|got| tally.compare(got, expected));
    compared.map_err(|what| format!("{what}\n{case:?}"))
}

fn vec3([x, y, z]: Point) -> Vec3<f64> {
    Vec3::new(x, y, z)
}

fn bounding_box([min, max]: Bounds) -> BoundingBox<f64> {
    BoundingBox::new(vec3(min), vec3(max))
}

/// The values after a call, and a scratch without numbers other than 0.
fn changed(n: Triple, values: &[f64], call: impl Fn(&mut DenseField<f64>)) -> Vec<u64> {
    let n = Vec3i::new(n[0], n[1], n[2]);
    let field = DenseField::from_data(Vec3::origin(), 1.0, n, values.to_vec());
    let mut field = field.expect("as many values as points");
    call(&mut field);
    whole(field.data())
}

fn whole(values: &[f64]) -> Vec<u64> {
    let mut numbers = vec![0];
    numbers.extend(values.iter().map(|&x| result(x)));
    numbers.push(0);
    numbers
}

/// Steps of a walk, until it is done or a cause refuses the next step.
fn walked(
    walk: &Walk,
    refusal: impl Fn(Triple) -> usize,
    step: impl Fn(Cursor) -> (Option<Vec<f64>>, Cursor),
) -> Vec<u64> {
    let mut at = walk.from;
    let mut numbers = Vec::new();
    for _ in 0..walk.steps {
        let refused = refusal(at);
        if refused != 0 {
            numbers.push(refused as u64);
            break;
        }
        let (found, next) = step(at.into());
        let Some(found) = found else {
            numbers.push(0);
            break;
        };
        at = [next.0, next.1, next.2];
        numbers.push(1);
        numbers.extend(found.into_iter().map(result));
        numbers.extend(at.map(|n| n as u64));
    }
    numbers
}

/// The original's answer to a call that no cause refuses.
fn answer(case: &Case) -> Vec<u64> {
    match case {
        Case::Count(bounds, cell) => {
            let n = point_count(&bounding_box(*bounds), *cell);
            vec![0, n.i as u64, n.j as u64, n.k as u64]
        }
        Case::Sample {
            parts,
            origin,
            cell,
            n,
            ..
        } => {
            let model = model(parts);
            let n = Vec3i::new(n[0], n[1], n[2]);
            whole(&sample(&model.graph(), vec3(*origin), *cell, n))
        }
        Case::Padding(n, value, values) => changed(*n, values, |field| field.padding(*value)),
        Case::Threshold(n, limit, values) => changed(*n, values, |field| field.threshold(*limit)),
        Case::Smooth {
            n,
            factor,
            rounds,
            values,
            ..
        } => changed(*n, values, |field| field.smooth(*factor, *rounds)),
        Case::Points(bounds, walk) => walked(
            walk,
            |at| walk_refusal(2, *bounds, walk.n, at),
            |at| {
                let (point, next) = point_step(bounding_box(*bounds), walk.n.into(), at);
                (point.map(|p| vec![p.x, p.y, p.z]), next)
            },
        ),
        Case::Cells(bounds, walk) => walked(
            walk,
            |at| walk_refusal(1, *bounds, walk.n, at),
            |at| {
                let (cell, next) = cell_step(bounding_box(*bounds), walk.n.into(), at);
                let ends = |b: BoundingBox<f64>| [b.min, b.max];
                let numbers = |p: Vec3<f64>| [p.x, p.y, p.z];
                (cell.map(|b| ends(b).map(numbers).concat()), next)
            },
        ),
        Case::Octets(walk, values) => walked(
            walk,
            |at| octet_refusal(walk.n, at, values.len()),
            |at| {
                let (octet, next) = octet_step(values, walk.n.into(), at);
                (octet.map(|octet| octet.to_vec()), next)
            },
        ),
        Case::Corners(inner, active) => {
            let inner = block((*inner).into()).expect("a block's size");
            let corners = needed_corners(inner, active);
            let mut numbers = vec![0, corners.len() as u64];
            numbers.extend(corners.into_iter().map(|corner| corner as u64));
            numbers
        }
    }
}
