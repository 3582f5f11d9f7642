//! The list of models, each with a point and the original's value there.

use crate::bits::*;
use crate::random::Random;
use original::parts::{Model, Part, MOST_PARTS};
use std::fmt::Write;

type Point = [f64; 3];

const ORIGIN: Point = [0.0, 0.0, 0.0];

/// Numbers for which an operation may have a rule of its own.
const SPECIAL: [u64; 8] = [
    0,
    SIGN,
    0x3ff0_0000_0000_0000,
    0xc000_0000_0000_0000,
    SMALLEST,
    INFINITY,
    SIGN | INFINITY,
    NAN,
];

/// Further patterns for constants.
const CONSTANTS: [u64; 10] = [
    SIGN | SMALLEST,
    LARGEST_SUBNORMAL,
    SMALLEST_NORMAL,
    LARGEST,
    SIGN | LARGEST,
    SIGN | NAN,
    INFINITY | 1,
    SIGN | INFINITY | 0x1234,
    0x7fff_ffff_ffff_ffff,
    0x400921fb54442d18,
];

pub fn list() -> String {
    let mut text = String::new();
    let mut random = Random::new(2);
    constants(&mut text);
    operations(&mut text);
    spheres(&mut text, &mut random);
    planes(&mut text, &mut random);
    far_and_near(&mut text);
    unions(&mut text, &mut random);
    chains(&mut text, &mut random);
    mixed(&mut text, &mut random);
    refused(&mut text, &mut random);
    text
}

/// One case: the point, the parts, and the original's value or the refusal.
fn case(text: &mut String, point: Point, parts: &[Part]) {
    let [x, y, z] = point;
    writeln!(text, "point {} {} {}", hex(x), hex(y), hex(z)).unwrap();
    for part in parts {
        writeln!(text, "{}", line(part)).unwrap();
    }
    match Model::new(parts) {
        Some(model) => {
            let value = model.graph().evaluate_at_coord(x, y, z);
            writeln!(text, "value {:016x}", result(value)).unwrap();
        }
        None => writeln!(text, "refused 4").unwrap(),
    }
}

fn hex(x: f64) -> String {
    format!("{:016x}", x.to_bits())
}

fn line(part: &Part) -> String {
    let four =
        |c: &[f64; 3], w: f64| format!("{} {} {} {}", hex(c[0]), hex(c[1]), hex(c[2]), hex(w));
    match part {
        Part::Const(value) => format!("const {}", hex(*value)),
        Part::Sphere(centre, radius) => format!("sphere {}", four(centre, *radius)),
        Part::Plane(normal, offset) => format!("plane {}", four(normal, *offset)),
        Part::Min(a, b) => format!("min {a} {b}"),
        Part::Max(a, b) => format!("max {a} {b}"),
        Part::Add(a, b) => format!("add {a} {b}"),
        Part::Sub(a, b) => format!("sub {a} {b}"),
        Part::Neg(a) => format!("neg {a}"),
    }
}

fn constant(pattern: u64) -> Part {
    Part::Const(f64::from_bits(pattern))
}

/// An operation of two inputs, by number.
fn operation(kind: u64, a: u32, b: u32) -> Part {
    match kind {
        0 => Part::Min(a, b),
        1 => Part::Max(a, b),
        2 => Part::Add(a, b),
        _ => Part::Sub(a, b),
    }
}

fn constants(text: &mut String) {
    for pattern in SPECIAL.into_iter().chain(CONSTANTS) {
        case(text, ORIGIN, &[constant(pattern)]);
        case(text, ORIGIN, &[constant(pattern), Part::Neg(0)]);
    }
}

/// Every operation on every pair of special numbers, both zeros both ways
/// among them.
fn operations(text: &mut String) {
    for kind in 0..4 {
        for a in SPECIAL {
            for b in SPECIAL {
                case(
                    text,
                    ORIGIN,
                    &[constant(a), constant(b), operation(kind, 0, 1)],
                );
            }
        }
    }
}

/// A coordinate with few digits, so that sums come out even at times.
fn coordinate(random: &mut Random) -> f64 {
    random.between(-80, 80) as f64 / 8.0
}

/// A coordinate of ordinary size with all its digits.
fn full(random: &mut Random) -> f64 {
    let x = f64::from_bits(scaled(random.with_digits(53), random.between(-56, -46)));
    if random.below(2) == 0 {
        x
    } else {
        -x
    }
}

fn point_of(random: &mut Random, number: fn(&mut Random) -> f64) -> Point {
    [number(random), number(random), number(random)]
}

fn spheres(text: &mut String, random: &mut Random) {
    // On the surface: distances that are whole.
    for [dx, dy, dz, r] in [
        [3.0, 4.0, 0.0, 5.0],
        [0.0, -5.0, 12.0, 13.0],
        [3.0, 4.0, 12.0, 13.0],
        [-2.0, 3.0, 6.0, 7.0],
        [1.0, 2.0, -2.0, 3.0],
        [0.0, 0.0, 0.0, 0.0],
    ] {
        for c in [ORIGIN, [1.0, -2.0, 0.5]] {
            case(
                text,
                [c[0] + dx, c[1] + dy, c[2] + dz],
                &[Part::Sphere(c, r)],
            );
        }
    }
    // Inside and outside, and with a radius below 0.
    for _ in 0..15 {
        let centre = point_of(random, coordinate);
        case(
            text,
            point_of(random, coordinate),
            &[Part::Sphere(centre, coordinate(random))],
        );
    }
    // All digits: the order of the sums shows.
    for _ in 0..90 {
        let centre = point_of(random, full);
        case(
            text,
            point_of(random, full),
            &[Part::Sphere(centre, full(random).abs())],
        );
    }
}

fn planes(text: &mut String, random: &mut Random) {
    // On the plane.
    for (normal, offset, point) in [
        ([1.0, 0.0, 0.0], 2.0, [2.0, 7.0, -3.0]),
        ([0.0, 0.0, 1.0], 0.0, [5.0, 6.0, -0.0]),
        ([0.5, 0.25, -1.0], 0.0, [2.0, 4.0, 2.0]),
        ([0.0, 0.0, 0.0], 0.0, [1.0, -1.0, 1.0]),
        ([0.0, 0.0, 0.0], -0.0, [-1.0, -1.0, -1.0]),
        ([-0.0, -0.0, -0.0], 0.0, [1.0, 1.0, 1.0]),
    ] {
        case(text, point, &[Part::Plane(normal, offset)]);
    }
    for _ in 0..15 {
        let normal = point_of(random, coordinate);
        case(
            text,
            point_of(random, coordinate),
            &[Part::Plane(normal, coordinate(random))],
        );
    }
    // All digits: the order of the sums shows.
    for _ in 0..60 {
        let normal = point_of(random, full);
        case(
            text,
            point_of(random, full),
            &[Part::Plane(normal, full(random))],
        );
    }
}

/// Coordinates that overflow, vanish, or are no numbers.
fn far_and_near(text: &mut String) {
    let tiny = f64::from_bits(SMALLEST);
    let numbers = [
        1e200,
        -1e154,
        f64::MAX,
        1e-200,
        -1e-154,
        tiny,
        f64::INFINITY,
        f64::NAN,
        -0.0,
    ];
    for x in numbers {
        for point in [[x, 0.0, 0.0], [1.0, x, -x], [x, x, x]] {
            case(text, point, &[Part::Sphere(ORIGIN, 1.0)]);
            case(text, point, &[Part::Plane([1.0, 2.0, -1.0], 0.5)]);
        }
        case(text, [1.0, 2.0, 3.0], &[Part::Sphere([x, 1.0, x], 0.25)]);
        case(text, [1.0, 2.0, 3.0], &[Part::Sphere(ORIGIN, x)]);
        case(text, [1.0, 2.0, 3.0], &[Part::Plane([x, 1.0, x], 0.25)]);
        case(text, [1.0, 2.0, 3.0], &[Part::Plane([1.0, 0.0, 0.0], x)]);
    }
    // An infinite centre against an infinite point, and an infinite radius.
    let far = [f64::INFINITY, 0.0, 0.0];
    case(text, far, &[Part::Sphere(far, 1.0)]);
    case(text, far, &[Part::Sphere(ORIGIN, f64::INFINITY)]);
    case(text, [0.0, 1.0, 1.0], &[Part::Plane(far, 1.0)]);
}

/// Spheres, then minima over them: 2n - 1 parts.
fn union(random: &mut Random, count: u32) -> Vec<Part> {
    let mut parts: Vec<Part> = (0..count)
        .map(|_| {
            Part::Sphere(
                point_of(random, coordinate),
                random.between(1, 40) as f64 / 8.0,
            )
        })
        .collect();
    let mut last = 0;
    for next in 1..count {
        parts.push(Part::Min(last, next));
        last = count + next - 1;
    }
    parts
}

fn unions(text: &mut String, random: &mut Random) {
    for count in [1, 2, 3, 4, 5, 8, 12, 16, 24, 32] {
        let parts = union(random, count);
        let cases = if count < 16 { 4 } else { 2 };
        for _ in 0..cases {
            case(text, point_of(random, coordinate), &parts);
        }
    }
    // With a 64th part: the complement, and a plane's cut that is last alone.
    let mut parts = union(random, 32);
    parts.push(Part::Neg(62));
    case(text, point_of(random, full), &parts);
    parts[63] = Part::Plane([0.0, 0.0, 1.0], 1.0);
    case(text, point_of(random, full), &parts);
    let points: Vec<Part> = (0..64).map(|n| constant((n as f64).to_bits())).collect();
    case(text, ORIGIN, &points);
}

/// Each part on the one before it.
fn chains(text: &mut String, random: &mut Random) {
    let start = Part::Plane([0.5, -0.25, 1.0], 0.125);
    for length in [2, 3, 17, 63, 64] {
        for kind in 0..5 {
            let mut parts = vec![start];
            for place in 1..length {
                let last = place - 1;
                parts.push(match kind {
                    4 => Part::Neg(last),
                    _ => operation(kind, last, 0),
                });
            }
            case(text, point_of(random, full), &parts);
        }
    }
    // Doublings, up to infinity from a large number.
    for first in [1.0, 1e300, -1e300] {
        let mut parts = vec![Part::Const(first)];
        for place in 1..64 {
            parts.push(Part::Add(place - 1, place - 1));
        }
        case(text, ORIGIN, &parts);
    }
    // Operations in turn over the part before and a constant.
    for _ in 0..6 {
        let mut parts = vec![start, Part::Const(full(random))];
        while parts.len() < MOST_PARTS {
            let last = parts.len() as u32 - 1;
            parts.push(match random.below(5) {
                4 => Part::Neg(last),
                kind => operation(kind, last, random.below(2) as u32),
            });
        }
        case(text, point_of(random, full), &parts);
    }
}

/// Parts of every kind with any earlier inputs.
fn any_part(random: &mut Random, place: u32) -> Part {
    let shape = place == 0 || random.below(5) < 2;
    if shape {
        let centre = point_of(random, full);
        return match random.below(8) {
            0 => constant(random.pick(&SPECIAL)),
            1 => Part::Const(full(random)),
            2..=4 => Part::Sphere(centre, full(random).abs()),
            _ => Part::Plane(centre, full(random)),
        };
    }
    let a = random.below(place as u64) as u32;
    let b = random.below(place as u64) as u32;
    match random.below(6) {
        5 => Part::Neg(a),
        kind => operation(kind, a, b),
    }
}

fn any_parts(random: &mut Random, count: u32) -> Vec<Part> {
    (0..count).map(|place| any_part(random, place)).collect()
}

fn mixed(text: &mut String, random: &mut Random) {
    for round in 0..169 {
        let count = match round % 13 {
            12 => random.between(20, 64),
            _ => random.between(2, 12),
        };
        let parts = any_parts(random, count as u32);
        case(text, point_of(random, full), &parts);
    }
}

/// No part, or an input not below its part's place.
fn refused(text: &mut String, random: &mut Random) {
    case(text, ORIGIN, &[]);
    case(text, [1.0, f64::NAN, f64::INFINITY], &[]);
    for far in [0, 1, 63, 64, 65, u32::MAX] {
        case(text, ORIGIN, &[Part::Neg(far)]);
        case(text, ORIGIN, &[Part::Add(far, 0)]);
    }
    // The first or the second input is at the part's own place or past it.
    for place in [1u32, 2, 5, 31, 63] {
        for far in [place, place + 1, u32::MAX] {
            for kind in 0..4 {
                let mut parts: Vec<Part> = vec![Part::Const(1.0); place as usize];
                let near = random.below(place as u64) as u32;
                let (a, b) = if random.below(2) == 0 {
                    (far, near)
                } else {
                    (near, far)
                };
                parts.push(operation(kind, a, b));
                if place == 63 && kind > 0 {
                    continue;
                }
                case(text, ORIGIN, &parts);
            }
            let mut parts = vec![Part::Const(1.0); place as usize];
            parts.push(Part::Neg(far));
            if place < 10 {
                // A good part after the bad one does not mend the model.
                parts.push(Part::Const(2.0));
            }
            case(text, ORIGIN, &parts);
        }
    }
    // A later part's place is no input even where that part reads nothing.
    case(
        text,
        ORIGIN,
        &[Part::Const(1.0), Part::Min(0, 2), Part::Const(2.0)],
    );
    case(
        text,
        ORIGIN,
        &[Part::Const(1.0), Part::Sub(2, 0), Part::Const(2.0)],
    );
}
