//! Sampling:
//! `sample X Y Z CELL NX NY NZ LENGTH COUNT PART PART ..`, answered by the
//! refusal and the values. LENGTH values are lent, 150 at most, each of them 100
//! before the call. COUNT is the model's count of parts, of which up to 30 are
//! given; the others are constants of 0. A part is its kind and four numbers:
//! 0 a constant, 1 a sphere, 2 a plane, 3 min, 4 max, 5 add, 6 sub, 7 neg;
//! numbers that a kind has no use for are 0.

use super::*;
use original::parts::{Model, Part, MOST_PARTS};

/// A value before the call.
const BEFORE: f64 = 100.0;

/// A call's arguments. The count of parts is apart from the parts that are
/// given: those past them are constants of 0.
pub struct Call {
    pub origin: Point,
    pub cell: f64,
    pub n: Triple,
    pub len: usize,
    pub count: usize,
    pub parts: Vec<Part>,
}

pub fn write(list: &mut List, random: &mut Random) {
    sizes(list, random);
    models(list, random);
    rows(list, random);
    far_and_near(list);
    refused(list);
}

impl Call {
    /// A call that no cause refuses by its count or its length.
    fn new(origin: Point, cell: f64, n: Triple, parts: &[Part]) -> Call {
        Call {
            origin,
            cell,
            n,
            len: n[0] * n[1] * n[2],
            count: parts.len(),
            parts: parts.to_vec(),
        }
    }

    fn row(&self) -> Row {
        let mut row = Row::new()
            .floats(&self.origin)
            .floats(&[self.cell])
            .counts(self.n)
            .count(self.len)
            .count(self.count);
        for part in &self.parts {
            row.0.extend(numbers(part));
        }
        row
    }

    fn refusal(&self) -> usize {
        if point_refused(self.origin) || cell_refused(self.cell) {
            return 1;
        }
        if self.model().is_none() {
            return 4;
        }
        if values_refused(self.n, self.len) {
            return 9;
        }
        0
    }

    fn model(&self) -> Option<Model> {
        if self.count > MOST_PARTS {
            return None;
        }
        let mut parts = self.parts.clone();
        parts.resize(self.count, Part::Const(0.0));
        Model::new(&parts)
    }
}

/// A part's kind and its four numbers.
fn numbers(part: &Part) -> [u64; 5] {
    let shape = |kind: u64, v: [f64; 3], w: f64| {
        let [x, y, z] = v.map(f64::to_bits);
        [kind, x, y, z, w.to_bits()]
    };
    let inputs = |kind: u64, a: u32, b: u32| [kind, a as u64, b as u64, 0, 0];
    match *part {
        Part::Const(value) => [0, value.to_bits(), 0, 0, 0],
        Part::Sphere(centre, radius) => shape(1, centre, radius),
        Part::Plane(normal, offset) => shape(2, normal, offset),
        Part::Min(a, b) => inputs(3, a, b),
        Part::Max(a, b) => inputs(4, a, b),
        Part::Add(a, b) => inputs(5, a, b),
        Part::Sub(a, b) => inputs(6, a, b),
        Part::Neg(a) => inputs(7, a, 0),
    }
}

pub fn case(list: &mut List, call: Call) {
    let refused = call.refusal();
    let values = if refused == 0 {
        let model = call.model().unwrap();
        original::dense::sample(&model.graph(), vec3(call.origin), call.cell, vec3i(call.n))
    } else {
        vec![BEFORE; call.len]
    };
    let answer = Row::new().count(refused).results(&values);
    put(list, "sample", call.row(), answer);
}

fn sphere(random: &mut Random) -> Part {
    Part::Sphere(full_point(random), full(random).abs())
}

fn plane(random: &mut Random) -> Part {
    Part::Plane(full_point(random), full(random))
}

/// Every small size, with a sphere and a plane in turn, and a few of min of
/// two.
fn sizes(list: &mut List, random: &mut Random) {
    for (number, n) in small_sizes().into_iter().enumerate() {
        let origin = full_point(random);
        let cell = full(random).abs();
        let parts = match number % 3 {
            0 => vec![sphere(random)],
            1 => vec![plane(random)],
            _ => vec![sphere(random), plane(random), Part::Min(0, 1)],
        };
        case(list, Call::new(origin, cell, n, &parts));
    }
}

fn models(list: &mut List, random: &mut Random) {
    let n = [3, 2, 2];
    let unit = Part::Sphere([0.5; 3], 0.5);
    let floor = Part::Plane([0.0, 0.0, 1.0], 0.25);
    // Constants, a NaN and both zeros among them.
    for value in [
        f64::NAN,
        0.0,
        -0.0,
        1.5,
        f64::INFINITY,
        f64::NEG_INFINITY,
        f64::MAX,
    ] {
        case(list, Call::new(ORIGIN, 1.0, n, &[Part::Const(value)]));
        for operation in [Part::Min(0, 1), Part::Max(1, 0), Part::Add(0, 1)] {
            let parts = [unit, Part::Const(value), operation];
            case(list, Call::new(ORIGIN, 0.5, n, &parts));
        }
    }
    for operation in [
        Part::Min(0, 1),
        Part::Max(0, 1),
        Part::Add(0, 1),
        Part::Sub(0, 1),
        Part::Sub(1, 0),
        Part::Neg(0),
        Part::Neg(1),
    ] {
        let parts = [unit, floor, operation];
        case(list, Call::new(ORIGIN, 0.25, [3, 3, 3], &parts));
        let parts = [sphere(random), plane(random), operation];
        case(list, Call::new(full_point(random), 0.125, n, &parts));
    }
    // A chain of 29 parts.
    let mut parts = vec![sphere(random), plane(random)];
    while parts.len() < 29 {
        let last = parts.len() as u32 - 1;
        parts.push(match random.below(5) {
            0 => Part::Min(last, 0),
            1 => Part::Max(1, last),
            2 => Part::Add(last, 1),
            3 => Part::Sub(0, last),
            _ => Part::Neg(last),
        });
    }
    case(list, Call::new(full_point(random), 0.5, n, &parts));
}

/// Rows of more than 64 points, and rows that end at 64.
fn rows(list: &mut List, random: &mut Random) {
    for n in [
        [63, 1, 1],
        [64, 1, 1],
        [64, 2, 1],
        [65, 1, 1],
        [65, 2, 1],
        [65, 1, 2],
        [128, 1, 1],
        [129, 1, 1],
        [130, 1, 1],
        [1, 65, 1],
        [1, 1, 130],
        [2, 65, 1],
    ] {
        let parts = [sphere(random), plane(random), Part::Max(0, 1)];
        let cell = full(random).abs() / 16.0;
        case(list, Call::new(full_point(random), cell, n, &parts));
    }
}

/// Points that overflow, and cells below the spacing of the origin.
fn far_and_near(list: &mut List) {
    let tiny = f64::from_bits(SMALLEST);
    let parts = [
        Part::Sphere([1.0, 2.0, 3.0], 1.0),
        Part::Plane([1.0, -1.0, 0.5], 0.25),
        Part::Sub(0, 1),
    ];
    for (origin, cell) in [
        ([f64::MAX; 3], f64::MAX),
        ([-f64::MAX; 3], f64::MAX),
        ([0.0; 3], f64::MAX),
        ([-1e308, 0.0, 1e308], 1e308),
        ([1e16; 3], 1.0),
        ([1e16; 3], 0.25),
        ([-0.0; 3], tiny),
        ([0.1, 0.2, 0.3], 0.1),
    ] {
        for count in 1..=3 {
            case(list, Call::new(origin, cell, [3, 2, 2], &parts[..count]));
        }
    }
}

fn refused(list: &mut List) {
    let n = [2, 3, 2];
    let good = [Part::Plane([1.0, 2.0, 3.0], 0.5)];
    let call = |origin, cell, len, count, parts: &[Part]| Call {
        origin,
        cell,
        n,
        len,
        count,
        parts: parts.to_vec(),
    };
    // By 1, whatever else is wrong.
    for axis in 0..3 {
        for x in NOT_FINITE {
            let origin = with([1.0; 3], axis, x);
            case(list, call(origin, 1.0, 12, 1, &good));
            case(list, call(origin, 1.0, 5, 0, &[]));
        }
    }
    for cell in REFUSED_CELLS {
        case(list, call(ORIGIN, cell, 12, 1, &good));
        case(list, call(ORIGIN, cell, 5, 0, &[]));
    }
    // By 4, whatever the lengths.
    for len in [0, 5, 12] {
        case(list, call(ORIGIN, 1.0, len, 0, &[]));
        case(list, call(ORIGIN, 1.0, len, 0, &good));
        case(list, call(ORIGIN, 1.0, len, 65, &good));
        case(list, call(ORIGIN, 1.0, len, u32::MAX as usize, &good));
        case(list, call(ORIGIN, 1.0, len, 1, &[Part::Neg(0)]));
        case(list, call(ORIGIN, 1.0, len, 2, &[good[0], Part::Min(0, 1)]));
        case(list, call(ORIGIN, 1.0, len, 2, &[good[0], Part::Add(2, 0)]));
    }
    // 64 parts pass: those that are not given are constants.
    case(list, call(ORIGIN, 1.0, 12, 64, &good));
    // By 9: too short, too long, none at all.
    for len in [0, 1, 11, 13, 24] {
        case(list, call(ORIGIN, 1.0, len, 1, &good));
    }
    for n in refused_dimensions() {
        let call = Call {
            n,
            ..call(ORIGIN, 1.0, wrapped(n), 1, &good)
        };
        case(list, call);
    }
}
