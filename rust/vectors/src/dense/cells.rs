//! One cell: `corners X Y Z CELL NX NY NZ I J K`, answered by the refusal and
//! the coordinates of its eight corners; `octet NX NY NZ I J K V V ..`,
//! answered by the refusal and the values at them. A refused answer has 0 for
//! each of these.

use super::*;
use original::types::computation::data::DenseField;

pub fn write(list: &mut List, random: &mut Random) {
    inside(list, random);
    large(list, random);
    outside(list);
    refused(list);
    far_and_near(list);
    octets(list, random);
    octets_refused(list);
}

/// Whether the point after a cell on each axis is one of the field.
fn is_cell(n: Triple, at: Triple) -> bool {
    (0..3).all(|axis| at[axis] < n[axis] && at[axis] + 1 < n[axis])
}

fn corners(list: &mut List, origin: Point, cell: f64, n: Triple, at: Triple) {
    let refused = if point_refused(origin) || cell_refused(cell) {
        1
    } else if dimensions_refused(n) {
        9
    } else if is_cell(n, at) {
        0
    } else {
        10
    };
    let mut points = [ORIGIN; 8];
    if refused == 0 {
        // The corners read no value: one point is enough.
        let field = DenseField::new(vec3(origin), cell, Vec3i::new(1, 1, 1));
        points = field.cell_corners(at[0], at[1], at[2]).map(coordinates);
    }
    let case = Row::new()
        .floats(&origin)
        .floats(&[cell])
        .counts(n)
        .counts(at);
    let answer = Row::new().count(refused).results(&points.concat());
    put(list, "corners", case, answer);
}

fn octet(list: &mut List, n: Triple, at: Triple, values: &[f64]) {
    let refused = if values_refused(n, values.len()) {
        9
    } else if is_cell(n, at) {
        0
    } else {
        10
    };
    let mut eight = [0.0; 8];
    if refused == 0 {
        let field = DenseField::from_data(vec3(ORIGIN), 1.0, vec3i(n), values.to_vec()).unwrap();
        eight = field.cell_values(at[0], at[1], at[2]);
    }
    let case = Row::new().counts(n).counts(at).floats(values);
    put(
        list,
        "octet",
        case,
        Row::new().count(refused).results(&eight),
    );
}

fn inside(list: &mut List, random: &mut Random) {
    for n in [[2, 2, 2], [3, 3, 3], [4, 3, 2], [2, 3, 4]] {
        let origin = full_point(random);
        let cell = full(random).abs();
        for at in all_below(n.map(|n| n - 1)) {
            corners(list, origin, cell, n, at);
        }
    }
    for at in all_below([2, 2, 1]) {
        corners(list, ORIGIN, 0.1, [3, 3, 2], at);
    }
}

/// Cells far from the origin, in fields of up to 16,777,216 points.
fn large(list: &mut List, random: &mut Random) {
    for n in [
        [4194304, 2, 2],
        [2, 4194304, 2],
        [2, 2, 4194304],
        [256, 256, 256],
        [2048, 2048, 4],
    ] {
        for _ in 0..3 {
            let at = n.map(|n| random.below(n as u64 - 1) as usize);
            corners(list, full_point(random), full(random).abs(), n, at);
        }
        corners(list, ORIGIN, 0.1, n, n.map(|n| n - 2));
        corners(list, ORIGIN, 0.1, n, n.map(|n| n - 1));
    }
}

/// The places past the last cell on each axis.
fn past(n: Triple, axis: usize) -> [usize; 5] {
    [
        n[axis] - 1,
        n[axis],
        n[axis] + 1,
        usize::MAX - 1,
        usize::MAX,
    ]
}

fn outside(list: &mut List) {
    let n = [3, 4, 2];
    for axis in 0..3 {
        for far in past(n, axis) {
            corners(list, ORIGIN, 1.0, n, with_count([0, 0, 0], axis, far));
        }
    }
    // With one point along an axis there is no cell.
    for n in [[1, 3, 3], [3, 1, 3], [3, 3, 1], [1, 1, 1], [MOST, 1, 1]] {
        corners(list, ORIGIN, 1.0, n, [0, 0, 0]);
    }
}

fn refused(list: &mut List) {
    let n = [2, 2, 2];
    let first = [0, 0, 0];
    for axis in 0..3 {
        for x in NOT_FINITE {
            corners(list, with(ORIGIN, axis, x), 1.0, n, first);
            // 1 comes before 9 and 10.
            corners(list, with(ORIGIN, axis, x), 1.0, [0, 2, 2], n);
        }
    }
    for cell in REFUSED_CELLS {
        corners(list, ORIGIN, cell, n, first);
        corners(list, ORIGIN, cell, [2, 0, 2], n);
    }
    for n in refused_dimensions() {
        corners(list, ORIGIN, 1.0, n, first);
    }
    // 9 comes before 10.
    corners(list, ORIGIN, 1.0, [0, 2, 2], [5, 0, 0]);
    corners(list, ORIGIN, 1.0, [MOST, 2, 2], [usize::MAX; 3]);
}

/// Corners that overflow, and cells below the spacing of the origin.
fn far_and_near(list: &mut List) {
    let tiny = f64::from_bits(SMALLEST);
    for (origin, cell) in [
        ([f64::MAX; 3], f64::MAX),
        ([-f64::MAX; 3], f64::MAX),
        ([-1e308, 0.0, 1e308], 1e308),
        ([1e16; 3], 1.0),
        ([-0.0; 3], tiny),
        ([1.0, -1.0, 0.0], 1e-17),
    ] {
        for at in [[0, 0, 0], [1, 0, 2], [2, 2, 2]] {
            corners(list, origin, cell, [4, 4, 4], at);
        }
    }
}

fn octets(list: &mut List, random: &mut Random) {
    for n in [[2, 2, 2], [3, 3, 3], [4, 3, 2], [2, 3, 4]] {
        let values: Vec<f64> = (0..n[0] * n[1] * n[2]).map(|_| full(random)).collect();
        for at in all_below(n.map(|n| n - 1)) {
            octet(list, n, at, &values);
        }
    }
    // Values as they are.
    let special = [
        -0.0,
        0.0,
        f64::NAN,
        f64::INFINITY,
        f64::NEG_INFINITY,
        5e-324,
        -f64::MAX,
        -1.0,
    ];
    octet(list, [2, 2, 2], [0, 0, 0], &special);
}

fn octets_refused(list: &mut List) {
    let values: Vec<f64> = (1..=30).map(|v| v as f64).collect();
    let n = [2, 3, 2];
    for axis in 0..3 {
        for far in past(n, axis) {
            octet(list, n, with_count([0, 0, 0], axis, far), &values[..12]);
        }
    }
    for n in [[1, 3, 3], [3, 1, 3], [3, 3, 1], [1, 1, 1], [9, 1, 1]] {
        octet(list, n, [0, 0, 0], &values[..n[0] * n[1] * n[2]]);
    }
    for len in [0, 8, 11, 13] {
        octet(list, n, [0, 0, 0], &values[..len]);
        // 9 comes before 10.
        octet(list, n, n, &values[..len]);
    }
    for n in refused_dimensions() {
        octet(list, n, [0, 0, 0], &values[..wrapped(n)]);
    }
}
