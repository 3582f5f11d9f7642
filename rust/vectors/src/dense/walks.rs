//! One step of a walk, with the cursor in and out.
//! - `points MIN MIN MIN MAX MAX MAX NX NY NZ I J K` and `cells` likewise,
//!   answered by the refusal, 1 where there is a point or a cell and 0 where the
//!   walk is done, the cursor, and the point's 3 or the box's 6 coordinates.
//! - `octets NX NY NZ I J K V V ..`, answered by the refusal, 1 or 0, the
//!   cursor, and eight values, which are 0 where there is no cell.
//!
//! A refused answer of the first two is the number alone; of the third, the
//! number and the eight values.

use super::*;
use original::dense::{cell_step, octet_step, point_step};

pub fn write(list: &mut List, random: &mut Random) {
    for walk in [points as Walk, cells as Walk] {
        whole(list, random, walk);
        special_bounds(list, walk);
        counts(list, random, walk);
        cursors(list, walk);
        refused(list, walk);
    }
    octet_walks(list, random);
    octets_past(list);
    octets_refused(list);
}

/// Writes one step and gives the cursor after it, or none past the end.
type Walk = fn(&mut List, Bounds, Triple, Triple) -> Option<Triple>;

fn triple((i, j, k): (usize, usize, usize)) -> Triple {
    [i, j, k]
}

/// An accepted step's answer.
fn answer(found: Option<Vec<f64>>, next: Triple) -> (Row, Option<Triple>) {
    match found {
        Some(numbers) => (
            Row::new().count(0).count(1).counts(next).results(&numbers),
            Some(next),
        ),
        None => (Row::new().count(0).count(0).counts(next), None),
    }
}

pub fn points(list: &mut List, bounds: Bounds, n: Triple, at: Triple) -> Option<Triple> {
    let refused = walk_refusal(2, bounds, n, at);
    let (answer, next) = if refused == 0 {
        let (point, next) = point_step(bounding_box(bounds), n.into(), at.into());
        answer(point.map(|p| coordinates(p).to_vec()), triple(next))
    } else {
        (Row::new().count(refused), None)
    };
    let case = Row::new().bounds(bounds).counts(n).counts(at);
    put(list, "points", case, answer);
    next
}

pub fn cells(list: &mut List, bounds: Bounds, n: Triple, at: Triple) -> Option<Triple> {
    let refused = walk_refusal(1, bounds, n, at);
    let (answer, next) = if refused == 0 {
        let (cell, next) = cell_step(bounding_box(bounds), n.into(), at.into());
        let numbers = cell.map(|b| [coordinates(b.min), coordinates(b.max)].concat());
        answer(numbers, triple(next))
    } else {
        (Row::new().count(refused), None)
    };
    let case = Row::new().bounds(bounds).counts(n).counts(at);
    put(list, "cells", case, answer);
    next
}

/// From a cursor to the end, and one step past it.
fn to_end(list: &mut List, walk: Walk, bounds: Bounds, n: Triple) {
    let mut at = [0, 0, 0];
    while let Some(next) = walk(list, bounds, n, at) {
        at = next;
    }
}

fn whole(list: &mut List, random: &mut Random, walk: Walk) {
    to_end(list, walk, [ORIGIN, [1.0; 3]], [2, 2, 2]);
    to_end(list, walk, [ORIGIN, [1.0, 2.0, 3.0]], [1, 2, 3]);
    for n in [[3, 2, 4], [4, 3, 2], [2, 2, 3]] {
        to_end(list, walk, full_bounds(random), n);
    }
}

/// Boxes without size, and boxes whose size or ends overflow.
fn special_bounds(list: &mut List, walk: Walk) {
    let tiny = f64::from_bits(SMALLEST);
    for bounds in [
        [ORIGIN, ORIGIN],
        [[-0.0; 3], [-0.0; 3]],
        [[-f64::MAX; 3], [f64::MAX; 3]],
        [[-1e308, 0.0, 0.0], [1e308, f64::MAX, tiny]],
        [[1e16; 3], [1e16 + 2.0; 3]],
        [[0.1, 0.2, 0.3], [0.7, 0.8, 0.9]],
    ] {
        for at in [[0, 0, 0], [2, 1, 0], [2, 2, 2]] {
            walk(list, bounds, [3, 3, 3], at);
        }
    }
}

/// Counts at their limits, on each axis and on all.
fn counts(list: &mut List, random: &mut Random, walk: Walk) {
    for axis in 0..3 {
        for count in [0, 1, 2, MOST, MOST + 1, usize::MAX] {
            let n = with_count([3, 3, 3], axis, count);
            walk(list, full_bounds(random), n, [0, 0, 0]);
            let last = n.map(|n| n.saturating_sub(1));
            walk(list, full_bounds(random), n, last);
            walk(list, full_bounds(random), n, n);
        }
    }
    let n = [MOST; 3];
    for at in [
        [0, 0, 0],
        [MOST - 1, 0, 0],
        [MOST - 1, MOST - 1, 0],
        [MOST - 1; 3],
        [0, 0, MOST],
    ] {
        walk(list, full_bounds(random), n, at);
    }
}

/// Cursors outside: i and j past the last, whatever k is, and k past the last.
fn cursors(list: &mut List, walk: Walk) {
    let bounds = [ORIGIN, [1.0; 3]];
    let n = [2, 3, 4];
    for k in [0, 4, usize::MAX] {
        for axis in 0..2 {
            for far in [n[axis], n[axis] + 1, usize::MAX] {
                walk(list, bounds, n, with_count([0, 0, k], axis, far));
            }
        }
    }
    for k in [4, 5, 1 << 32, usize::MAX] {
        for at in [[0, 0, k], [1, 2, k]] {
            walk(list, bounds, n, at);
        }
    }
}

fn refused(list: &mut List, walk: Walk) {
    let unit = [1.0; 3];
    let n = [2, 2, 2];
    for axis in 0..3 {
        for x in NOT_FINITE {
            walk(list, [with(ORIGIN, axis, x), unit], n, [0, 0, 0]);
            walk(list, [ORIGIN, with(unit, axis, x)], n, [0, 0, 0]);
        }
        walk(list, [with(ORIGIN, axis, above(1.0)), unit], n, [0, 0, 0]);
        // 1 comes before 11, and before the end.
        walk(list, [with(ORIGIN, axis, 2.0), unit], [0, 2, 2], n);
        walk(list, [with(ORIGIN, axis, 2.0), unit], n, [0, 0, 2]);
    }
}

pub fn octets(list: &mut List, n: Triple, at: Triple, values: &[f64]) -> Option<Triple> {
    let none = [0.0; 8];
    let refused = octet_refusal(n, at, values.len());
    let (answer, next) = if refused != 0 {
        (Row::new().count(refused).results(&none), None)
    } else if n.contains(&1) || at[2] >= n[2] - 1 {
        (Row::new().count(0).count(0).counts(at).results(&none), None)
    } else {
        let (found, next) = octet_step(values, n.into(), at.into());
        answer(found.map(|v| v.to_vec()), triple(next))
    };
    let case = Row::new().counts(n).counts(at).floats(values);
    put(list, "octets", case, answer);
    next
}

fn octet_walks(list: &mut List, random: &mut Random) {
    for n in [
        [2, 2, 2],
        [3, 3, 3],
        [4, 3, 2],
        [2, 3, 4],
        [3, 2, 2],
        [2, 2, 3],
    ] {
        let values: Vec<f64> = (0..n[0] * n[1] * n[2]).map(|_| full(random)).collect();
        let mut at = [0, 0, 0];
        while let Some(next) = octets(list, n, at, &values) {
            at = next;
        }
    }
    let special = [
        -0.0,
        0.0,
        f64::NAN,
        f64::INFINITY,
        f64::NEG_INFINITY,
        5e-324,
        -f64::MAX,
        -1.0,
    ];
    octets(list, [2, 2, 2], [0, 0, 0], &special);
}

/// Dimensions of 1, and cursors outside.
fn octets_past(list: &mut List) {
    let values: Vec<f64> = (1..=30).map(|v| v as f64).collect();
    for n in [
        [1, 3, 3],
        [3, 1, 3],
        [3, 3, 1],
        [1, 1, 3],
        [3, 1, 1],
        [1, 1, 1],
    ] {
        for at in [[0, 0, 0], [1, 0, 0], [0, 1, 1], [5, 5, 0], [usize::MAX; 3]] {
            octets(list, n, at, &values[..n[0] * n[1] * n[2]]);
        }
    }
    let n = [3, 2, 3];
    for k in [0, 2, usize::MAX] {
        for (i, j) in [
            (0, 0),
            (2, 0),
            (3, 0),
            (usize::MAX, 0),
            (0, 1),
            (0, 2),
            (1, usize::MAX),
        ] {
            octets(list, n, [i, j, k], &values[..18]);
        }
    }
}

fn octets_refused(list: &mut List) {
    let values: Vec<f64> = (1..=30).map(|v| v as f64).collect();
    let n = [2, 3, 2];
    for len in [0, 11, 13] {
        octets(list, n, [0, 0, 0], &values[..len]);
        // 9 comes before the end and before 10.
        octets(list, n, [0, 0, 5], &values[..len]);
        octets(list, n, [5, 5, 0], &values[..len]);
    }
    octets(list, [1, 3, 3], [0, 0, 0], &values[..8]);
    for n in refused_dimensions() {
        octets(list, n, [0, 0, 0], &values[..wrapped(n)]);
    }
}
