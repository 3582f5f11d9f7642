//! Dense fields, against the original's.

use super::models::{expected, model};
use super::{computed, number, Random, Tally};
use crate::host::{fields as host, Layout};
use crate::models::theirs;
use original::benched::{bounds, field, point_count, sample};
use original::parts::Model;

const FIELDS: usize = 4_000;

/// Compares bits. Answers how many differ.
pub fn values() -> usize {
    let mut random = Random(19);
    let mut tally = Tally::default();
    for _ in 0..FIELDS {
        let n = dimensions(&mut random);
        sampling(&mut random, &mut tally, n);
        smoothing(&mut random, &mut tally, n);
        padding(&mut random, &mut tally, n);
        threshold(&mut random, &mut tally, n);
        counting(&mut random, &mut tally);
    }
    tally.report()
}

/// Rows of up to 140 points, so that some are longer than a run of 64.
fn dimensions(random: &mut Random) -> [usize; 3] {
    let longest = if random.next() % 4 == 0 { 140 } else { 9 };
    let mut below = |most: usize| 1 + random.next() as usize % most;
    [below(longest), below(7), below(7)]
}

fn random_values(random: &mut Random, n: [usize; 3]) -> Vec<f64> {
    // NaNs and infinities spread: in some fields there are none.
    let special = random.next() % 2 == 0;
    let value = |_| loop {
        let x = number(random);
        if special || x.is_finite() {
            break x;
        }
    };
    (0..n[0] * n[1] * n[2]).map(value).collect()
}

fn sampling(random: &mut Random, tally: &mut Tally, n: [usize; 3]) {
    let parts = model(random, 64);
    let finite = |x: f64| if x.is_finite() { x } else { 0.5 };
    let origin = [(); 3].map(|_| finite(number(random)));
    let cell = finite(number(random)).abs() + 0.01;
    let original: Vec<_> = parts.iter().map(theirs).collect();
    let model = Model::new(&original).expect("a model that is not refused");
    let mut their = field(origin, cell, n, vec![0.0; n[0] * n[1] * n[2]]);
    sample(&mut their, &model.graph());
    let mut values = vec![0.0; n[0] * n[1] * n[2]];
    host::sample(&Layout::new(&parts), origin, cell, n, &mut values);
    for (ours, theirs) in values.iter().zip(their.data()) {
        tally.compare("sampling", *ours, expected(&parts, *theirs));
    }
}

/// Whether a place has an index 0 or last.
fn outside(place: usize, [nx, ny, nz]: [usize; 3]) -> bool {
    let edge = |i: usize, n: usize| i == 0 || i + 1 == n;
    edge(place % nx, nx) || edge(place / nx % ny, ny) || edge(place / (nx * ny), nz)
}

fn smoothing(random: &mut Random, tally: &mut Tally, n: [usize; 3]) {
    let before = random_values(random, n);
    let factor = match random.next() % 4 {
        0 => 0.5,
        1 => 0.1,
        _ => number(random),
    };
    let rounds = random.next() as u32 % 6;
    let mut their = field([0.0; 3], 1.0, n, before.clone());
    their.smooth(factor, rounds);
    let mut values = before.clone();
    let mut scratch = vec![7.5; values.len() + random.next() as usize % 3];
    host::smooth(n, factor, rounds, &mut values, &mut scratch);
    assert!(scratch.iter().all(|value| value.to_bits() == 0));
    for (place, (ours, theirs)) in values.iter().zip(their.data()).enumerate() {
        // What stays is copied.
        if rounds == 0 || outside(place, n) {
            tally.compare("smoothing, kept", *ours, before[place].to_bits());
        } else {
            tally.compare("smoothing, blended", *ours, computed(*theirs));
        }
    }
}

fn padding(random: &mut Random, tally: &mut Tally, n: [usize; 3]) {
    let mut values = random_values(random, n);
    let value = number(random);
    let mut their = field([0.0; 3], 1.0, n, values.clone());
    their.padding(value);
    host::padding(n, value, &mut values);
    for (ours, theirs) in values.iter().zip(their.data()) {
        tally.compare("padding", *ours, theirs.to_bits());
    }
}

fn threshold(random: &mut Random, tally: &mut Tally, n: [usize; 3]) {
    let mut values = random_values(random, n);
    let limit = number(random);
    let mut their = field([0.0; 3], 1.0, n, values.clone());
    their.threshold(limit);
    host::threshold(n, limit, &mut values);
    for (ours, theirs) in values.iter().zip(their.data()) {
        tally.compare("threshold", *ours, theirs.to_bits());
    }
}

/// Extents of up to 200 cells, some of them whole.
fn counting(random: &mut Random, tally: &mut Tally) {
    let cell = (1 + random.next() % 1000) as f64 / 128.0;
    let min = [(); 3].map(|_| (random.next() % 1000) as f64 / 64.0);
    let max = min.map(|least| match random.next() % 2 {
        0 => least + (random.next() % 200) as f64 * cell,
        _ => least + (random.next() % 1_000_000) as f64 / 5000.0 * cell,
    });
    let ours = host::point_count(min, max, cell);
    let theirs = point_count(&bounds(min, max), cell);
    for axis in 0..3 {
        let expected = theirs[axis] as f64;
        tally.compare("point count", ours[axis] as f64, expected.to_bits());
    }
}
