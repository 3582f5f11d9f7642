//! The memory of a sparse field's jobs, against the original's.

use super::models::{expected, model};
use super::{computed, number, Random, Tally, COMPUTED_NAN};
use crate::host::sparse::{job, Grid, Lent, Record};
use crate::host::Layout;
use crate::models::{theirs, Part};
use original::benched::{block, bounds, children, sample_sparse};
use original::benched::{Child, SparseField, SparseFieldConfig};
use original::parts::Model;

const JOBS: usize = 10_000;

/// Compares bits. Answers how many differ.
pub fn values() -> usize {
    let mut random = Random(23);
    let mut tally = Tally::default();
    let mut record = Record::new();
    for _ in 0..JOBS {
        let (grid, children) = grid(&mut random);
        let most = if random.next() % 2 == 0 { 64 } else { 3 };
        let parts = model(&mut random, most);
        let mut lent = Lent::new(&grid, children);
        dirty(&mut lent);
        let budgets = [random.next() % 200, u64::MAX];
        job(
            &grid,
            &Layout::new(&parts),
            &budgets,
            &mut record,
            &mut lent,
        );
        compare(&grid, &parts, &lent, &mut tally);
        let leaves = record.counts().leaves as usize;
        rest(&grid, leaves, &lent, &mut tally);
    }
    tally.report()
}

/// Bounds of up to two nodes along an axis, and any band without a NaN.
fn grid(random: &mut Random) -> (Grid, usize) {
    let [inner, leaf] = [(); 2].map(|_| 2 << (random.next() % 2));
    let cell = (1 + random.next() % 64) as f64 / 16.0;
    let size = cell * (inner * (leaf - 1)) as f64;
    let min = [(); 3].map(|_| (random.next() % 512) as f64 / 32.0 - 8.0);
    let max = min.map(|least| least + (random.next() % 65) as f64 / 32.0 * size);
    let limit = |x: f64| if x.is_nan() { 0.0 } else { x };
    let band = [(); 2].map(|_| limit(number(random)));
    let nodes = |axis: usize| (((max[axis] - min[axis]) / size).ceil() as usize).max(1);
    let children = nodes(0) * nodes(1) * nodes(2) * (inner as usize).pow(3);
    let grid = Grid {
        min,
        max,
        cell,
        inner,
        leaf,
        band,
    };
    (grid, children)
}

/// Contents that open is to replace.
fn dirty(lent: &mut Lent) {
    lent.kinds.fill(7);
    lent.numbers.fill(7.5);
    lent.places.fill(7);
    lent.store.fill(7.5);
    lent.corners.fill(7.5);
}

/// What each child holds. A constant is computed; a leaf's value is computed or
/// copied, as its model's last part says.
fn compare(grid: &Grid, parts: &[Part], lent: &Lent, tally: &mut Tally) {
    let original: Vec<_> = parts.iter().map(theirs).collect();
    let model = Model::new(&original).expect("a model that is not refused");
    let block = |n: u32| block(n as u64).expect("a block's size");
    let mut field = SparseField::new(SparseFieldConfig {
        internal_size: block(grid.inner),
        leaf_size: block(grid.leaf),
        cell_size: grid.cell,
    });
    field.init_bounds(&bounds(grid.min, grid.max));
    sample_sparse(&mut field, &model.graph(), grid.band);
    let points = (grid.leaf as usize).pow(3);
    for (place, child) in children(&field).into_iter().enumerate() {
        let kind = lent.kinds[place] as f64;
        let (their_kind, number, leaf) = match child {
            Child::Empty => (0.0, 0, &[][..]),
            Child::Constant(value) => (1.0, computed(value), &[][..]),
            Child::Leaf(values) => (2.0f64, 0, values),
        };
        tally.compare("job's kinds", kind, their_kind.to_bits());
        tally.compare("job's numbers", lent.numbers[place], number);
        let first = lent.places[place] as usize * points;
        for (ours, value) in lent.store[first..].iter().zip(leaf) {
            let bits = expected(parts, *value);
            let copied = value.is_nan() && bits != COMPUTED_NAN;
            let kind = if copied {
                "job's leaves, a NaN of other bits"
            } else {
                "job's leaves"
            };
            tally.compare(kind, *ours, bits);
        }
    }
}

/// What no leaf uses, and the corners, are 0.
fn rest(grid: &Grid, leaves: usize, lent: &Lent, tally: &mut Tally) {
    let used = leaves * (grid.leaf as usize).pow(3);
    for value in lent.store[used..].iter().chain(&lent.corners) {
        tally.compare("job's unused elements", *value, 0);
    }
}
