//! Jobs that several tests open, and what they compare.

use jisampode::{Bounds, JobBuilder, Lengths, Model, OwnedMemory, View};

/// The plane case: a plane in a box of 2×2×2.
pub fn case() -> JobBuilder {
    let mut model = Model::new();
    model.plane([1.0, 0.0, 0.0], 0.0).unwrap();
    JobBuilder::new()
        .bounds(Bounds::new([0.0; 3], [2.0; 3]))
        .cell(1.0)
        .blocks(2, 2)
        .band(-0.25, 0.0)
        .model(model)
}

/// A ball less a smaller one, in eight nodes of 4³ children with leaves of 4³
/// points.
pub fn large() -> JobBuilder {
    let mut model = Model::new();
    let ball = model.sphere([6.0; 3], 5.0).unwrap();
    let hole = model.sphere([8.0, 6.0, 6.0], 2.5).unwrap();
    let outside = model.neg(hole).unwrap();
    model.max(ball, outside).unwrap();
    JobBuilder::new()
        .bounds(Bounds::new([0.0; 3], [12.0; 3]))
        .cell(0.5)
        .blocks(4, 4)
        .band(-0.5, 0.5)
        .model(model)
}

/// The elements of the five slices as bits.
pub type Bits = [Vec<u64>; 5];

pub fn bits(memory: View<'_>) -> Bits {
    let floats = |values: &[f64]| values.iter().map(|value| value.to_bits()).collect();
    [
        memory.kinds.iter().copied().map(u64::from).collect(),
        floats(memory.numbers),
        memory.places.iter().copied().map(u64::from).collect(),
        floats(memory.store),
        floats(memory.corners),
    ]
}

pub fn all_zero(memory: View<'_>) -> bool {
    bits(memory).iter().flatten().all(|&bits| bits == 0)
}

/// Memory of these lengths in which no element is 0.
pub fn used(lengths: Lengths) -> OwnedMemory {
    OwnedMemory {
        kinds: vec![7; lengths.kinds],
        numbers: vec![-0.0; lengths.numbers],
        places: vec![u32::MAX; lengths.places],
        store: vec![f64::NAN; lengths.store],
        corners: vec![1e-310; lengths.corners],
    }
}
