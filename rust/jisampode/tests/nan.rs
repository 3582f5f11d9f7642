//! The bits of NaNs: a copied one keeps them, a computed one has 7ff8000000000000.

use jisampode::{DenseField, Dimensions, JobBuilder, Model, OwnedMemory};

use crate::jobs::case;

const COPIED: u64 = 0x7ff8_0000_0000_0001;
const COMPUTED: u64 = 0x7ff8_0000_0000_0000;
/// With a sign and other digits.
const OTHER: u64 = 0xfff8_0000_dead_beef;

/// A constant NaN, alone.
fn constant(bits: u64) -> Model {
    let mut model = Model::new();
    model.constant(f64::from_bits(bits)).unwrap();
    model
}

/// That the job's store has these bits everywhere: eight NaN corners make a leaf.
fn leaves_have(builder: JobBuilder, budget: u64, expected: u64) {
    let mut memory = OwnedMemory::for_job(&builder).unwrap();
    let mut job = builder.open(memory.lend()).unwrap();
    while !job.step(budget).unwrap().finished {}
    assert_eq!(job.counts().leaves, 8);
    assert!(job
        .memory()
        .store
        .iter()
        .all(|value| value.to_bits() == expected));
}

#[test]
fn a_constant_keeps_its_bits() {
    for bits in [COPIED, OTHER, COMPUTED] {
        // The model is in the record between steps.
        for budget in [1, u64::MAX] {
            leaves_have(case().model(constant(bits)), budget, bits);
        }
    }
}

#[test]
fn min_and_max_keep_the_first() {
    let mut model = constant(COPIED);
    let other = model.constant(f64::from_bits(OTHER)).unwrap();
    model.min(0, other).unwrap();
    leaves_have(case().model(model), 5, COPIED);

    let mut model = constant(COPIED);
    let other = model.constant(f64::from_bits(OTHER)).unwrap();
    model.max(other, 0).unwrap();
    leaves_have(case().model(model), 5, OTHER);
}

#[test]
fn a_computed_one_has_one_pattern() {
    let mut neg = constant(COPIED);
    neg.neg(0).unwrap();
    let mut add = constant(OTHER);
    add.add(0, 0).unwrap();
    let mut sphere = Model::new();
    sphere.sphere([0.0; 3], f64::from_bits(OTHER)).unwrap();
    let mut infinite = Model::new();
    let endless = infinite.constant(f64::INFINITY).unwrap();
    infinite.sub(endless, endless).unwrap();
    for model in [neg, add, sphere, infinite] {
        leaves_have(case().model(model), 5, COMPUTED);
    }
}

#[test]
fn dense_fields() {
    let mut values = [0.0; 27];
    let mut scratch = [0.0; 27];
    let mut field = DenseField::new(Dimensions::new(3, 3, 3), &mut values).unwrap();
    let all_are = |field: &DenseField<'_>, bits: u64| {
        field.values().iter().all(|value| value.to_bits() == bits)
    };

    field.sample(&constant(OTHER), [0.0; 3], 1.0).unwrap();
    assert!(all_are(&field, OTHER));
    field.threshold(f64::INFINITY);
    assert!(all_are(&field, OTHER));
    field.pad(f64::from_bits(COPIED));
    assert_eq!(field.values()[0].to_bits(), COPIED);
    assert_eq!(field.values()[13].to_bits(), OTHER);
    field.smooth(0.5, 1, &mut scratch).unwrap();
    assert_eq!(field.values()[0].to_bits(), COPIED);
    assert_eq!(field.values()[13].to_bits(), COMPUTED);
}
