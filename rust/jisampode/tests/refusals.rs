//! Causes 1 to 6 by the builder, their order, and what they leave.

use jisampode::{Bounds, JobBuilder, Lengths, Memory, Model, OwnedMemory, Part, Refusal};

use crate::jobs::{bits, case, large, used};

fn cube(low: f64, high: f64) -> Bounds {
    Bounds::new([low; 3], [high; 3])
}

fn parts(parts: &[Part]) -> Model {
    let mut model = Model::new();
    for &part in parts {
        model.push(part).unwrap();
    }
    model
}

/// That open refuses by this cause, and changes no element.
fn refused(builder: JobBuilder, cause: Refusal) {
    let mut memory = used(Lengths {
        kinds: 8,
        numbers: 8,
        places: 8,
        store: 64,
        corners: 27,
    });
    let before = bits(memory.view());
    let refused = builder.open_or_return(memory.lend()).unwrap_err();
    assert_eq!(refused.refusal, cause);
    assert_eq!(bits(refused.memory.view()), before);
    assert_eq!(Refusal::from(refused), cause);
    assert_eq!(bits(memory.view()), before);
    let judged = builder.lengths();
    assert_eq!(judged.err(), (cause != Refusal::Short).then_some(cause));
}

#[test]
fn numbers_and_texts() {
    for (number, &cause) in (1..).zip(Refusal::ALL) {
        assert_eq!(cause.number(), number);
        assert_eq!(Refusal::from_number(number), Some(cause));
        let start = format!("refused by {number}: ");
        assert!(cause.to_string().starts_with(&start));
    }
    assert_eq!(Refusal::from_number(0), None);
    for number in [1000, u32::MAX] {
        let unknown = Refusal::from_number(number).unwrap();
        assert_eq!(unknown.number(), number);
        assert!(!Refusal::ALL.contains(&unknown));
    }
}

#[test]
fn one_bounds_and_cell() {
    refused(case().bounds(cube(0.0, f64::INFINITY)), Refusal::Bounds);
    refused(case().bounds(cube(f64::NAN, 2.0)), Refusal::Bounds);
    refused(case().bounds(cube(1.0, 0.0)), Refusal::Bounds);
    for cell in [0.0, -0.0, -1.0, f64::NAN, f64::INFINITY] {
        refused(case().cell(cell), Refusal::Bounds);
    }
}

#[test]
fn two_blocks() {
    for size in [0, 1, 3, 65, 128, u32::MAX] {
        refused(case().blocks(size, 2), Refusal::Blocks);
        refused(case().blocks(2, size), Refusal::Blocks);
    }
}

#[test]
fn three_band() {
    refused(case().band(f64::NAN, 0.0), Refusal::Band);
    refused(case().band(0.0, f64::NAN), Refusal::Band);
}

#[test]
fn four_model() {
    refused(case().model(Model::new()), Refusal::Model);
    refused(case().model(parts(&[Part::Neg(0)])), Refusal::Model);
    let ahead = [Part::Constant(1.0), Part::Min(0, 1)];
    refused(case().model(parts(&ahead)), Refusal::Model);
    let ahead = [Part::Constant(1.0), Part::Add(u32::MAX, 0)];
    refused(case().model(parts(&ahead)), Refusal::Model);
}

#[test]
fn four_at_the_65th_part() {
    let mut model = Model::new();
    for place in 0..64 {
        assert_eq!(model.constant(1.0), Ok(place));
    }
    assert_eq!(model.constant(1.0), Err(Refusal::Model));
    assert_eq!(model.parts().len(), 64);
    let mut memory = OwnedMemory::for_job(&case()).unwrap();
    assert!(case().model(model).open(memory.lend()).is_ok());
}

#[test]
fn five_grid() {
    // Nodes of size 2: 1,025 along an axis, one more than 1,024.
    let along = |x| Bounds::new([0.0; 3], [x, 2.0, 2.0]);
    refused(case().bounds(along(2050.0)), Refusal::Grid);
    refused(case().bounds(along(2048.0)), Refusal::Short);
    // 257³ nodes of 8 children.
    refused(case().bounds(cube(0.0, 514.0)), Refusal::Grid);
    refused(case().cell(f64::MAX), Refusal::Grid);
}

#[test]
fn six_short() {
    refused(large(), Refusal::Short);
    let none = case().open(Memory::default()).unwrap_err();
    assert_eq!(none, Refusal::Short);
}

#[test]
fn what_is_not_set() {
    let nothing = JobBuilder::new();
    refused(nothing.clone(), Refusal::Bounds);
    let bounds = nothing.bounds(cube(0.0, 2.0));
    refused(bounds.clone(), Refusal::Bounds);
    let cell = bounds.cell(1.0);
    refused(cell.clone(), Refusal::Blocks);
    let blocks = cell.blocks(2, 2);
    refused(blocks.clone(), Refusal::Band);
    let band = blocks.band(-0.25, 0.0);
    refused(band.clone(), Refusal::Model);
    let mut memory = OwnedMemory::for_job(&case()).unwrap();
    let model = parts(&[Part::Constant(1.0)]);
    assert!(band.model(model).open(memory.lend()).is_ok());
}

#[test]
fn the_lowest_number_comes_first() {
    let five = large().bounds(cube(0.0, 1e6));
    refused(five.clone(), Refusal::Grid);
    let four = five.model(Model::new());
    refused(four.clone(), Refusal::Model);
    let three = four.band(f64::NAN, 0.0);
    refused(three.clone(), Refusal::Band);
    let two = three.blocks(3, 2);
    refused(two.clone(), Refusal::Blocks);
    refused(two.cell(0.0), Refusal::Bounds);
}

#[test]
fn a_refused_reopen_keeps_the_job() {
    let mut memory = OwnedMemory::for_job(&case()).unwrap();
    let mut job = case().open(memory.lend()).unwrap();
    job.step(31).unwrap();
    let before = (bits(job.memory()), job.counts(), job.cursor());
    assert_eq!(job.reopen(&large()), Err(Refusal::Short));
    assert_eq!(job.reopen(&JobBuilder::new()), Err(Refusal::Bounds));
    assert_eq!((bits(job.memory()), job.counts(), job.cursor()), before);
    assert_eq!(job.finish().unwrap().evaluations, 59);
}
