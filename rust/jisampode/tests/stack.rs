//! Calls on threads of just the stack that the header names. Open and step are called
//! as C does, without the wrapper's own frames.

use std::thread;

use jisampode::{list_job_into, sys, DenseField, Dimensions, Model, OwnedMemory, LISTING_BYTES};

use crate::jobs::large;

/// Runs work on a thread of so many bytes of stack. Where they are too few the
/// process ends.
fn on(stack: usize, work: impl FnOnce() + Send + 'static) {
    let thread = thread::Builder::new().stack_size(stack).spawn(work);
    thread.unwrap().join().unwrap();
}

/// A model of 64 parts.
fn many_parts() -> Model {
    let mut model = Model::new();
    let mut union = model.sphere([6.0; 3], 5.0).unwrap();
    while model.parts().len() < 63 {
        let ball = model.sphere([f64::from(union), 6.0, 6.0], 1.0).unwrap();
        union = model.min(union, ball).unwrap();
    }
    model.neg(union).unwrap();
    model
}

/// A job's numbers, where the C functions take them: 64 spheres in a box of 12×12×12.
struct Raw {
    settings: [f64; sys::SETTINGS],
    parts: [u32; sys::PARTS],
    reals: [f64; sys::REALS],
    record_words: [u64; sys::WORDS],
    record_parts: [u32; sys::PARTS],
    record_settings: [f64; sys::SETTINGS],
    record_reals: [f64; sys::REALS],
    memory: OwnedMemory,
}

impl Raw {
    fn new() -> Raw {
        Raw {
            settings: [0.0, 0.0, 0.0, 12.0, 12.0, 12.0, 0.5, -0.5, 0.5],
            parts: std::array::from_fn(|place| u32::from(place < 64) * sys::SPHERE),
            reals: std::array::from_fn(|place| 1.0 + (place % 11) as f64),
            record_words: [0; sys::WORDS],
            record_parts: [0; sys::PARTS],
            record_settings: [0.0; sys::SETTINGS],
            record_reals: [0.0; sys::REALS],
            memory: OwnedMemory::for_job(&large()).unwrap(),
        }
    }

    fn open(&mut self) -> u32 {
        let memory = &mut self.memory;
        // SAFETY: each array has the length that the header names, and each slice goes
        // with its own.
        unsafe {
            sys::jisampode_open(
                self.settings.as_ptr(),
                4,
                4,
                self.parts.as_ptr(),
                self.reals.as_ptr(),
                64,
                self.record_words.as_mut_ptr(),
                self.record_parts.as_mut_ptr(),
                self.record_settings.as_mut_ptr(),
                self.record_reals.as_mut_ptr(),
                memory.kinds.as_mut_ptr(),
                memory.kinds.len(),
                memory.numbers.as_mut_ptr(),
                memory.numbers.len(),
                memory.places.as_mut_ptr(),
                memory.places.len(),
                memory.store.as_mut_ptr(),
                memory.store.len(),
                memory.corners.as_mut_ptr(),
                memory.corners.len(),
            )
        }
    }

    fn step(&mut self, budget: u64) -> u32 {
        let memory = &mut self.memory;
        // SAFETY: as for `open`.
        unsafe {
            sys::jisampode_step(
                budget,
                self.record_words.as_mut_ptr(),
                self.record_parts.as_mut_ptr(),
                self.record_settings.as_mut_ptr(),
                self.record_reals.as_mut_ptr(),
                memory.kinds.as_mut_ptr(),
                memory.kinds.len(),
                memory.numbers.as_mut_ptr(),
                memory.numbers.len(),
                memory.places.as_mut_ptr(),
                memory.places.len(),
                memory.store.as_mut_ptr(),
                memory.store.len(),
                memory.corners.as_mut_ptr(),
                memory.corners.len(),
            )
        }
    }
}

#[test]
fn jobs() {
    let mut raw = Box::new(Raw::new());
    on(sys::STACK, move || {
        assert_eq!(raw.open(), sys::ACCEPTED);
        for budget in [0, 1, 3000, u64::MAX] {
            assert_eq!(raw.step(budget), sys::ACCEPTED);
        }
    });
}

#[test]
fn dense_fields() {
    let model = Box::new(many_parts());
    on(sys::STACK, move || {
        let mut values = vec![0.0; 1000];
        let mut scratch = vec![0.0; 1000];
        let mut field = DenseField::new(Dimensions::new(10, 10, 10), &mut values).unwrap();
        field.sample(&model, [0.0; 3], 1.0).unwrap();
        field.smooth(0.5, 3, &mut scratch).unwrap();
        field.pad(1.0);
        field.threshold(0.5);
        assert_eq!(field.octets().count(), 729);
    });
}

#[test]
fn listings() {
    for text in [
        include_str!("../../../examples/case.job"),
        include_str!("../../../examples/bracket.job"),
        "(cell 0)\n",
    ] {
        on(sys::LISTING_STACK, move || {
            let mut listing = vec![0; LISTING_BYTES];
            list_job_into(text.as_bytes(), &mut listing).unwrap();
        });
    }
}
