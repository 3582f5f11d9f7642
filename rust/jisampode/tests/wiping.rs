//! No value of a job is left for the next one, or after it.

use std::panic::{catch_unwind, AssertUnwindSafe};
use std::thread;

use jisampode::OwnedMemory;

use crate::jobs::{all_zero, bits, case, large, used};

#[test]
fn a_small_job_after_a_large_one() {
    let mut memory = OwnedMemory::for_job(&large()).unwrap();
    let mut job = large().open(memory.lend()).unwrap();
    job.finish().unwrap();
    let filled = bits(job.memory());
    assert!(filled[3][64..].iter().any(|&bits| bits != 0));

    job.reopen(&case()).unwrap();
    job.finish().unwrap();
    // 8 children, 32 points; the corners are zeroed at a node's end.
    for (slice, needed) in bits(job.memory()).iter().zip([8, 8, 8, 32, 0]) {
        assert!(slice.len() > needed);
        assert!(slice[needed..].iter().all(|&bits| bits == 0));
    }
    assert!(bits(job.memory())[3][..32].iter().any(|&bits| bits != 0));
}

#[test]
fn open_takes_memory_of_any_contents() {
    let lengths = large().lengths().unwrap();
    let (mut clean, mut dirty) = (OwnedMemory::new(lengths), used(lengths));
    let mut one = case().open(clean.lend()).unwrap();
    let mut other = case().open(dirty.lend()).unwrap();
    assert_eq!(bits(one.memory()), bits(other.memory()));
    one.finish().unwrap();
    other.finish().unwrap();
    assert_eq!(bits(one.memory()), bits(other.memory()));
}

#[test]
fn an_abandoned_job() {
    let lengths = large().lengths().unwrap();
    for budget in [0, 1, 2000, u64::MAX] {
        let mut memory = used(lengths);
        {
            let mut job = large().open(memory.lend()).unwrap();
            job.step(budget).unwrap();
            assert!(!all_zero(job.memory()));
        }
        assert!(all_zero(memory.view()));
    }
}

#[test]
fn a_job_abandoned_by_a_panic() {
    let mut memory = OwnedMemory::for_job(&large()).unwrap();
    let panicked = catch_unwind(AssertUnwindSafe(|| {
        let mut job = large().open(memory.lend()).unwrap();
        job.step(2000).unwrap();
        std::panic::resume_unwind(Box::new(()));
    }));
    assert!(panicked.is_err());
    assert!(all_zero(memory.view()));
}

#[test]
fn the_memory_comes_back_zeroed() {
    let mut owned = OwnedMemory::for_job(&large()).unwrap();
    let lengths = owned.view().lengths();
    let mut job = large().open(owned.lend()).unwrap();
    job.finish().unwrap();
    let memory = job.into_memory();
    assert_eq!(memory.view().lengths(), lengths);
    assert!(all_zero(memory.view()));
    assert!(case().open(memory).is_ok());
}

#[test]
fn a_job_can_go_to_another_thread() {
    let mut memory = OwnedMemory::for_job(&case()).unwrap();
    let mut job = case().open(memory.lend()).unwrap();
    let counts = thread::scope(|scope| scope.spawn(move || job.finish()).join());
    assert_eq!(counts.unwrap().unwrap().evaluations, 59);
    assert!(all_zero(memory.view()));
}

#[test]
fn nothing_shows_values() {
    let mut memory = OwnedMemory::for_job(&case()).unwrap();
    let mut job = case().open(memory.lend()).unwrap();
    job.finish().unwrap();
    let shown = format!("{job:?} {:?}", job.memory());
    assert!(shown.contains("evaluations: 59"));
    assert!(!shown.contains("1.5"));
    let shown = format!("{:?}", job.field());
    assert!(shown.contains("nodes: 1"));
    assert!(!shown.contains("1.5"));
}
