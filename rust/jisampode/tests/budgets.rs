//! Budgets: 0, 1, the greatest, and any of equal sum.

use jisampode::{Cursor, OwnedMemory};

use crate::jobs::{bits, case, large};

#[test]
fn zero_changes_nothing() {
    let mut memory = OwnedMemory::for_job(&large()).unwrap();
    let mut job = large().open(memory.lend()).unwrap();
    for budget in [0, 100, 1000, u64::MAX] {
        job.step(budget).unwrap();
        let before = (bits(job.memory()), job.counts(), job.cursor());
        job.step(0).unwrap();
        assert_eq!((bits(job.memory()), job.counts(), job.cursor()), before);
    }
}

#[test]
fn one_makes_one() {
    let mut memory = OwnedMemory::for_job(&case()).unwrap();
    let mut job = case().open(memory.lend()).unwrap();
    for done in 1..=59 {
        assert!(!job.is_finished());
        assert_eq!(job.step(1).unwrap().done, done);
    }
    assert!(job.is_finished());
    assert_eq!(job.cursor(), Cursor::End);
}

#[test]
fn a_finished_job_makes_none() {
    let mut memory = OwnedMemory::for_job(&case()).unwrap();
    let mut job = case().open(memory.lend()).unwrap();
    job.step(u64::MAX).unwrap();
    let before = (bits(job.memory()), job.counts());
    job.step(u64::MAX).unwrap();
    job.finish().unwrap();
    assert_eq!((bits(job.memory()), job.counts()), before);
}

#[test]
fn equal_sums_leave_equal_elements() {
    let mut one = OwnedMemory::for_job(&large()).unwrap();
    let mut other = OwnedMemory::for_job(&large()).unwrap();
    let mut whole = large().open(one.lend()).unwrap();
    let mut split = large().open(other.lend()).unwrap();
    while !whole.is_finished() {
        whole.step(1500).unwrap();
        for budget in [1, 999, 0, 500] {
            split.step(budget).unwrap();
        }
        assert_eq!(bits(whole.memory()), bits(split.memory()));
        assert_eq!(whole.counts(), split.counts());
        assert_eq!(whole.cursor(), split.cursor());
    }
}
