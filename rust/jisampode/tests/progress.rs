//! Progress for a bar.

use jisampode::{Bounds, JobBuilder, OwnedMemory};

use crate::jobs::{case, large};

fn run(builder: &JobBuilder, budget: u64) -> (u64, u64) {
    let mut memory = OwnedMemory::for_job(builder).unwrap();
    let mut job = builder.open(memory.lend()).unwrap();
    let mut last = job.progress();
    assert_eq!((last.done, last.fraction()), (0, 0.0));
    while !job.is_finished() {
        let next = job.step(budget).unwrap();
        assert_eq!(next, job.progress());
        assert_eq!(next.most, last.most);
        assert!(next.finished || next.done == last.done + budget);
        assert!(next.fraction() > last.fraction());
        assert_eq!(next.fraction() == 1.0, next.finished);
        last = next;
    }
    assert_eq!(last.done, job.counts().evaluations);
    assert!(last.done <= last.most);
    (last.done, last.most)
}

#[test]
fn it_grows_to_one() {
    // 27 corners, and 8 points for each of 8 active children.
    assert_eq!(run(&case(), 1), (59, 91));
    let (done, most) = run(&large(), 777);
    assert!(done < most);
}

#[test]
fn all_leaves_make_the_most() {
    let (done, most) = run(&large().band(f64::NEG_INFINITY, f64::INFINITY), 5000);
    assert_eq!(done, most);
}

#[test]
fn few_active_children() {
    // 8 active of 64 children, 27 corners needed of 125.
    let builder = case().bounds(Bounds::new([0.0; 3], [1.0; 3])).blocks(4, 2);
    assert_eq!(run(&builder, 1).1, 27 + 8 * 8);
    // 1 active child, 8 corners.
    let builder = case().bounds(Bounds::new([0.0; 3], [0.0; 3]));
    assert_eq!(run(&builder, 1).1, 8 + 8);
}

#[test]
fn a_reopened_job_has_its_own() {
    let mut memory = OwnedMemory::for_job(&large()).unwrap();
    let mut job = large().open(memory.lend()).unwrap();
    job.finish().unwrap();
    job.reopen(&case()).unwrap();
    assert_eq!((job.progress().done, job.progress().most), (0, 91));
}
