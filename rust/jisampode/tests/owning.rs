//! Jobs that own their memory: record and memory are one value.

use std::error::Error;

use jisampode::{Bounds, JobBuilder, Lengths, Model, OwnedJob, OwnedMemory, Refusal};

use crate::jobs::{all_zero, bits, case, large, used};

fn owned(builder: &JobBuilder) -> OwnedJob {
    let memory = OwnedMemory::for_job(builder).unwrap();
    builder.open_owned(memory).unwrap()
}

#[test]
fn jobs_take_turns() {
    let builders = [case(), large()];
    let mut jobs: Vec<OwnedJob> = builders.iter().map(owned).collect();
    while jobs.iter().any(|job| !job.is_finished()) {
        for job in &mut jobs {
            job.step(1000).unwrap();
        }
        jobs.reverse();
    }
    jobs.sort_by_key(|job| job.counts().evaluations);
    for (builder, job) in builders.iter().zip(&jobs) {
        let mut memory = OwnedMemory::for_job(builder).unwrap();
        let mut alone = builder.open(memory.lend()).unwrap();
        assert_eq!(alone.finish(), Ok(job.counts()));
        assert_eq!(bits(alone.memory()), bits(job.memory()));
    }
}

#[test]
fn a_job_owns_its_memory_whole() {
    let mut job = owned(&large());
    job.finish().unwrap();
    job.reopen(&case()).unwrap();
    assert_eq!(job.finish().unwrap().evaluations, 59);
    assert!(bits(job.memory())[3][32..].iter().all(|&bits| bits == 0));

    let memory = job.into_memory();
    assert_eq!(memory.view().lengths(), large().lengths().unwrap());
    assert!(all_zero(memory.view()));
    assert!(large().open_owned(memory).is_ok());
}

#[test]
fn a_refusal_hands_the_memory_back() {
    let memory = used(case().lengths().unwrap());
    let before = bits(memory.view());
    let refused = large().open_owned(memory).unwrap_err();
    assert_eq!(refused.refusal, Refusal::Short);
    assert_eq!(bits(refused.memory.view()), before);
    assert!(case().open_owned(refused.memory).is_ok());
}

/// A stranger's job that needs 35 TB.
fn greedy() -> JobBuilder {
    let mut model = Model::new();
    model.constant(0.0).unwrap();
    case()
        .bounds(Bounds::new([0.0; 3], [16_128.0; 3]))
        .blocks(2, 64)
        .model(model)
}

#[test]
fn a_greedy_job_is_refused() {
    let bytes = greedy().lengths().unwrap().bytes();
    assert!(bytes > 35_000_000_000_000, "{bytes}");
    let refused = |most| OwnedMemory::for_job_within(&greedy(), most).err();
    assert_eq!(refused(64 << 20), Some(Refusal::Short));
    assert_eq!(refused(bytes - 1), Some(Refusal::Short));

    let bytes = case().lengths().unwrap().bytes();
    assert!(OwnedMemory::for_job_within(&case(), bytes).is_ok());
    assert!(OwnedMemory::for_job_within(&case(), bytes - 1).is_err());
    assert_eq!(
        OwnedMemory::for_job_within(&JobBuilder::new(), 0).err(),
        Some(Refusal::Bounds)
    );
}

#[test]
fn more_than_any_machine_has_is_refused() {
    let lengths = Lengths {
        store: usize::MAX,
        ..case().lengths().unwrap()
    };
    assert_eq!(lengths.bytes(), usize::MAX);
    assert_eq!(OwnedMemory::try_new(lengths).err(), Some(Refusal::Short));
}

/// That `?` works where errors are boxed.
fn boxed(builder: &JobBuilder, most: usize) -> Result<u64, Box<dyn Error>> {
    let mut memory = OwnedMemory::for_job_within(builder, most)?;
    let lent = builder.open(memory.lend())?.finish()?;
    let owned = builder.open_owned(memory)?.finish()?;
    assert_eq!(lent, owned);
    Ok(owned.evaluations)
}

#[test]
fn errors_can_be_boxed() {
    assert_eq!(boxed(&case(), 1 << 20).unwrap(), 59);
    let text = boxed(&greedy(), 1 << 20).unwrap_err().to_string();
    assert_eq!(text, "refused by 6: a lent slice is too short");
}
