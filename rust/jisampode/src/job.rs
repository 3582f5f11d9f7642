//! A job in its memory.

use core::fmt;
use core::mem;

use crate::builder::JobBuilder;
use crate::engine::{self, certain};
use crate::field::Field;
use crate::memory::{Slices, View};
use crate::progress::{self, Progress};
use crate::record::{Counts, Cursor, Record};
use crate::refusal::Refusal;

/// A job of a sparse field, in lent memory or in memory that it owns.
/// [`JobBuilder::open`] and [`JobBuilder::open_owned`] make one. Its record and its
/// memory are one value, so no record comes to another client's memory.
///
/// A job has its memory for itself while it lives, and zeroes it when it goes out
/// of scope, wherever it has come to. (A job that [`core::mem::forget`] takes zeroes
/// nothing; the next open in that memory does.) Lent memory cannot be used
/// meanwhile:
///
/// ```compile_fail,E0502
/// # use jisampode::{Bounds, JobBuilder, Model, OwnedMemory};
/// # let mut model = Model::new();
/// # model.plane([1.0, 0.0, 0.0], 0.0).unwrap();
/// # let builder = JobBuilder::new()
/// #     .bounds(Bounds::new([0.0; 3], [2.0; 3]))
/// #     .cell(1.0)
/// #     .blocks(2, 2)
/// #     .band(-0.25, 0.0)
/// #     .model(model);
/// let mut memory = OwnedMemory::for_job(&builder).unwrap();
/// let mut job = builder.open(memory.lend()).unwrap();
/// let value = memory.store[0]; // the job has it
/// job.finish().unwrap();
/// ```
///
/// A second job cannot have the same memory:
///
/// ```compile_fail,E0499
/// # use jisampode::{Bounds, JobBuilder, Model, OwnedMemory};
/// # let mut model = Model::new();
/// # model.plane([1.0, 0.0, 0.0], 0.0).unwrap();
/// # let builder = JobBuilder::new()
/// #     .bounds(Bounds::new([0.0; 3], [2.0; 3]))
/// #     .cell(1.0)
/// #     .blocks(2, 2)
/// #     .band(-0.25, 0.0)
/// #     .model(model);
/// let mut memory = OwnedMemory::for_job(&builder).unwrap();
/// let mut job = builder.open(memory.lend()).unwrap();
/// let other = builder.open(memory.lend()); // the first job has it
/// job.finish().unwrap();
/// ```
///
/// A job cannot outlive its memory:
///
/// ```compile_fail,E0597
/// # use jisampode::{Bounds, JobBuilder, Model, OwnedMemory};
/// # let mut model = Model::new();
/// # model.plane([1.0, 0.0, 0.0], 0.0).unwrap();
/// # let builder = JobBuilder::new()
/// #     .bounds(Bounds::new([0.0; 3], [2.0; 3]))
/// #     .cell(1.0)
/// #     .blocks(2, 2)
/// #     .band(-0.25, 0.0)
/// #     .model(model);
/// let mut job = {
///     let mut memory = OwnedMemory::for_job(&builder).unwrap();
///     builder.open(memory.lend()).unwrap() // the memory ends here
/// };
/// job.finish().unwrap();
/// ```
///
/// When the job is over the memory can be used again, and holds zeros:
///
/// ```
/// # use jisampode::{Bounds, JobBuilder, Model, OwnedMemory};
/// # let mut model = Model::new();
/// # model.plane([1.0, 0.0, 0.0], 0.0).unwrap();
/// # let builder = JobBuilder::new()
/// #     .bounds(Bounds::new([0.0; 3], [2.0; 3]))
/// #     .cell(1.0)
/// #     .blocks(2, 2)
/// #     .band(-0.25, 0.0)
/// #     .model(model);
/// let mut memory = OwnedMemory::for_job(&builder).unwrap();
/// {
///     let mut job = builder.open(memory.lend()).unwrap();
///     job.step(30).unwrap(); // and no more
/// }
/// assert!(memory.store.iter().all(|value| value.to_bits() == 0));
/// ```
pub struct Job<M: Slices> {
    record: Record,
    memory: M,
    most: u64,
}

/// A job that owns its memory.
#[cfg(feature = "std")]
pub type OwnedJob = Job<crate::memory::OwnedMemory>;

impl<M: Slices> Job<M> {
    /// The job of a record that the engine has accepted with this memory.
    pub(crate) fn opened(record: Record, memory: M) -> Job<M> {
        let mut job = Job {
            record,
            memory,
            most: 0,
        };
        job.find_most();
        job
    }

    fn find_most(&mut self) {
        self.most = progress::most(&self.record, self.counts(), self.memory.shown().kinds);
    }

    /// Makes as many evaluations as the budget allows and the job has left. A
    /// budget of 0 changes nothing, and neither does a step of a finished job.
    ///
    /// The engine judges the record at each step, in time that grows with the
    /// number of children: a budget of thousands is better than many small ones. A
    /// job's record and memory are its own, so it has no cause to refuse a step.
    pub fn step(&mut self, budget: u64) -> Result<Progress, Refusal> {
        engine::step(budget, &mut self.record, &mut self.memory.slices())?;
        Ok(self.progress())
    }

    /// Makes all evaluations that are left.
    pub fn finish(&mut self) -> Result<Counts, Refusal> {
        self.step(u64::MAX)?;
        Ok(self.counts())
    }

    /// How far the job has come.
    #[must_use]
    pub fn progress(&self) -> Progress {
        Progress {
            done: self.counts().evaluations,
            most: self.most,
            finished: self.is_finished(),
        }
    }

    /// Nodes, active children, leaves, their points, and evaluations.
    #[must_use]
    pub fn counts(&self) -> Counts {
        certain(self.record.counts())
    }

    /// Where the job stands.
    #[must_use]
    pub fn cursor(&self) -> Cursor {
        certain(self.record.cursor())
    }

    /// Whether every evaluation is made.
    #[must_use]
    pub fn is_finished(&self) -> bool {
        self.cursor() == Cursor::End
    }

    /// The field, as far as it has come.
    #[must_use]
    pub fn field(&self) -> Field<'_> {
        Field::new(&self.record, self.counts(), self.cursor(), self.memory())
    }

    /// The five slices whole, to be read. What the job does not use is 0.
    #[must_use]
    pub fn memory(&self) -> View<'_> {
        self.memory.shown()
    }

    /// Opens another job in the same memory, which is zeroed whole first. Refused
    /// by causes 1 to 6; then the old job is as it was.
    ///
    /// ```
    /// # use jisampode::{Bounds, JobBuilder, Model, OwnedMemory, Refusal};
    /// # fn main() -> Result<(), Refusal> {
    /// # let mut model = Model::new();
    /// # model.sphere([2.0; 3], 1.0)?;
    /// let large = JobBuilder::new()
    ///     .bounds(Bounds::new([0.0; 3], [4.0; 3]))
    ///     .cell(1.0)
    ///     .blocks(2, 2)
    ///     .band(-9.0, 9.0)
    ///     .model(model);
    /// let small = large.clone().bounds(Bounds::new([0.0; 3], [2.0; 3]));
    ///
    /// let mut memory = OwnedMemory::for_job(&large)?;
    /// let mut job = large.open(memory.lend())?;
    /// job.finish()?;
    /// job.reopen(&small)?;
    /// job.finish()?;
    /// let used = job.counts().sampled as usize;
    /// assert!(job.memory().store[used..].iter().all(|value| value.to_bits() == 0));
    /// # Ok(())
    /// # }
    /// ```
    pub fn reopen(&mut self, builder: &JobBuilder) -> Result<(), Refusal> {
        builder.call(&mut self.record, &mut self.memory.slices())?;
        self.find_most();
        Ok(())
    }

    /// Ends the job, and hands back its memory, zeroed.
    #[must_use]
    pub fn into_memory(mut self) -> M {
        self.end();
        mem::take(&mut self.memory)
    }

    fn end(&mut self) {
        engine::drop(&mut self.record, &mut self.memory.slices());
    }
}

/// Zeroes the memory.
impl<M: Slices> Drop for Job<M> {
    fn drop(&mut self) {
        self.end();
    }
}

/// Shows counts, cursor and lengths alone, so that no value of a client comes into
/// a log.
impl<M: Slices> fmt::Debug for Job<M> {
    fn fmt(&self, f: &mut fmt::Formatter<'_>) -> fmt::Result {
        f.debug_struct("Job")
            .field("record", &self.record)
            .field("memory", &self.memory())
            .finish()
    }
}
