//! What a job is opened with.

use core::fmt;

use crate::bounds::Bounds;
use crate::engine;
use crate::job::Job;
#[cfg(feature = "std")]
use crate::memory::OwnedMemory;
use crate::memory::{Lengths, Memory, Slices};
use crate::model::Model;
use crate::record::Record;
use crate::refusal::Refusal;
use crate::sys;

/// What a job is opened with: bounds, cell size, block sizes, band and model.
///
/// Nothing is set at first. A setting that is left out is refused as a wrong one
/// is: bounds and cell by [`Refusal::Bounds`], block sizes by [`Refusal::Blocks`],
/// the band by [`Refusal::Band`], the model by [`Refusal::Model`].
///
/// One builder can open many jobs.
///
/// ```
/// use jisampode::{Bounds, JobBuilder, Model, Refusal};
///
/// # fn main() -> Result<(), Refusal> {
/// let mut model = Model::new();
/// model.sphere([0.5; 3], 0.4)?;
/// let builder = JobBuilder::new()
///     .bounds(Bounds::new([0.0; 3], [1.0; 3]))
///     .cell(0.125)
///     .blocks(4, 4)
///     .band(-0.1, 0.1)
///     .model(model);
/// assert_eq!(builder.lengths()?.corners, 125);
///
/// // Without a band it is refused.
/// let no_band = builder.clone().band(f64::NAN, 0.1);
/// assert_eq!(no_band.lengths(), Err(Refusal::Band));
/// # Ok(())
/// # }
/// ```
#[derive(Debug, Clone)]
pub struct JobBuilder {
    bounds: Bounds,
    cell: f64,
    inner: u32,
    leaf: u32,
    band: [f64; 2],
    model: Model,
}

impl JobBuilder {
    /// A builder with nothing set.
    #[must_use]
    pub fn new() -> JobBuilder {
        JobBuilder {
            bounds: Bounds::new([f64::NAN; 3], [f64::NAN; 3]),
            cell: f64::NAN,
            inner: 0,
            leaf: 0,
            band: [f64::NAN; 2],
            model: Model::new(),
        }
    }

    /// Where the field is.
    #[must_use]
    pub fn bounds(mut self, bounds: Bounds) -> JobBuilder {
        self.bounds = bounds;
        self
    }

    /// The distance between points of a leaf.
    #[must_use]
    pub fn cell(mut self, cell: f64) -> JobBuilder {
        self.cell = cell;
        self
    }

    /// Children of a node along an axis, and points of a leaf along an axis: each
    /// 2, 4, 8, 16, 32 or 64.
    #[must_use]
    pub fn blocks(mut self, inner: u32, leaf: u32) -> JobBuilder {
        self.inner = inner;
        self.leaf = leaf;
        self
    }

    /// The values that leaves are kept for. A child that no value of the band can
    /// be in becomes a constant.
    #[must_use]
    pub fn band(mut self, lower: f64, upper: f64) -> JobBuilder {
        self.band = [lower, upper];
        self
    }

    /// The model that is evaluated.
    #[must_use]
    pub fn model(mut self, model: Model) -> JobBuilder {
        self.model = model;
        self
    }

    /// The lengths that a job needs: each slice may be longer, and none shorter.
    ///
    /// Refused by causes 1 to 5, as [`open`](JobBuilder::open).
    pub fn lengths(&self) -> Result<Lengths, Refusal> {
        let blocks = (self.inner, self.leaf);
        engine::lengths(&self.settings(), blocks, &self.model.laid_out())
    }

    /// Opens a job in lent memory, which is zeroed whole first. Refused by causes 1 to
    /// 6; then every element is as it was.
    ///
    /// ```
    /// # use jisampode::{Bounds, JobBuilder, Model, OwnedMemory};
    /// # fn main() -> Result<(), Box<dyn std::error::Error>> {
    /// # let mut model = Model::new();
    /// # model.plane([1.0, 0.0, 0.0], 0.0)?;
    /// # let builder = JobBuilder::new()
    /// #     .bounds(Bounds::new([0.0; 3], [2.0; 3]))
    /// #     .cell(1.0)
    /// #     .blocks(2, 2)
    /// #     .band(-0.25, 0.0)
    /// #     .model(model);
    /// let mut memory = OwnedMemory::for_job_within(&builder, 1 << 20)?;
    /// let job = builder.open(memory.lend())?;
    /// assert_eq!(job.counts().active, 8);
    /// # Ok(())
    /// # }
    /// ```
    pub fn open<'m>(&self, memory: Memory<'m>) -> Result<Job<Memory<'m>>, Refusal> {
        self.open_in(memory).map_err(|refused| refused.refusal)
    }

    /// As [`open`](JobBuilder::open), and a refusal hands the memory back.
    ///
    /// ```
    /// # use jisampode::{Bounds, JobBuilder, Memory, Model, OwnedMemory, Refusal};
    /// # let mut model = Model::new();
    /// # model.plane([1.0, 0.0, 0.0], 0.0).unwrap();
    /// # let builder = JobBuilder::new()
    /// #     .bounds(Bounds::new([0.0; 3], [2.0; 3]))
    /// #     .cell(1.0)
    /// #     .blocks(2, 2)
    /// #     .band(-0.25, 0.0)
    /// #     .model(model);
    /// let mut owned = OwnedMemory::for_job(&builder).unwrap();
    /// let finer = builder.clone().cell(0.5);
    /// let refused = finer.open_or_return(owned.lend()).unwrap_err();
    /// assert_eq!(refused.refusal, Refusal::Short);
    ///
    /// let job = builder.open(refused.memory).unwrap();
    /// assert_eq!(job.counts().active, 8);
    /// ```
    pub fn open_or_return<'m>(
        &self,
        memory: Memory<'m>,
    ) -> Result<Job<Memory<'m>>, Refused<Memory<'m>>> {
        self.open_in(memory)
    }

    /// Opens a job that owns its memory: record and memory are one value, which can
    /// be laid aside and taken up at any time. A refusal hands the memory back, with
    /// every element as it was.
    ///
    /// ```
    /// use jisampode::{JobBuilder, OwnedJob, OwnedMemory};
    ///
    /// /// The jobs that take turns at a station.
    /// struct Station {
    ///     jobs: Vec<OwnedJob>,
    /// }
    ///
    /// impl Station {
    ///     fn take(&mut self, builder: &JobBuilder) -> Result<(), Box<dyn std::error::Error>> {
    ///         let memory = OwnedMemory::for_job_within(builder, 64 << 20)?;
    ///         self.jobs.push(builder.open_owned(memory)?);
    ///         Ok(())
    ///     }
    ///
    ///     fn work(&mut self, budget: u64) -> Result<(), Box<dyn std::error::Error>> {
    ///         for job in &mut self.jobs {
    ///             job.step(budget)?;
    ///         }
    ///         Ok(())
    ///     }
    /// }
    /// # use jisampode::{Bounds, Model};
    /// # fn main() -> Result<(), Box<dyn std::error::Error>> {
    /// # let mut model = Model::new();
    /// # model.plane([1.0, 0.0, 0.0], 0.0)?;
    /// # let builder = JobBuilder::new()
    /// #     .bounds(Bounds::new([0.0; 3], [2.0; 3]))
    /// #     .cell(1.0)
    /// #     .blocks(2, 2)
    /// #     .band(-0.25, 0.0)
    /// #     .model(model);
    /// # let mut station = Station { jobs: Vec::new() };
    /// # station.take(&builder)?;
    /// # station.take(&builder)?;
    /// # station.work(58)?;
    /// # assert!(!station.jobs[1].is_finished());
    /// # station.work(58)?;
    /// # assert_eq!(station.jobs[1].counts().evaluations, 59);
    /// # Ok(())
    /// # }
    /// ```
    #[cfg(feature = "std")]
    #[allow(clippy::result_large_err)] // the job that it hands back is larger
    pub fn open_owned(
        &self,
        memory: OwnedMemory,
    ) -> Result<Job<OwnedMemory>, Refused<OwnedMemory>> {
        self.open_in(memory)
    }

    fn open_in<M: Slices>(&self, mut memory: M) -> Result<Job<M>, Refused<M>> {
        let mut record = Record::default();
        match self.call(&mut record, &mut memory.slices()) {
            Ok(()) => Ok(Job::opened(record, memory)),
            Err(refusal) => Err(Refused { refusal, memory }),
        }
    }

    /// Opens a job in place of the one that the record has.
    pub(crate) fn call(&self, record: &mut Record, memory: &mut Memory<'_>) -> Result<(), Refusal> {
        let blocks = (self.inner, self.leaf);
        engine::open(
            &self.settings(),
            blocks,
            &self.model.laid_out(),
            record,
            memory,
        )
    }

    /// Bounds, cell size and band, as the engine takes them.
    fn settings(&self) -> [f64; sys::SETTINGS] {
        let [x0, y0, z0, x1, y1, z1] = self.bounds.flat();
        let [lower, upper] = self.band;
        [x0, y0, z0, x1, y1, z1, self.cell, lower, upper]
    }
}

impl Default for JobBuilder {
    fn default() -> JobBuilder {
        JobBuilder::new()
    }
}

/// A refusal, with the memory that was lent or given. Every element of it is as it
/// was.
#[derive(Debug)]
pub struct Refused<M> {
    /// The cause.
    pub refusal: Refusal,
    /// The memory.
    pub memory: M,
}

impl<M> From<Refused<M>> for Refusal {
    fn from(refused: Refused<M>) -> Refusal {
        refused.refusal
    }
}

impl<M> fmt::Display for Refused<M> {
    fn fmt(&self, f: &mut fmt::Formatter<'_>) -> fmt::Result {
        self.refusal.fmt(f)
    }
}

#[cfg(feature = "std")]
impl<M: fmt::Debug> std::error::Error for Refused<M> {}
