//! The five slices that a station lends to a job.

use core::fmt;
use core::mem::size_of;

#[cfg(feature = "std")]
use crate::builder::JobBuilder;
#[cfg(feature = "std")]
use crate::engine;
#[cfg(feature = "std")]
use crate::record::Record;
#[cfg(feature = "std")]
use crate::refusal::Refusal;

/// How many elements each of the five slices has.
#[derive(Debug, Clone, Copy, PartialEq, Eq)]
pub struct Lengths {
    /// Kinds of children.
    pub kinds: usize,
    /// Numbers of constant children.
    pub numbers: usize,
    /// Ordinals of leaves.
    pub places: usize,
    /// Values of leaves.
    pub store: usize,
    /// Values at a node's corners.
    pub corners: usize,
}

impl Lengths {
    /// The greater of both for each slice: memory of these lengths has room for
    /// either job.
    ///
    /// ```
    /// # use jisampode::Lengths;
    /// let one = Lengths { kinds: 8, numbers: 8, places: 8, store: 64, corners: 27 };
    /// let other = Lengths { store: 512, ..one };
    /// assert_eq!(one.greater(other).store, 512);
    /// ```
    #[must_use]
    pub fn greater(self, other: Lengths) -> Lengths {
        Lengths {
            kinds: self.kinds.max(other.kinds),
            numbers: self.numbers.max(other.numbers),
            places: self.places.max(other.places),
            store: self.store.max(other.store),
            corners: self.corners.max(other.corners),
        }
    }

    /// The bytes of five slices of these lengths; the greatest `usize` where there
    /// are more.
    ///
    /// ```
    /// # use jisampode::Lengths;
    /// let one = Lengths { kinds: 8, numbers: 8, places: 8, store: 64, corners: 27 };
    /// assert_eq!(one.bytes(), 8 + 8 * 8 + 8 * 4 + 64 * 8 + 27 * 8);
    /// ```
    #[must_use]
    pub fn bytes(self) -> usize {
        [
            (self.kinds, size_of::<u8>()),
            (self.numbers, size_of::<f64>()),
            (self.places, size_of::<u32>()),
            (self.store, size_of::<f64>()),
            (self.corners, size_of::<f64>()),
        ]
        .into_iter()
        .fold(0, |sum: usize, (length, size)| {
            sum.saturating_add(length.saturating_mul(size))
        })
    }
}

/// Memory that a job works in: five lent slices, or memory that the job owns.
pub trait Slices: Default + sealed::Slices {}

impl Slices for Memory<'_> {}

#[cfg(feature = "std")]
impl Slices for OwnedMemory {}

/// What a job asks of its memory. Nothing outside this crate can be one.
pub(crate) mod sealed {
    use super::{Memory, View};

    pub trait Slices {
        /// The five slices, to be written.
        fn slices(&mut self) -> Memory<'_>;
        /// The five slices, to be read.
        fn shown(&self) -> View<'_>;
    }
}

/// Five lent slices. They may hold anything, and may be longer than a job needs.
///
/// Whoever lends them cannot use them until the job is over. A job hands them back
/// by [`Job::into_memory`](crate::Job::into_memory).
///
/// ```
/// use jisampode::{Bounds, JobBuilder, Memory, Model, Refusal};
///
/// # fn main() -> Result<(), Refusal> {
/// # let mut model = Model::new();
/// # model.plane([1.0, 0.0, 0.0], 0.0)?;
/// # let builder = JobBuilder::new()
/// #     .bounds(Bounds::new([0.0; 3], [2.0; 3]))
/// #     .cell(1.0)
/// #     .blocks(2, 2)
/// #     .band(-0.25, 0.0)
/// #     .model(model);
/// let (mut kinds, mut places) = ([0; 8], [0; 8]);
/// let (mut numbers, mut store, mut corners) = ([0.0; 8], [0.0; 64], [0.0; 27]);
/// let mut job = builder.open(Memory {
///     kinds: &mut kinds,
///     numbers: &mut numbers,
///     places: &mut places,
///     store: &mut store,
///     corners: &mut corners,
/// })?;
/// job.finish()?;
/// # Ok(())
/// # }
/// ```
#[derive(Default)]
pub struct Memory<'a> {
    /// A child's kind: 0 empty, 1 active (not decided, or a constant), 2 a leaf.
    pub kinds: &'a mut [u8],
    /// A constant child's number.
    pub numbers: &'a mut [f64],
    /// A leaf's ordinal.
    pub places: &'a mut [u32],
    /// The leaves' values, in the order of the ordinals.
    pub store: &'a mut [f64],
    /// The values at the corners of the node that a job is at.
    pub corners: &'a mut [f64],
}

impl Memory<'_> {
    /// The five slices, to be read.
    #[must_use]
    pub fn view(&self) -> View<'_> {
        View {
            kinds: self.kinds,
            numbers: self.numbers,
            places: self.places,
            store: self.store,
            corners: self.corners,
        }
    }
}

impl sealed::Slices for Memory<'_> {
    fn slices(&mut self) -> Memory<'_> {
        Memory {
            kinds: self.kinds,
            numbers: self.numbers,
            places: self.places,
            store: self.store,
            corners: self.corners,
        }
    }

    fn shown(&self) -> View<'_> {
        self.view()
    }
}

/// Shows the lengths alone, so that no value of a client comes into a log.
impl fmt::Debug for Memory<'_> {
    fn fmt(&self, f: &mut fmt::Formatter<'_>) -> fmt::Result {
        self.view().fmt(f)
    }
}

/// The five slices of a job's memory, to be read. Their elements are those of
/// [`Memory`].
#[derive(Clone, Copy)]
#[allow(missing_docs)]
pub struct View<'a> {
    pub kinds: &'a [u8],
    pub numbers: &'a [f64],
    pub places: &'a [u32],
    pub store: &'a [f64],
    pub corners: &'a [f64],
}

impl View<'_> {
    /// How many elements each slice has.
    #[must_use]
    pub fn lengths(&self) -> Lengths {
        Lengths {
            kinds: self.kinds.len(),
            numbers: self.numbers.len(),
            places: self.places.len(),
            store: self.store.len(),
            corners: self.corners.len(),
        }
    }
}

/// Shows the lengths alone, so that no value of a client comes into a log.
impl fmt::Debug for View<'_> {
    fn fmt(&self, f: &mut fmt::Formatter<'_>) -> fmt::Result {
        self.lengths().fmt(f)
    }
}

/// Memory that a station owns, to lend to one job after another, or to give to one.
/// It is zeroed when it is dropped.
///
/// ```
/// use jisampode::{Lengths, OwnedMemory};
///
/// let mut memory = OwnedMemory::new(Lengths {
///     kinds: 512,
///     numbers: 512,
///     places: 512,
///     store: 4096,
///     corners: 125,
/// });
/// assert_eq!(memory.lend().store.len(), 4096);
/// ```
#[cfg(feature = "std")]
#[derive(Default)]
pub struct OwnedMemory {
    /// As [`Memory::kinds`].
    pub kinds: Vec<u8>,
    /// As [`Memory::numbers`].
    pub numbers: Vec<f64>,
    /// As [`Memory::places`].
    pub places: Vec<u32>,
    /// As [`Memory::store`].
    pub store: Vec<f64>,
    /// As [`Memory::corners`].
    pub corners: Vec<f64>,
}

#[cfg(feature = "std")]
impl OwnedMemory {
    /// Memory of these lengths, every element 0. Where the machine has not as much,
    /// the process ends, as with a vector; [`OwnedMemory::try_new`] refuses.
    #[must_use]
    pub fn new(lengths: Lengths) -> OwnedMemory {
        OwnedMemory {
            kinds: vec![0; lengths.kinds],
            numbers: vec![0.0; lengths.numbers],
            places: vec![0; lengths.places],
            store: vec![0.0; lengths.store],
            corners: vec![0.0; lengths.corners],
        }
    }

    /// Memory of these lengths, every element 0. Refused by [`Refusal::Short`] where
    /// the machine does not give as much.
    pub fn try_new(lengths: Lengths) -> Result<OwnedMemory, Refusal> {
        Ok(OwnedMemory {
            kinds: zeros(lengths.kinds)?,
            numbers: zeros(lengths.numbers)?,
            places: zeros(lengths.places)?,
            store: zeros(lengths.store)?,
            corners: zeros(lengths.corners)?,
        })
    }

    /// Memory of just the lengths that a job needs. Refused as
    /// [`JobBuilder::lengths`] and [`OwnedMemory::try_new`].
    ///
    /// A stranger's job may need terabytes. A machine that promises more than it has
    /// does not refuse that here: [`OwnedMemory::for_job_within`] does.
    pub fn for_job(builder: &JobBuilder) -> Result<OwnedMemory, Refusal> {
        OwnedMemory::for_job_within(builder, usize::MAX)
    }

    /// Memory of just the lengths that a job needs, if these are not more than so
    /// many bytes. Refused by [`Refusal::Short`] where they are, and as
    /// [`OwnedMemory::for_job`].
    ///
    /// ```
    /// use jisampode::{Bounds, JobBuilder, Model, OwnedMemory, Refusal};
    ///
    /// # fn main() -> Result<(), Refusal> {
    /// let mut model = Model::new();
    /// model.constant(0.0)?;
    /// let greedy = JobBuilder::new()
    ///     .bounds(Bounds::new([0.0; 3], [1e4; 3]))
    ///     .cell(1.0)
    ///     .blocks(2, 64)
    ///     .band(0.0, 0.0)
    ///     .model(model);
    /// assert!(greedy.lengths()?.bytes() > 1 << 42);
    /// let most = 64 << 20;
    /// assert_eq!(OwnedMemory::for_job_within(&greedy, most).err(), Some(Refusal::Short));
    /// # Ok(())
    /// # }
    /// ```
    pub fn for_job_within(builder: &JobBuilder, most: usize) -> Result<OwnedMemory, Refusal> {
        let lengths = builder.lengths()?;
        if lengths.bytes() > most {
            return Err(Refusal::Short);
        }
        OwnedMemory::try_new(lengths)
    }

    /// Lends the five slices.
    #[must_use]
    pub fn lend(&mut self) -> Memory<'_> {
        Memory {
            kinds: &mut self.kinds,
            numbers: &mut self.numbers,
            places: &mut self.places,
            store: &mut self.store,
            corners: &mut self.corners,
        }
    }

    /// The five slices, to be read.
    #[must_use]
    pub fn view(&self) -> View<'_> {
        View {
            kinds: &self.kinds,
            numbers: &self.numbers,
            places: &self.places,
            store: &self.store,
            corners: &self.corners,
        }
    }
}

#[cfg(feature = "std")]
impl sealed::Slices for OwnedMemory {
    fn slices(&mut self) -> Memory<'_> {
        self.lend()
    }

    fn shown(&self) -> View<'_> {
        self.view()
    }
}

/// So many zeros, if the machine gives memory for them.
#[cfg(feature = "std")]
fn zeros<T: Clone + Default>(length: usize) -> Result<Vec<T>, Refusal> {
    let mut elements = Vec::new();
    elements
        .try_reserve_exact(length)
        .map_err(|_| Refusal::Short)?;
    elements.resize(length, T::default());
    Ok(elements)
}

/// Zeroes the memory. The engine does it, so that no compiler leaves it out.
#[cfg(feature = "std")]
impl Drop for OwnedMemory {
    fn drop(&mut self) {
        engine::drop(&mut Record::default(), &mut self.lend());
    }
}

/// Shows the lengths alone, so that no value of a client comes into a log.
#[cfg(feature = "std")]
impl fmt::Debug for OwnedMemory {
    fn fmt(&self, f: &mut fmt::Formatter<'_>) -> fmt::Result {
        self.view().fmt(f)
    }
}
