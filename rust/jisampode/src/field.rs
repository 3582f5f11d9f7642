//! The sparse field of a job, to be read.

use core::fmt;
use core::iter::FusedIterator;
use core::ops::Range;

use crate::memory::View;
use crate::record::{Counts, Cursor, Record};
use crate::sys;

/// A child of a node.
#[derive(Debug, Clone, Copy, PartialEq)]
#[non_exhaustive]
pub enum Child<'a> {
    /// Outside the bounds.
    Empty,
    /// Inside, and the job has not come to it.
    Undecided,
    /// Far from the surface: one number for all its points.
    Constant(f64),
    /// Near the surface: the values at its L³ points, x fastest. Those that the job
    /// has not come to are 0.
    Leaf(&'a [f64]),
}

/// The field of a job, as far as the job has come.
///
/// Nodes are numbered x fastest, then y, z, and so are a node's n³ children.
#[derive(Clone, Copy)]
pub struct Field<'a> {
    kinds: &'a [u8],
    numbers: &'a [f64],
    places: &'a [u32],
    store: &'a [f64],
    /// Children of a node.
    children: usize,
    /// Points of a leaf.
    points: usize,
    /// The children up to here are decided.
    decided: usize,
}

impl<'a> Field<'a> {
    pub(crate) fn new(
        record: &Record,
        counts: Counts,
        cursor: Cursor,
        memory: View<'a>,
    ) -> Field<'a> {
        let children = (record.inner() as usize).pow(3);
        let all = counts.nodes as usize * children;
        let decided = match cursor {
            Cursor::End => all,
            Cursor::Corner { node, .. } => node as usize * children,
            Cursor::Point { node, child, .. } => node as usize * children + child as usize + 1,
        };
        Field {
            // An accepted open has seen to it that there are as many.
            kinds: memory.kinds.get(..all).unwrap_or_default(),
            numbers: memory.numbers,
            places: memory.places,
            store: memory.store,
            children,
            points: (record.leaf() as usize).pow(3),
            decided,
        }
    }

    /// How many nodes the field has.
    #[must_use]
    pub fn nodes(&self) -> usize {
        self.kinds.len() / self.children
    }

    /// How many children a node has: n³.
    #[must_use]
    pub fn children_of_node(&self) -> usize {
        self.children
    }

    /// How many points a leaf has: L³.
    #[must_use]
    pub fn points_of_leaf(&self) -> usize {
        self.points
    }

    /// The kinds of all children, node after node: 0 empty, 1 active (not decided,
    /// or a constant), 2 a leaf.
    #[must_use]
    pub fn kinds(&self) -> &'a [u8] {
        self.kinds
    }

    /// A child of a node; none where the field has no such node or child.
    #[must_use]
    pub fn child(&self, node: usize, child: usize) -> Option<Child<'a>> {
        if node < self.nodes() && child < self.children {
            Some(self.child_at(node * self.children + child))
        } else {
            None
        }
    }

    /// Each active child with its node and its number in it, in order.
    ///
    /// ```
    /// # use jisampode::{Bounds, Child, JobBuilder, Model, OwnedMemory, Refusal};
    /// # fn main() -> Result<(), Refusal> {
    /// # let mut model = Model::new();
    /// # model.plane([1.0, 0.0, 0.0], 0.0)?;
    /// # let builder = JobBuilder::new()
    /// #     .bounds(Bounds::new([0.0; 3], [2.0; 3]))
    /// #     .cell(1.0)
    /// #     .blocks(2, 2)
    /// #     .band(-0.25, 0.0)
    /// #     .model(model);
    /// # let mut memory = OwnedMemory::for_job(&builder)?;
    /// # let mut job = builder.open(memory.lend())?;
    /// # job.finish()?;
    /// for (node, child, found) in job.field().active() {
    ///     match found {
    ///         Child::Leaf(values) => println!("{node} {child}: {values:?}"),
    ///         Child::Constant(number) => println!("{node} {child}: {number}"),
    ///         _ => {}
    ///     }
    /// }
    /// # assert_eq!(job.field().active().count(), 8);
    /// # Ok(())
    /// # }
    /// ```
    #[must_use]
    pub fn active(self) -> Active<'a> {
        Active {
            rest: 0..self.kinds.len(),
            field: self,
        }
    }

    /// Each leaf so far: its node, its number in it, and its values.
    #[must_use]
    pub fn leaves(self) -> Leaves<'a> {
        Leaves {
            active: self.active(),
        }
    }

    /// What stands at a place among all children. Where the slices do not hold what
    /// the kind asks for, a leaf has no values and a constant is NaN; a job's own
    /// memory always does.
    fn child_at(&self, place: usize) -> Child<'a> {
        match self.kinds.get(place) {
            None | Some(&sys::EMPTY) => Child::Empty,
            Some(&sys::LEAF) => Child::Leaf(self.stretch(place).unwrap_or_default()),
            Some(_) if place < self.decided => {
                Child::Constant(self.numbers.get(place).copied().unwrap_or(f64::NAN))
            }
            Some(_) => Child::Undecided,
        }
    }

    /// The values of the leaf at a place.
    fn stretch(&self, place: usize) -> Option<&'a [f64]> {
        let ordinal = *self.places.get(place)? as usize;
        let start = ordinal.checked_mul(self.points)?;
        self.store.get(start..start.checked_add(self.points)?)
    }
}

/// The active children of a field: [`Field::active`] makes it.
#[derive(Clone)]
pub struct Active<'a> {
    field: Field<'a>,
    rest: Range<usize>,
}

impl<'a> Iterator for Active<'a> {
    type Item = (usize, usize, Child<'a>);

    fn next(&mut self) -> Option<Self::Item> {
        let kinds = self.field.kinds;
        let place = self.rest.find(|&place| kinds[place] != sys::EMPTY)?;
        let children = self.field.children;
        let found = self.field.child_at(place);
        Some((place / children, place % children, found))
    }

    fn size_hint(&self) -> (usize, Option<usize>) {
        (0, self.rest.size_hint().1)
    }
}

impl FusedIterator for Active<'_> {}

/// The leaves of a field: [`Field::leaves`] makes it.
#[derive(Clone)]
pub struct Leaves<'a> {
    active: Active<'a>,
}

impl<'a> Iterator for Leaves<'a> {
    type Item = (usize, usize, &'a [f64]);

    fn next(&mut self) -> Option<Self::Item> {
        self.active.find_map(|(node, child, found)| match found {
            Child::Leaf(values) => Some((node, child, values)),
            _ => None,
        })
    }

    fn size_hint(&self) -> (usize, Option<usize>) {
        self.active.size_hint()
    }
}

impl FusedIterator for Leaves<'_> {}

/// Shows the places to come alone, so that no value of a client comes into a log.
impl fmt::Debug for Active<'_> {
    fn fmt(&self, f: &mut fmt::Formatter<'_>) -> fmt::Result {
        f.debug_struct("Active")
            .field("rest", &self.rest)
            .finish_non_exhaustive()
    }
}

/// Shows the places to come alone, so that no value of a client comes into a log.
impl fmt::Debug for Leaves<'_> {
    fn fmt(&self, f: &mut fmt::Formatter<'_>) -> fmt::Result {
        f.debug_struct("Leaves")
            .field("active", &self.active)
            .finish()
    }
}

/// Shows sizes alone, so that no value of a client comes into a log.
impl fmt::Debug for Field<'_> {
    fn fmt(&self, f: &mut fmt::Formatter<'_>) -> fmt::Result {
        f.debug_struct("Field")
            .field("nodes", &self.nodes())
            .field("children_of_node", &self.children)
            .field("points_of_leaf", &self.points)
            .finish_non_exhaustive()
    }
}
