//! The original's side of jobs.

use super::{jobs, models, Grid, Job, Ours, Part};
use crate::measure;
use original::benched::{block, bounds, children, sample_sparse};
use original::benched::{Child, SparseField, SparseFieldConfig};
use original::parts::{Graph, Model};

/// A field without bounds.
pub fn empty(grid: &Grid) -> SparseField<f64> {
    let block = |n: u32| block(n as u64).expect("a block's size");
    SparseField::new(SparseFieldConfig {
        internal_size: block(grid.inner),
        leaf_size: block(grid.leaf),
        cell_size: grid.cell,
    })
}

/// Fields made anew, their bounds set, and sampled where ours is.
struct Theirs<'a> {
    grid: Grid,
    graph: &'a Graph<'a>,
    sampled: bool,
    fields: Vec<SparseField<f64>>,
}

impl Job for Theirs<'_> {
    /// The fields of the run before are dropped here.
    fn prepare(&mut self) {
        for field in &mut self.fields {
            *field = empty(&self.grid);
        }
    }
    fn run(&mut self) {
        for field in &mut self.fields {
            field.init_bounds(&bounds(self.grid.min, self.grid.max));
            if self.sampled {
                sample_sparse(field, self.graph, self.grid.band);
            }
        }
    }
    /// As ours are listed.
    fn results(&self) -> Vec<f64> {
        let field = &self.fields[0];
        let all = children(field);
        let leaf = |child: &&Child| matches!(child, Child::Leaf(_));
        let leaves = all.iter().filter(leaf).count();
        let mut list = vec![field.n_active_nodes() as f64, leaves as f64];
        for child in all {
            match child {
                Child::Empty => list.push(0.0),
                Child::Constant(value) => list.extend([1.0, value]),
                Child::Leaf(values) => {
                    list.push(2.0);
                    list.extend_from_slice(values);
                }
            }
        }
        list
    }
}

/// The table's row for one job. Setting bounds has no parallel part.
pub fn compare(name: &str, ours: &mut Ours, parts: &[Part]) {
    let parts: Vec<_> = parts.iter().map(models::theirs).collect();
    let model = Model::new(&parts).expect("a model that is not refused");
    let graph = model.graph();
    let sampled = !ours.budgets.is_empty();
    let theirs = || Theirs {
        grid: ours.grid,
        graph: &graph,
        sampled,
        fields: (0..ours.times).map(|_| empty(&ours.grid)).collect(),
    };
    let (mut one, mut all) = (theirs(), theirs());
    let theirs = measure::Theirs {
        one: &mut one,
        all: if sampled { Some(&mut all) } else { None },
    };
    jobs(name, ours.results_of_a_run(), ours, Some(theirs));
}
