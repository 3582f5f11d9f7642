//! The rows about sparse fields: ours against the original's `SparseField`, and
//! what a step costs beyond its evaluations.

pub mod listing;
#[cfg(feature = "original")]
mod theirs;

use std::hint::black_box;

use crate::host::sparse::{job, Grid, Lent, Record};
use crate::host::Layout;
use crate::measure::{alone, beyond, jobs, Job};
use crate::models::{self, Part};
use crate::table::grouped;

/// A power of two, so that the nodes of the grids below fill their bounds
/// exactly and every child is active.
const CELL: f64 = 0.0625;

/// A band that keeps the children near a shape's surface, one of which every
/// child overlaps, and one of which none does.
const NEAR: [f64; 2] = [-CELL, CELL];
const EVERY: [f64; 2] = [f64::NEG_INFINITY, f64::INFINITY];
const NONE: [f64; 2] = [1e6, 2e6];

/// All that a job has left.
const ALL: u64 = u64::MAX;

/// The corners of a node of 64×64×64, the most that a node has.
const CORNERS: usize = 65 * 65 * 65;

/// How many steps of budget 1 are measured together.
const STEPS: usize = 100;

/// How many runs of a job of few evaluations are timed together.
const TOGETHER: usize = 32;

/// A grid of so many nodes, and its children.
fn grid(nodes: [usize; 3], inner: u32, leaf: u32, band: [f64; 2]) -> (Grid, usize) {
    let size = CELL * (inner * (leaf - 1)) as f64;
    let grid = Grid {
        min: [-2.0; 3],
        max: nodes.map(|count| count as f64 * size - 2.0),
        cell: CELL,
        inner,
        leaf,
        band,
    };
    let children = nodes.iter().product::<usize>() * (inner as usize).pow(3);
    (grid, children)
}

/// Our side: an open, and a step for each budget.
struct Ours {
    grid: Grid,
    model: Layout,
    budgets: Vec<u64>,
    /// How often that is done in a run.
    times: usize,
    record: Record,
    lent: Lent,
}

impl Ours {
    fn new((grid, children): (Grid, usize), parts: &[Part], budgets: Vec<u64>) -> Ours {
        let mut ours = Ours {
            grid,
            model: Layout::new(parts),
            budgets,
            times: 1,
            record: Record::new(),
            lent: Lent::new(&grid, children),
        };
        ours.run();
        let active = ours.record.counts().active;
        assert_eq!(active, children as u64, "the active children");
        ours
    }

    /// What a run's time is divided by: its evaluations, or its children where it
    /// makes none.
    fn results_of_a_run(&self) -> usize {
        let counts = self.record.counts();
        let once = match counts.evaluations {
            0 => counts.active,
            made => made,
        };
        once as usize * self.times
    }
}

impl Job for Ours {
    fn prepare(&mut self) {}
    fn run(&mut self) {
        for _ in 0..self.times {
            job(
                &self.grid,
                &self.model,
                &self.budgets,
                &mut self.record,
                &mut self.lent,
            );
        }
    }
    /// The counts of active children and of leaves, and the children in order: 0; 1
    /// and a constant; or 2 and a leaf's values.
    fn results(&self) -> Vec<f64> {
        let counts = self.record.counts();
        let mut list = vec![counts.active as f64, counts.leaves as f64];
        let points = (self.grid.leaf as usize).pow(3);
        for (child, kind) in self.lent.kinds.iter().enumerate() {
            list.push(*kind as f64);
            match kind {
                0 => (),
                1 => list.push(self.lent.numbers[child]),
                _ => {
                    let first = self.lent.places[child] as usize * points;
                    list.extend_from_slice(&self.lent.store[first..first + points]);
                }
            }
        }
        list
    }
}

/// The models of whole jobs.
fn sampled() -> [(&'static str, Vec<Part>); 3] {
    let [plane, sphere, union, _] = models::measured();
    [plane, sphere, union]
}

fn cube(n: u32) -> String {
    format!("{n}×{n}×{n}")
}

/// Opens and whole jobs, against the original.
pub fn rows() {
    opens();
    small_jobs();
    much_lent();
    large_jobs();
}

fn opens() {
    for (nodes, inner, leaf) in [([25; 3], 4, 2), ([4; 3], 8, 4), ([2; 3], 8, 8)] {
        let (grid, children) = grid(nodes, inner, leaf, NEAR);
        let parts = &sampled()[0].1;
        let name = format!(
            "open, per child of {}, leaves of {}",
            grouped(children as u64),
            cube(leaf)
        );
        let mut ours = Ours::new((grid, children), parts, vec![]);
        compare(&name, &mut ours, parts);
    }
}

/// Jobs of one node.
fn small_jobs() {
    for (inner, leaf) in [(2, 2), (2, 8), (4, 4)] {
        for (name, parts) in sampled() {
            let name = format!(
                "job of {name}, one node of {}, leaves of {}",
                cube(inner),
                cube(leaf)
            );
            let mut ours = Ours::new(grid([1; 3], inner, leaf, EVERY), &parts, vec![ALL]);
            ours.times = TOGETHER;
            compare(&name, &mut ours, &parts);
        }
    }
}

/// A job of 1,000 small nodes that is lent as many corners as the largest nodes
/// have.
fn much_lent() {
    let [(model, parts), ..] = sampled();
    let name = format!(
        "job of {model}, leaves of {}, in memory for the largest job",
        cube(2)
    );
    let mut ours = Ours::new(grid([10; 3], 2, 2, EVERY), &parts, vec![ALL]);
    ours.lent.corners = vec![0.0; CORNERS];
    compare(&name, &mut ours, &parts);
}

fn large_jobs() {
    for (nodes, leaf) in [([4; 3], 4), ([2; 3], 8)] {
        for (band, kept) in [(NEAR, "the surface's leaves"), (EVERY, "all leaves")] {
            for (name, parts) in sampled() {
                let name = format!("job of {name}, leaves of {}, {kept}", cube(leaf));
                let mut ours = Ours::new(grid(nodes, 8, leaf, band), &parts, vec![ALL]);
                compare(&name, &mut ours, &parts);
            }
        }
    }
}

/// What steps cost beyond their evaluations.
pub fn steps() {
    let model = Layout::new(&sampled()[0].1);
    for (nodes, inner) in [([50; 3], 2), ([25; 3], 4), ([16, 16, 8], 8)] {
        single_steps(nodes, inner, &model);
    }
    passes();
    let sphere = Layout::new(&sampled()[1].1);
    small_budgets([1; 3], 2, 2, &[1, 8], &sphere);
    small_budgets([2; 3], 8, 8, &[64, 1024, 16384], &sphere);
}

/// Passes over as many bytes as those grids have children: one that stops at a
/// byte that is off, one that counts, and one that reads all bytes alike, which
/// the compiler makes vector code of.
fn passes() {
    let bytes = vec![1u8; 1_000_000];
    let read = || black_box(&bytes).iter();
    let name = |what: &str| format!("one pass over 1,000,000 bytes, {what}");
    alone(&name("stopping at a 0"), &mut || {
        black_box(read().all(|byte| *byte != 0));
    });
    alone(&name("counting"), &mut || {
        black_box(read().filter(|byte| **byte != 0).count());
    });
    alone(&name("all alike"), &mut || {
        black_box(read().fold(0, |seen, byte| seen | (byte ^ 1)));
    });
}

/// Steps of budget 1, at a job's first evaluations and at its last.
fn single_steps(nodes: [usize; 3], inner: u32, model: &Layout) {
    let (grid, children) = grid(nodes, inner, 2, NONE);
    let (mut record, mut lent) = (Record::new(), Lent::new(&grid, children));
    job(&grid, model, &[ALL], &mut record, &mut lent);
    let total = record.counts().evaluations;
    for (place, before) in [("first", 0), ("last", total - STEPS as u64)] {
        let mut many = vec![1; STEPS + 1];
        many[0] = before;
        let name = format!(
            "a step of budget 1, {} children in nodes of {}, at the {place} evaluations",
            grouped(children as u64),
            cube(inner)
        );
        beyond(&name, STEPS, &mut |more| {
            let budgets = if more { &many } else { &many[..1] };
            job(&grid, model, budgets, &mut record, &mut lent);
        });
    }
}

/// Steps of small budgets through a whole job, against one large.
fn small_budgets(nodes: [usize; 3], inner: u32, leaf: u32, budgets: &[u64], model: &Layout) {
    let (grid, children) = grid(nodes, inner, leaf, NEAR);
    let (mut record, mut lent) = (Record::new(), Lent::new(&grid, children));
    job(&grid, model, &[ALL], &mut record, &mut lent);
    let total = record.counts().evaluations;
    for &budget in budgets {
        let many = vec![budget; ((total + budget - 1) / budget) as usize];
        let name = format!(
            "a step of budget {}, {} children, beyond its evaluations",
            grouped(budget),
            grouped(children as u64)
        );
        beyond(&name, many.len() - 1, &mut |more| {
            let budgets = if more { &many[..] } else { &[ALL] };
            job(&grid, model, budgets, &mut record, &mut lent);
        });
    }
}

#[cfg(feature = "original")]
use theirs::compare;

#[cfg(not(feature = "original"))]
fn compare(name: &str, ours: &mut Ours, _: &[Part]) {
    jobs(name, ours.results_of_a_run(), ours, None);
}
