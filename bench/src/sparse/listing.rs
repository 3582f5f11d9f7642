//! The rows about listings: a job's text in, its listing out, against the
//! original's job and a writer of the same bytes. The original has no text of its
//! own.

use super::{grid, EVERY};
use crate::host::sparse::{list_job, Grid};
use crate::measure::{jobs, Job};
use crate::models::{union, Part};
use crate::table::grouped;

/// Room for any listing.
const ROOM: usize = 88176;

/// Jobs that fill all 4,096 values of the listing's store.
pub fn rows() {
    full_job("one sphere", &union(1));
    full_job("8 spheres under 7 mins", &union(8));
    full_job("32 spheres under 31 mins", &union(32));
}

/// One node whose 64 children all become leaves of 64 values.
fn full_job(name: &str, parts: &[Part]) {
    let (grid, _) = grid([1; 3], 4, 4, EVERY);
    let mut ours = Ours {
        text: text(&grid, parts),
        out: vec![0; ROOM],
        end: 0,
    };
    ours.run();
    let bytes = grouped(ours.end as u64);
    let name = format!("listing of {name}, {bytes} bytes");
    compare(&name, &mut ours, &grid, parts);
}

struct Ours {
    text: String,
    out: Vec<u8>,
    end: usize,
}

impl Job for Ours {
    fn prepare(&mut self) {}
    fn run(&mut self) {
        self.end = list_job(self.text.as_bytes(), &mut self.out);
    }
    fn results(&self) -> Vec<f64> {
        numbers(&self.out[..self.end])
    }
}

/// Bytes as results.
fn numbers(bytes: &[u8]) -> Vec<f64> {
    bytes.iter().map(|byte| *byte as f64).collect()
}

/// Numbers by their bits, each after a space.
fn bits(numbers: &[f64]) -> String {
    let spelled = |number: &f64| format!(" {:016x}", number.to_bits());
    numbers.iter().map(spelled).collect()
}

/// The text of a job.
fn text(grid: &Grid, parts: &[Part]) -> String {
    let Grid { inner, leaf, .. } = grid;
    let (min, max) = (bits(&grid.min), bits(&grid.max));
    let (cell, band) = (bits(&[grid.cell]), bits(&grid.band));
    let mut text = format!("(bounds (min{min}) (max{max}))\n(cell{cell})\n");
    text += &format!("(blocks {inner} {leaf})\n(band{band})\n");
    text.extend(parts.iter().map(part_line));
    text
}

fn part_line(part: &Part) -> String {
    let shape = |kind: &str, [x, y, z]: [f64; 3], w| format!("({kind}{})\n", bits(&[x, y, z, w]));
    match *part {
        Part::Const(value) => format!("(const{})\n", bits(&[value])),
        Part::Sphere(centre, radius) => shape("sphere", centre, radius),
        Part::Plane(normal, offset) => shape("plane", normal, offset),
        Part::Min(a, b) => format!("(min {a} {b})\n"),
        Part::Max(a, b) => format!("(max {a} {b})\n"),
        Part::Add(a, b) => format!("(add {a} {b})\n"),
        Part::Sub(a, b) => format!("(sub {a} {b})\n"),
        Part::Neg(a) => format!("(neg {a})\n"),
    }
}

#[cfg(feature = "original")]
use original_side::compare;

#[cfg(feature = "original")]
mod original_side {
    use std::io::{Result, Write};

    use super::super::theirs::empty;
    use super::{jobs, numbers, Grid, Job, Ours, Part, ROOM};
    use crate::{measure, models};
    use original::benched::{bounds, children, sample_sparse, Child, SparseField};
    use original::parts::{Graph, Model};

    /// A job of one node, and the writer of its listing.
    struct Theirs<'a> {
        grid: Grid,
        graph: &'a Graph<'a>,
        field: SparseField<f64>,
        out: Vec<u8>,
    }

    impl Job for Theirs<'_> {
        fn prepare(&mut self) {
            self.field = empty(&self.grid);
            self.out.clear();
        }
        fn run(&mut self) {
            self.field
                .init_bounds(&bounds(self.grid.min, self.grid.max));
            sample_sparse(&mut self.field, self.graph, self.grid.band);
            write(&self.field, &self.grid, &mut self.out).expect("room in memory");
        }
        fn results(&self) -> Vec<f64> {
            numbers(&self.out)
        }
    }

    /// The listing of a job of one node whose children are all active. The
    /// original does not count its evaluations: they are those of all corners and
    /// of the leaves' points.
    fn write(field: &SparseField<f64>, grid: &Grid, out: &mut Vec<u8>) -> Result<()> {
        let all = children(field);
        let leaf = |child: &&Child| matches!(child, Child::Leaf(_));
        let leaves = all.iter().filter(leaf).count();
        let sampled = leaves * (grid.leaf as usize).pow(3);
        let evaluations = (grid.inner as usize + 1).pow(3) + sampled;
        let active = field.n_active_nodes();
        writeln!(out, "(done 1 {active} {leaves} {sampled} {evaluations})")?;
        for (place, child) in all.into_iter().enumerate() {
            match child {
                Child::Empty => (),
                Child::Constant(value) => {
                    writeln!(out, "(constant 0 {place} {:016x})", value.to_bits())?
                }
                Child::Leaf(values) => {
                    write!(out, "(leaf 0 {place}")?;
                    for value in values {
                        write!(out, " {:016x}", value.to_bits())?;
                    }
                    writeln!(out, ")")?;
                }
            }
        }
        Ok(())
    }

    pub fn compare(name: &str, ours: &mut Ours, grid: &Grid, parts: &[Part]) {
        let parts: Vec<_> = parts.iter().map(models::theirs).collect();
        let model = Model::new(&parts).expect("a model that is not refused");
        let graph = model.graph();
        let theirs = || Theirs {
            grid: *grid,
            graph: &graph,
            field: empty(grid),
            out: Vec::with_capacity(ROOM),
        };
        let (mut one, mut all) = (theirs(), theirs());
        let theirs = measure::Theirs {
            one: &mut one,
            all: Some(&mut all),
        };
        jobs(name, 1, ours, Some(theirs));
    }
}

#[cfg(not(feature = "original"))]
fn compare(name: &str, ours: &mut Ours, _: &Grid, _: &[Part]) {
    jobs(name, 1, ours, None);
}
