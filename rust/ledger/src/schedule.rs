//! The schedule of an input: every evaluation and all other work, in order.

use crate::grid::{Decision, Grid};
use crate::input::Input;
use crate::memory::{Counts, Lengths, Memory};

/// Where an evaluation is made.
#[derive(Debug, Clone, Copy, PartialEq, Eq)]
pub enum Site {
    /// A node and its corner.
    Corner(u64, u64),
    /// A node, its child and a point of it.
    Point(u64, u64, u64),
}

/// A child is named by its place among the children of all nodes.
#[derive(Debug, Clone, Copy)]
pub enum Event {
    Evaluate(Site, f64),
    Constant(u64, f64),
    Leaf(u64),
    ClearCorners,
}

/// The memory, and the leaves so far.
pub struct State {
    pub memory: Memory,
    pub leaves: u64,
}

impl State {
    /// What an accepted open leaves before the first event: zeros, and the
    /// kinds.
    pub fn opened(grid: &Grid, lengths: Lengths) -> State {
        let mut memory = Memory::zero(lengths);
        for v in 0..grid.nodes() {
            for c in (0..grid.children()).filter(|&c| grid.is_active(v, c)) {
                memory.kinds[(v * grid.children() + c) as usize] = 1;
            }
        }
        State { memory, leaves: 0 }
    }

    /// A point goes into the last leaf's stretch of the store.
    pub fn apply(&mut self, event: &Event, leaf_points: u64) {
        let memory = &mut self.memory;
        match *event {
            Event::Evaluate(Site::Corner(_, corner), value) => {
                memory.corners[corner as usize] = value;
            }
            Event::Evaluate(Site::Point(_, _, point), value) => {
                let from = (self.leaves - 1) * leaf_points;
                memory.store[(from + point) as usize] = value;
            }
            Event::Constant(child, value) => {
                memory.kinds[child as usize] = 1;
                memory.numbers[child as usize] = value;
            }
            Event::Leaf(child) => {
                memory.kinds[child as usize] = 2;
                memory.places[child as usize] = self.leaves as u32;
                self.leaves += 1;
            }
            Event::ClearCorners => memory.corners.fill(0.0),
        }
    }
}

/// How many events k evaluations make: those up to the next evaluation, or
/// all.
pub fn made_by(k: u64, events: &[Event]) -> usize {
    let mut left = k;
    for (made, event) in events.iter().enumerate() {
        if let Event::Evaluate(..) = event {
            if left == 0 {
                return made;
            }
            left -= 1;
        }
    }
    events.len()
}

/// How many evaluations are among events.
pub fn evaluations(events: &[Event]) -> u64 {
    let is = |event: &&Event| matches!(event, Event::Evaluate(..));
    events.iter().filter(is).count() as u64
}

/// A node's needed corners from one on.
pub fn corners_from(grid: &Grid, v: u64, first: u64, events: &mut Vec<Event>) {
    for (corner, needed) in (0..).zip(grid.needed(v)) {
        if needed && corner >= first {
            let value = grid.corner_value(v, corner);
            events.push(Event::Evaluate(Site::Corner(v, corner), value));
        }
    }
}

/// A leaf's points from one on.
pub fn points_from(grid: &Grid, v: u64, c: u64, first: u64, events: &mut Vec<Event>) {
    for p in first..grid.leaf_points() {
        let value = grid.point_value(v, c, p);
        events.push(Event::Evaluate(Site::Point(v, c, p), value));
    }
}

/// A node's active children from one on, each decided by what the corners
/// hold; then the corners are cleared.
pub fn children_from(grid: &Grid, v: u64, first: u64, corners: &[f64], events: &mut Vec<Event>) {
    for c in (first..grid.children()).filter(|&c| grid.is_active(v, c)) {
        let place = v * grid.children() + c;
        match grid.decide(v, c, corners) {
            Decision::Constant(value) => events.push(Event::Constant(place, value)),
            Decision::Leaf => {
                events.push(Event::Leaf(place));
                points_from(grid, v, c, 0, events);
            }
        }
    }
    events.push(Event::ClearCorners);
}

/// Sets the corners that events evaluate.
pub fn fill(corners: &mut [f64], events: &[Event]) {
    for event in events {
        if let Event::Evaluate(Site::Corner(_, corner), value) = *event {
            corners[corner as usize] = value;
        }
    }
}

/// All nodes from one on. An unneeded corner is 0.
pub fn nodes_from(grid: &Grid, first: u64, events: &mut Vec<Event>) {
    for v in first..grid.nodes() {
        let begin = events.len();
        corners_from(grid, v, 0, events);
        let mut corners = vec![0.0; grid.corners() as usize];
        fill(&mut corners, &events[begin..]);
        children_from(grid, v, 0, &corners, events);
    }
}

/// The schedule of an input that no cause refuses.
pub struct Schedule {
    input: Input,
    active: u64,
    total: u64,
    events: Vec<Event>,
}

impl Schedule {
    pub fn new(input: &Input) -> Schedule {
        let grid = Grid::new(input);
        let mut events = Vec::new();
        nodes_from(&grid, 0, &mut events);
        Schedule {
            input: input.clone(),
            active: grid.active_total(),
            total: evaluations(&events),
            events,
        }
    }

    /// All evaluations.
    pub fn total(&self) -> u64 {
        self.total
    }

    fn made(&self, k: u64) -> &[Event] {
        &self.events[..made_by(k, &self.events)]
    }

    /// The elements after k evaluations.
    pub fn memory(&self, lengths: Lengths, k: u64) -> Memory {
        let grid = Grid::new(&self.input);
        let mut state = State::opened(&grid, lengths);
        for event in self.made(k) {
            state.apply(event, grid.leaf_points());
        }
        state.memory
    }

    /// The counts after k evaluations.
    pub fn counts(&self, k: u64) -> Counts {
        let grid = Grid::new(&self.input);
        let is_leaf = |event: &&Event| matches!(event, Event::Leaf(_));
        let leaves = self.made(k).iter().filter(is_leaf).count() as u64;
        Counts {
            nodes: grid.nodes(),
            active: self.active,
            leaves,
            sampled: leaves * grid.leaf_points(),
            evaluations: k,
        }
    }
}
