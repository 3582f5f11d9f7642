//! A model of the record that calls hand on, for records that nobody opened
//! too.

use crate::grid::{self, Grid};
use crate::input::Input;
use crate::memory::{Answer, Call, Counts, Lengths, Memory};
use crate::schedule::{self, Event, Site, State};

/// Where a job stands (rule S12).
#[derive(Debug, Clone, Copy, PartialEq, Eq)]
pub enum Cursor {
    End,
    At(Site),
}

#[derive(Debug, Clone)]
pub struct Record {
    pub job: bool,
    pub input: Input,
    pub lengths: Lengths,
    pub counts: Counts,
    pub cursor: Cursor,
}

impl Record {
    /// The record without a job that a drop hands back: all else is 0.
    pub fn none() -> Record {
        Record {
            job: false,
            input: Input {
                min: [0.0; 3],
                max: [0.0; 3],
                cell: 0.0,
                inner: 0,
                leaf: 0,
                band_min: 0.0,
                band_max: 0.0,
                count: 0,
                parts: Vec::new(),
            },
            lengths: Lengths {
                kinds: 0,
                numbers: 0,
                places: 0,
                store: 0,
                corners: 0,
            },
            counts: Counts {
                nodes: 0,
                active: 0,
                leaves: 0,
                sampled: 0,
                evaluations: 0,
            },
            cursor: Cursor::End,
        }
    }

    pub fn finished(&self) -> bool {
        self.cursor == Cursor::End
    }

    /// A call on this record and these slices: its answer, and the next
    /// record. A refusal changes neither.
    pub fn call(&mut self, call: &Call, memory: &mut Memory) -> Answer {
        let lengths = memory.lengths();
        match call {
            Call::Open(input) => {
                if let Some(cause) = grid::cause(input, lengths) {
                    return Answer::Refused(cause);
                }
                self.open(input, memory);
            }
            Call::Step(_) if !self.job => return Answer::Refused(7),
            Call::Step(_) if self.impossible(memory) => return Answer::Refused(8),
            Call::Step(budget) => self.step(*budget, memory),
            Call::Drop => {
                *memory = Memory::zero(lengths);
                *self = Record::none();
            }
        }
        Answer::Accepted
    }

    fn open(&mut self, input: &Input, memory: &mut Memory) {
        let grid = Grid::new(input);
        let lengths = memory.lengths();
        *self = Record {
            job: true,
            input: input.clone(),
            lengths,
            ..Record::none()
        };
        *memory = State::opened(&grid, lengths).memory;
        let mut events = Vec::new();
        schedule::nodes_from(&grid, 0, &mut events);
        self.advance(&grid, &events, 0, memory);
    }

    fn step(&mut self, budget: u64, memory: &mut Memory) {
        let input = self.input.clone();
        let grid = Grid::new(&input);
        let events = events_at(&grid, self.cursor, &memory.corners);
        self.advance(&grid, &events, budget, memory);
    }

    /// Makes as many of the events as the budget allows.
    fn advance(&mut self, grid: &Grid, events: &[Event], budget: u64, memory: &mut Memory) {
        let made = schedule::made_by(budget, events);
        let mut state = State {
            memory: memory.clone(),
            leaves: self.counts.leaves,
        };
        for event in &events[..made] {
            state.apply(event, grid.leaf_points());
        }
        self.counts = Counts {
            nodes: grid.nodes(),
            active: grid.active_total(),
            leaves: state.leaves,
            sampled: state.leaves * grid.leaf_points(),
            evaluations: self.counts.evaluations + schedule::evaluations(&events[..made]),
        };
        self.cursor = match events.get(made) {
            Some(Event::Evaluate(site, _)) => Cursor::At(*site),
            _ => Cursor::End,
        };
        *memory = state.memory;
    }

    /// Whether rules R6 to R13 call the record's job impossible with these slices.
    pub fn impossible(&self, memory: &Memory) -> bool {
        // An open of its input would be refused (rule R6).
        if grid::cause(&self.input, memory.lengths()).is_some() {
            return true;
        }
        // It was opened on slices of other lengths (rule R7).
        if self.lengths != memory.lengths() {
            return true;
        }
        let grid = Grid::new(&self.input);
        kinds_wrong(&grid, &memory.kinds)
            || counts_wrong(&grid, &self.counts)
            || cursor_wrong(&grid, self.cursor)
            || leaves_wrong(&grid, self.cursor, self.counts.leaves)
    }
}

/// The events left at a cursor, where the corners hold what the slice now
/// holds.
fn events_at(grid: &Grid, cursor: Cursor, corners: &[f64]) -> Vec<Event> {
    let mut events = Vec::new();
    let mut corners = corners.to_vec();
    let v = match cursor {
        Cursor::End => return events,
        Cursor::At(Site::Corner(v, corner)) => {
            schedule::corners_from(grid, v, corner, &mut events);
            schedule::fill(&mut corners, &events);
            schedule::children_from(grid, v, 0, &corners, &mut events);
            v
        }
        Cursor::At(Site::Point(v, c, p)) => {
            schedule::points_from(grid, v, c, p, &mut events);
            schedule::children_from(grid, v, c + 1, &corners, &mut events);
            v
        }
    };
    schedule::nodes_from(grid, v + 1, &mut events);
    events
}

/// A kind is 0 at an active child, or not 0 elsewhere, past the last child too
/// (rule R8).
fn kinds_wrong(grid: &Grid, kinds: &[u8]) -> bool {
    let children = grid.children();
    let active = |place: u64| {
        place < grid.nodes() * children && grid.is_active(place / children, place % children)
    };
    (0..)
        .zip(kinds)
        .any(|(place, &kind)| (kind != 0) != active(place))
}

/// Counts that do not fit the grid or each other (rule R9), or too many
/// evaluations (rule R10).
fn counts_wrong(grid: &Grid, counts: &Counts) -> bool {
    let wide = u128::from;
    let points = grid.leaf_points();
    let bound = grid.nodes() * (grid.corners() + grid.children() * points);
    counts.nodes != grid.nodes()
        || counts.active != grid.active_total()
        || wide(counts.sampled) != wide(counts.leaves) * wide(points)
        || counts.evaluations > bound
}

/// A cursor that no job of the grid has (rule R11).
fn cursor_wrong(grid: &Grid, cursor: Cursor) -> bool {
    let right = match cursor {
        Cursor::End => true,
        Cursor::At(Site::Corner(v, corner)) => {
            v < grid.nodes() && corner < grid.corners() && grid.needed(v)[corner as usize]
        }
        Cursor::At(Site::Point(v, c, p)) => {
            v < grid.nodes()
                && c < grid.children()
                && grid.is_active(v, c)
                && p < grid.leaf_points()
        }
    };
    !right
}

/// Too many leaves for the cursor (rule R12), or none inside a child (rule R13).
fn leaves_wrong(grid: &Grid, cursor: Cursor, leaves: u64) -> bool {
    let whole = |v: u64| {
        (0..v)
            .map(|v| grid.active_below(v, grid.children()))
            .sum::<u64>()
    };
    match cursor {
        Cursor::End => leaves > grid.active_total(),
        Cursor::At(Site::Corner(v, _)) => leaves > whole(v),
        Cursor::At(Site::Point(v, c, _)) => {
            leaves == 0 || leaves > whole(v) + grid.active_below(v, c + 1)
        }
    }
}
