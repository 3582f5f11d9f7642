//! The five lent slices, the calls, and what they answer.

use crate::input::Input;

#[derive(Debug, Clone, Copy, PartialEq, Eq)]
pub struct Lengths {
    pub kinds: u64,
    pub numbers: u64,
    pub places: u64,
    pub store: u64,
    pub corners: u64,
}

#[derive(Debug, Clone)]
pub struct Memory {
    /// A kind for each child (rule S2).
    pub kinds: Vec<u8>,
    pub numbers: Vec<f64>,
    /// A leaf's ordinal.
    pub places: Vec<u32>,
    pub store: Vec<f64>,
    pub corners: Vec<f64>,
}

impl Memory {
    /// Memory of these lengths with every element 0.
    pub fn zero(lengths: Lengths) -> Memory {
        Memory {
            kinds: vec![0; lengths.kinds as usize],
            numbers: vec![0.0; lengths.numbers as usize],
            places: vec![0; lengths.places as usize],
            store: vec![0.0; lengths.store as usize],
            corners: vec![0.0; lengths.corners as usize],
        }
    }

    pub fn lengths(&self) -> Lengths {
        Lengths {
            kinds: self.kinds.len() as u64,
            numbers: self.numbers.len() as u64,
            places: self.places.len() as u64,
            store: self.store.len() as u64,
            corners: self.corners.len() as u64,
        }
    }

    /// Whether every element is the same, floats by their bits.
    pub fn same_bits(&self, other: &Memory) -> bool {
        let same = |a: &[f64], b: &[f64]| {
            a.len() == b.len() && a.iter().zip(b).all(|(x, y)| x.to_bits() == y.to_bits())
        };
        self.kinds == other.kinds
            && same(&self.numbers, &other.numbers)
            && self.places == other.places
            && same(&self.store, &other.store)
            && same(&self.corners, &other.corners)
    }
}

/// Nodes, active children, leaves so far, their points, evaluations so far.
#[derive(Debug, Clone, Copy, PartialEq, Eq)]
pub struct Counts {
    pub nodes: u64,
    pub active: u64,
    pub leaves: u64,
    pub sampled: u64,
    pub evaluations: u64,
}

#[derive(Debug, Clone)]
pub enum Call {
    Open(Input),
    /// A budget of evaluations.
    Step(u64),
    Drop,
}

#[derive(Debug, Clone, Copy, PartialEq, Eq)]
pub enum Answer {
    Accepted,
    Refused(u32),
}
