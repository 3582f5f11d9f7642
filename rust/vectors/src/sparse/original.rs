//! The original's answer to a whole job.

use crate::bits::result;
use ledger::{Input, Memory};
use original::jobs;
use original::types::computation::data::inside::Child;

/// Ends where the memory of a finished job is not what the original gives. Any
/// NaN counts as any other.
pub fn holds(input: &Input, memory: &Memory) {
    let mut nodes = jobs::nodes(input);
    jobs::sample(&mut nodes, input);
    let children = nodes.counts().iter().product::<usize>();
    let children = (0..children).flat_map(|v| nodes.children(v));
    let points = (input.leaf as usize).pow(3);
    for (place, child) in children.enumerate() {
        match child {
            Child::Empty => assert_eq!(memory.kinds[place], 0),
            Child::Constant(value) => {
                assert_eq!(memory.kinds[place], 1);
                assert_eq!(result(memory.numbers[place]), result(value));
            }
            Child::Leaf(values) => {
                assert_eq!(memory.kinds[place], 2);
                let from = memory.places[place] as usize * points;
                for (mine, theirs) in memory.store[from..from + points].iter().zip(values) {
                    assert_eq!(result(*mine), result(theirs));
                }
            }
        }
    }
}
