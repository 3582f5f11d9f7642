//! Whole jobs, against `init_bounds` and `sample_from_graph`.

use crate::{Expected, Tally};
use cases::bits::result;
use cases::jobs::{numbered, refusal};
use harness::answers;
use ledger::Input;
use original::jobs::{nodes, sample};
use original::types::computation::data::inside::{block, needed_corners, Child};

pub fn compare(seed: u64, number: u64, tally: &mut Tally) -> Result<(), String> {
    let job = numbered(seed, number);
    let expected = match refusal(&job.input) {
        Some(cause) => Expected::Refused(cause.into()),
        None => {
            let numbers = answer(&job.input);
            let [active, leaves] = [numbers[2], numbers[3]];
            tally.leaves += leaves;
            tally.constants += active - leaves;
            Expected::Original(numbers)
        }
    };
    let compared = answers::job(&job).and_then(|got| tally.compare(got, expected));
    compared.map_err(|what| format!("{what}\n{:?}", job.input))
}

/// The original's counts and children.
fn answer(input: &Input) -> Vec<u64> {
    let mut nodes = nodes(input);
    let count = nodes.counts().iter().product::<usize>();
    let inner = block(input.inner.into()).expect("a block's size");
    let corners: usize = (0..count)
        .map(|v| needed_corners(inner, &nodes.active_in(v)).len())
        .sum();
    let active = nodes.active();
    sample(&mut nodes, input);
    let mut leaves = 0;
    let mut children = Vec::new();
    for child in (0..count).flat_map(|v| nodes.children(v)) {
        match child {
            Child::Empty => children.push(0),
            Child::Constant(value) => children.extend([1, result(value)]),
            Child::Leaf(values) => {
                leaves += 1;
                children.push(2);
                children.extend(values.into_iter().map(result));
            }
        }
    }
    let points = leaves * u64::from(input.leaf).pow(3);
    let mut numbers = vec![0, count as u64, active as u64];
    numbers.extend([leaves, points, corners as u64 + points]);
    numbers.extend(children);
    numbers
}
