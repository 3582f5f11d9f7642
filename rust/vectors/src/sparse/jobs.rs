//! Lists that nobody interferes with.

use super::inputs::{self, both, exact, with_band, with_parts};
use super::script::Script;
use ledger::{Answer, Input, Lengths, Part};

const MOST: u64 = u64::MAX;

pub fn lists(script: &mut Script) {
    plane_case(script);
    budgets(script);
    large_then_small(script);
    drops(script);
    refused_opens(script);
    lengths(script);
    grids(script);
    models(script);
}

/// A list with slices of these lengths, in which a job is opened.
fn opened(script: &mut Script, lengths: Lengths, seed: u64, input: &Input) {
    script.lend(lengths, seed);
    assert_eq!(script.open(input), Answer::Accepted);
}

/// The plane case, paused at every evaluation.
fn plane_case(script: &mut Script) {
    let input = inputs::plane_case();
    opened(script, exact(&input), 1, &input);
    script.dump();
    for _ in 0..60 {
        script.step(1);
        script.dump();
    }
}

/// Other budgets for the same: 0, and steps of a finished job.
fn budgets(script: &mut Script) {
    let input = inputs::plane_case();
    for budget in [2, 3, 5, 7, 8, 13, 26, 27, 28, 35, 58, 59, 60, MOST] {
        opened(script, exact(&input), budget, &input);
        script.step(0);
        while !script.record().finished() {
            script.step(budget);
        }
        script.step(0);
        script.step(1);
        script.step(MOST);
        script.dump();
    }
    opened(script, exact(&input), 5, &input);
    for budget in [0, 26, 0, 1, 0, 7, 0, 1, 0, 8, 0, 8, 0, 8, 0] {
        script.step(budget);
    }
    script.dump();
}

/// A large part, then a small one in the same memory, and the other way.
fn large_then_small(script: &mut Script) {
    let (large, small) = (inputs::large(), inputs::plane_case());
    let room = both(exact(&large), exact(&small));
    for (seed, (first, with_drop)) in [(MOST, false), (MOST, true), (30, false), (100, true)]
        .into_iter()
        .enumerate()
    {
        opened(script, room, seed as u64, &large);
        script.step(first);
        script.dump();
        if with_drop {
            script.drop();
            script.dump();
        }
        script.open(&small);
        script.dump();
        script.step(MOST);
        script.dump();
    }
    opened(script, room, 9, &small);
    script.step(30);
    script.open(&large);
    script.step(MOST);
    script.open(&inputs::one_child());
    script.step(3);
    script.dump();
    script.open(&small);
    script.open(&small);
    script.step(MOST);
    script.dump();
}

/// Drops without a job, among the corners, inside a leaf, at its end, and of a
/// finished job.
fn drops(script: &mut Script) {
    let input = inputs::plane_case();
    script.lend(exact(&input), 3);
    script.drop();
    script.dump();
    for k in [0, 1, 13, 26, 27, 28, 34, 35, 50, 58, 59] {
        script.open(&input);
        script.step(k);
        script.drop();
        script.dump();
        script.step(1);
        script.drop();
    }
}

/// Opens that a cause refuses, with and without a job.
fn refused_opens(script: &mut Script) {
    let input = inputs::plane_case();
    script.lend(exact(&input), 4);
    script.step(1);
    for bad in inputs::refused() {
        script.open(&bad);
    }
    script.open(&inputs::large());
    script.step(MOST);
    script.dump();
    for k in [0, 20, 30] {
        script.open(&input);
        script.step(k);
        for bad in inputs::refused() {
            script.open(&bad);
            script.step(1);
        }
        script.open(&inputs::large());
        script.dump();
    }
    script.step(MOST);
    script.dump();
}

/// Each slice one short, one longer, and much longer.
fn lengths(script: &mut Script) {
    let input = inputs::two_nodes();
    let change = |at: usize, by: i64| {
        let mut lengths = exact(&input);
        let length = match at {
            0 => &mut lengths.kinds,
            1 => &mut lengths.numbers,
            2 => &mut lengths.places,
            3 => &mut lengths.store,
            _ => &mut lengths.corners,
        };
        *length = (*length as i64 + by) as u64;
        lengths
    };
    for at in 0..5 {
        script.lend(change(at, -1), 5);
        assert_eq!(script.open(&input), Answer::Refused(6));
        script.dump();
        script.drop();
        for by in [1, 17] {
            opened(script, change(at, by), 6, &input);
            script.step(20);
            script.dump();
            script.step(MOST);
            script.dump();
        }
    }
    script.lend(exact(&inputs::no_child()), 7);
    script.open(&input);
    script.open(&inputs::no_child());
    script.dump();
}

/// A job opened, paused inside, and run to its end.
fn run(script: &mut Script, input: &Input, budget: u64) {
    opened(script, exact(input), budget, input);
    script.step(budget);
    script.step(budget);
    script.step(MOST);
    script.dump();
    script.step(1);
}

fn grids(script: &mut Script) {
    for input in [
        inputs::no_child(),
        inputs::empty_node(),
        inputs::all_active(),
        inputs::one_child(),
        inputs::two_nodes(),
        inputs::of_grid([-1.0, 0.0, 0.25], [0.5, 3.5, 0.25], 0.5, 2, 2),
        inputs::of_grid([0.0; 3], [5.0, 0.0, 5.0], 1.0, 2, 2),
        inputs::of_grid([0.0; 3], [1.0; 3], 1.0, 4, 2),
        inputs::of_grid([-0.3, 0.1, 7.0], [0.3, 0.2, 7.0], 0.1, 2, 4),
        inputs::of_grid([0.0; 3], [0.0; 3], 1.0, 2, 8),
        inputs::of_grid([-1.0; 3], [-1.0; 3], 1.0, 4, 4),
    ] {
        for band in [inputs::ALL, inputs::NONE, [-0.25, 0.0], [1.0, -1.0]] {
            run(script, &with_band(input.clone(), band), 9);
        }
    }
    run(script, &inputs::large(), 100);
    let flat = inputs::of_grid([0.0; 3], [8.0, 8.0, 0.0], 1.0, 8, 2);
    run(script, &with_band(flat, [0.5, 2.0]), 90);
    let wide = inputs::of_grid([0.0; 3], [8.0, 1.0, 1.0], 1.0, 8, 4);
    run(script, &with_band(wide, [3.0, 3.5]), 40);
}

fn models(script: &mut Script) {
    for parts in inputs::models() {
        for band in [[-0.25, 0.0], [0.5, 0.75], inputs::NONE] {
            run(
                script,
                &with_band(with_parts(inputs::plane_case(), &parts), band),
                11,
            );
        }
    }
    let long = inputs::long_model();
    run(script, &with_parts(inputs::plane_case(), &long), 30);
    run(script, &with_parts(inputs::two_nodes(), &long), 30);
    run(script, &with_parts(inputs::two_nodes(), &long[..63]), 30);
    let shifted: Vec<Part> = long[..40].to_vec();
    run(script, &with_parts(inputs::all_active(), &shifted), 30);
}
