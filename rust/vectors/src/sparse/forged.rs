//! Lists in which a record or an element is set between two calls.

use super::inputs::{self, exact, with_parts};
use super::script::*;
use crate::random::Random;
use ledger::record::Cursor;
use ledger::schedule::Site;
use ledger::{Answer, Input, Lengths, Part};

const MOST: u64 = u64::MAX;

pub fn lists(script: &mut Script) {
    flags(script);
    numbers(script);
    leaves(script);
    cursors(script);
    inputs_and_lengths(script);
    kinds(script);
    elements(script);
    random_lists(script, &mut Random::new(5));
}

/// Slices that are a bit longer than an input takes.
fn longer(input: &Input) -> Lengths {
    let lengths = exact(input);
    Lengths {
        kinds: lengths.kinds + 2,
        store: lengths.store + 9,
        corners: lengths.corners + 1,
        ..lengths
    }
}

/// A job of two nodes after so many evaluations.
fn at(script: &mut Script, k: u64) {
    let input = inputs::two_nodes();
    script.lend(longer(&input), k);
    assert_eq!(script.open(&input), Answer::Accepted);
    script.step(k);
}

/// Steps on the record as it now is. An accepted step shows its memory.
fn tried(script: &mut Script, budget: u64) -> Answer {
    let answer = script.step(budget);
    if answer == Answer::Accepted {
        script.dump();
    }
    answer
}

/// One field set to each of these, in turn. A record that was refused is as it
/// was before, once the field is right again.
fn each(script: &mut Script, k: u64, field: u64, values: &[u64]) {
    at(script, k);
    for &value in values {
        let before = script.field(field);
        script.forge(field, value);
        if tried(script, 3) == Answer::Accepted {
            at(script, k);
        } else {
            script.forge(field, before);
        }
    }
    script.step(1);
    script.dump();
}

/// The flag set and cleared; a record without a job that says it has one.
fn flags(script: &mut Script) {
    at(script, 20);
    script.forge(JOB, 0);
    script.step(1);
    script.dump();
    script.forge(JOB, 1);
    script.step(1);
    script.dump();
    script.drop();
    script.forge(JOB, 1);
    script.step(0);
    script.step(MOST);
    script.dump();
    let input = inputs::plane_case();
    script.lend(exact(&input), MOST);
    script.forge(JOB, 1);
    script.step(1);
    script.dump();
    script.open(&input);
    script.step(MOST);
    script.dump();
}

/// Counts on both sides of what is right.
fn numbers(script: &mut Script) {
    at(script, 20);
    let counts = script.record().counts;
    let bound = 2 * (27 + 8 * 8);
    for (field, right) in [(NODES, counts.nodes), (ACTIVE, counts.active)] {
        each(script, 20, field, &[0, right - 1, right, right + 1, MOST]);
    }
    each(
        script,
        20,
        EVALUATIONS,
        &[0, 19, 21, bound - 1, bound, bound + 1, 1 << 32, MOST],
    );
    // Corner 0 of node 0, the last evaluation, and the end.
    for k in [0, 1, 200] {
        each(script, k, EVALUATIONS, &[bound, bound + 1]);
    }
}

/// Leaves and sampled, alone and together.
fn leaves(script: &mut Script) {
    for k in [0, 20, 25, 34, 48, 200] {
        at(script, k);
        let counts = script.record().counts;
        each(
            script,
            k,
            SAMPLED,
            &[counts.sampled + 1, counts.sampled + 8, MOST],
        );
        for leaves in [
            0,
            1,
            2,
            3,
            4,
            5,
            6,
            7,
            1 << 32,
            1 << 61,
            (1 << 61) + 1,
            MOST,
        ] {
            at(script, k);
            script.forge(LEAVES, leaves);
            if leaves % 5 == 1 {
                script.step(1);
            }
            script.forge(SAMPLED, leaves.wrapping_mul(8));
            tried(script, 2);
        }
    }
}

/// Cursors at corners needed and not, at points of children active and not,
/// and past the grid.
fn cursors(script: &mut Script) {
    let corner = |v, i| Cursor::At(Site::Corner(v, i));
    let point = |v, c, p| Cursor::At(Site::Point(v, c, p));
    let mut all = vec![Cursor::End];
    for v in [0, 1, 2, MOST] {
        all.extend([0, 1, 4, 5, 11, 17, 18, 26, 27, MOST].map(|i| corner(v, i)));
    }
    for v in [0, 1, 2, MOST] {
        for c in [0, 1, 2, 4, 7, 8, MOST] {
            all.extend([0, 7, 8].map(|p| point(v, c, p)));
        }
    }
    all.extend([
        point(0, 0, MOST),
        point(0, MOST, MOST),
        point(MOST, MOST, MOST),
    ]);
    for (turn, &cursor) in (0..).zip(&all) {
        at(script, [10, 30, 200][turn % 3]);
        script.cursor(cursor);
        if turn % 2 == 0 {
            script.forge(LEAVES, 1);
            script.forge(SAMPLED, 8);
        }
        if script.step(0) == Answer::Accepted {
            script.step(5);
            script.dump();
            script.step(MOST);
        }
    }
}

/// Inputs that meet a cause, inputs of another grid or model, and lengths that
/// are not lent.
fn inputs_and_lengths(script: &mut Script) {
    let bits = f64::to_bits;
    let nan = bits(f64::NAN);
    for field in [MIN_X, MIN_X + 1, MIN_X + 2, MAX_X, MAX_X + 1, MAX_X + 2] {
        each(
            script,
            30,
            field,
            &[
                nan,
                bits(f64::INFINITY),
                bits(-7.0),
                bits(100.0),
                bits(0.25),
            ],
        );
    }
    each(
        script,
        30,
        CELL,
        &[0, nan, bits(1.5), bits(0.75), bits(f64::MAX), bits(1e-300)],
    );
    each(script, 30, INNER, &[0, 1, 3, 4, 64, MOST]);
    each(script, 30, LEAF, &[0, 1, 3, 4, 64, MOST]);
    for field in [BAND_MIN, BAND_MAX] {
        each(
            script,
            10,
            field,
            &[nan, bits(-100.0), bits(100.0), bits(f64::INFINITY)],
        );
    }
    each(script, 30, COUNT, &[0, 1, 2, 64, 65, MOST]);
    for field in KINDS_LENGTH..=CORNERS_LENGTH {
        at(script, 30);
        let lengths = script.lengths();
        let [a, b, c] = [lengths.kinds, lengths.store, lengths.corners];
        let right = match field {
            KINDS_LENGTH => a,
            336 => b,
            CORNERS_LENGTH => c,
            _ => lengths.numbers,
        };
        each(script, 30, field, &[right - 1, right, right + 1, 0, MOST]);
    }
    // Another model goes on where the first one was.
    for k in [10, 30] {
        at(script, k);
        script.part(0, Part::Const(7.0));
        script.part(1, Part::Sphere([0.0; 3], 1.0));
        script.forge(COUNT, 2);
        tried(script, 20);
        script.part(1, Part::Neg(1));
        tried(script, 20);
        script.forge(COUNT, 1);
        tried(script, MOST);
    }
}

/// Kinds that disagree with the grid, in its children and past them, and kinds
/// of any other number.
fn kinds(script: &mut Script) {
    for k in [10, 30] {
        at(script, k);
        let length = script.lengths().kinds;
        for place in 0..length {
            let right = script.kind(place);
            for kind in [0, 1, 3, 255] {
                script.poke(KINDS, place, kind);
                script.step(0);
            }
            script.poke(KINDS, place, right);
        }
        tried(script, 12);
    }
    // An active child may have any kind before it is decided.
    at(script, 10);
    for place in 0..script.lengths().kinds {
        if script.kind(place) != 0 {
            script.poke(KINDS, place, 3 + place);
        }
    }
    script.step(MOST);
    script.dump();
    // A refused record is taken again once the kind is right.
    at(script, 30);
    script.poke(KINDS, 0, 0);
    script.step(5);
    script.dump();
    script.poke(KINDS, 0, 200);
    script.step(5);
    script.step(MOST);
    script.dump();
}

/// Elements that a step reads, and elements that it does not.
fn elements(script: &mut Script) {
    let bits = f64::to_bits;
    let values = [
        bits(100.0),
        bits(-100.0),
        bits(f64::NAN),
        bits(f64::INFINITY),
    ];
    // The corners of an input whose children are decided one after the other.
    let sphere = Part::Sphere([1.0, 1.0, 0.0], 0.5);
    let input = with_parts(inputs::plane_case(), &[sphere]);
    for (turn, corner) in (0..27).enumerate() {
        for k in [13, 27, 30] {
            script.lend(exact(&input), k);
            script.open(&input);
            script.step(k);
            script.poke(CORNERS, corner, values[turn % 4]);
            script.step(MOST);
            if (turn + k as usize) % 4 == 0 {
                script.dump();
            }
        }
    }
    for slice in [NUMBERS, PLACES, STORE] {
        at(script, 30);
        script.poke(slice, 0, 77);
        script.poke(slice, 5, bits(1.0));
        script.step(9);
        script.dump();
        script.step(MOST);
        script.dump();
        script.drop();
        script.dump();
    }
}

/// A cursor near those that a job has.
fn random_cursor(random: &mut Random, script: &Script) -> Cursor {
    let nodes = script.record().counts.nodes.min(8);
    let v = random.below(nodes + 1);
    match random.below(4) {
        0 => Cursor::End,
        1 => Cursor::At(Site::Corner(v, random.below(30))),
        _ => Cursor::At(Site::Point(v, random.below(9), random.below(9))),
    }
}

/// Counts and cursors that are often possible.
fn random_forging(random: &mut Random, script: &mut Script) {
    let leaf = u64::from(script.record().input.leaf.min(64));
    match random.below(6) {
        0 => {
            let leaves = random.below(8);
            script.forge(LEAVES, leaves);
            script.forge(SAMPLED, leaves * leaf.pow(3));
        }
        1 => script.forge(EVALUATIONS, random.below(200)),
        2 => {
            let length = script.lengths().corners;
            let value = random.between(-3, 3) as f64;
            script.poke(CORNERS, random.below(length), value.to_bits());
        }
        3 => {
            let length = script.lengths().kinds;
            script.poke(KINDS, random.below(length), random.below(4));
        }
        _ => {
            let cursor = random_cursor(random, script);
            script.cursor(cursor);
        }
    }
}

/// Jobs with forgings at any places.
fn random_lists(script: &mut Script, random: &mut Random) {
    for _ in 0..60 {
        let input = inputs::random_accepted(random);
        script.lend(longer(&input), random.below(1 << 32));
        for _ in 0..3 {
            script.open(&input);
            script.step(random.below(60));
            for _ in 0..random.below(3) {
                random_forging(random, script);
                script.step(random.below(12));
            }
            script.step(random.below(40));
        }
        script.dump();
    }
}
