//! Records and elements set from outside, between two calls of a list.

use crate::host::Host;
use cases::jobs::SPECIAL;
use cases::random::Random;

/// Where words stand in a record.
const COUNT: usize = 3;
const NODES: usize = 9;
const LEAVES: usize = 11;
const SAMPLED: usize = 12;
const CURSOR: usize = 14;

/// Numbers at an edge, and those beside what is there.
fn edge(random: &mut Random, now: u64) -> u64 {
    let beside = [now.wrapping_sub(1), now.wrapping_add(1), now ^ 3, now / 2];
    let edges = [
        0,
        1,
        2,
        3,
        4,
        8,
        27,
        64,
        65,
        1024,
        (1 << 32) - 1,
        1 << 32,
        1 << 61,
        1 << 63,
        u64::MAX,
    ];
    if random.below(2) == 0 {
        random.pick(&beside)
    } else {
        random.pick(&edges)
    }
}

fn flip(random: &mut Random, words: &mut [u64]) {
    let at = random.below(words.len() as u64) as usize;
    words[at] ^= 1 << random.below(64);
}

/// Any element of floats becomes special, a float beside it, or any bits.
fn float(random: &mut Random, floats: &mut [u64]) {
    if floats.is_empty() {
        return;
    }
    let at = random.below(floats.len() as u64) as usize;
    floats[at] = match random.below(3) {
        0 => random.pick(&SPECIAL),
        1 => floats[at].wrapping_add(random.pick(&[1, u64::MAX])),
        _ => random.draw(),
    };
}

/// A place among a model's parts, and sometimes past them.
fn place(random: &mut Random, host: &Host) -> usize {
    let count = host.words.elements()[COUNT].clamp(1, 64);
    let below = random.pick(&[count, count, 64]);
    random.below(below) as usize
}

/// Leaves with their points, and a cursor near those that a job has.
fn likely(random: &mut Random, host: &mut Host) {
    let words = host.words.elements_mut();
    let leaf = words[2].min(64);
    if random.below(2) == 0 {
        let leaves = random.below(words[NODES + 1].clamp(1, 1 << 20) + 2);
        words[LEAVES] = leaves;
        words[SAMPLED] = leaves * leaf.pow(3);
        return;
    }
    let inner = words[1].min(64);
    words[CURSOR] = random.below(3);
    words[CURSOR + 1] = random.below(words[NODES].clamp(1, 1 << 20) + 1);
    words[CURSOR + 2] = random.below((inner + 1).pow(3) + 1);
    words[CURSOR + 3] = random.below(leaf.pow(3) + 1);
}

fn kinds(random: &mut Random, host: &mut Host) {
    let kinds = host.kinds.elements_mut();
    if kinds.is_empty() {
        return;
    }
    let at = random.below(kinds.len() as u64) as usize;
    kinds[at] = match random.below(2) {
        0 => random.pick(&[0, 1, 2, 3, 255]),
        _ => kinds[at] ^ (1 << random.below(8)),
    };
}

/// One change of the record or of an element. Sometimes none.
pub fn forge(random: &mut Random, host: &mut Host) {
    match random.below(18) {
        0 => {}
        1..=3 => {
            let words = host.words.elements_mut();
            let at = random.below(words.len() as u64) as usize;
            words[at] = edge(random, words[at]);
        }
        4 => flip(random, host.words.elements_mut()),
        5 => flip(random, host.settings.elements_mut()),
        6 => float(random, host.settings.elements_mut()),
        7 => {
            let at = 64 * random.below(3) as usize + place(random, host);
            host.parts.elements_mut()[at] ^= 1 << random.below(32);
        }
        8 => {
            let at = 64 * random.below(3) as usize + place(random, host);
            let edges = random.pick(&[0, 1, 7, 8, 9, 63, 64, u32::MAX]);
            host.parts.elements_mut()[at] = edges;
        }
        9 => {
            let at = 64 * random.below(4) as usize + place(random, host);
            float(random, &mut host.reals.elements_mut()[at..=at]);
        }
        10 => {
            let at = 64 * random.below(4) as usize + place(random, host);
            flip(random, &mut host.reals.elements_mut()[at..=at]);
        }
        11 | 12 => kinds(random, host),
        13 => {
            let slice = match random.below(3) {
                0 => &mut host.numbers,
                1 => &mut host.store,
                _ => &mut host.corners,
            };
            float(random, slice.elements_mut());
        }
        14 => {
            let places = host.places.elements_mut();
            if !places.is_empty() {
                let at = random.below(places.len() as u64) as usize;
                places[at] = random.draw() as u32;
            }
        }
        _ => likely(random, host),
    }
}
