//! Texts of any small jobs, and the same with one thing changed.

use super::text::written;
use super::List;
use crate::random::Random;
use crate::sparse::inputs::{one_child, random_accepted, with_parts};
use ledger::{Input, Part};

const JOBS: usize = 100;
const SPECIAL: usize = 60;
const MUTATIONS: usize = 150;

/// Constants of special models: NaNs of several patterns, infinities, zeros,
/// and numbers that overflow or vanish.
const CONSTANTS: [u64; 11] = [
    0x7ff8_0000_0000_0000,
    0x7ff8_0000_0000_0bad,
    0xfff0_0000_0000_0001,
    0xffff_ffff_ffff_ffff,
    0x7ff0_0000_0000_0000,
    0xfff0_0000_0000_0000,
    0x0000_0000_0000_0000,
    0x8000_0000_0000_0000,
    0x7fef_ffff_ffff_ffff,
    0x0000_0000_0000_0001,
    0xbff0_0000_0000_0000,
];

/// What a byte may become, besides any byte.
const BYTES: &[u8] = b"0123456789abcdef (())\n\n  gAF-+.mnx";

pub fn texts(list: &mut List) {
    let mut random = Random::new(7);
    for _ in 0..JOBS {
        list.add(written(&random_accepted(&mut random)));
    }
    for _ in 0..SPECIAL {
        list.add(written(&special(&mut random)));
    }
    for _ in 0..MUTATIONS {
        let text = written(&random_accepted(&mut random)).into_bytes();
        list.add(mutated(&mut random, text));
    }
}

/// A part that copies or computes special values.
fn special_part(random: &mut Random, place: u32) -> Part {
    let kind = if place < 2 { 0 } else { random.below(6) };
    let [a, b] = [0, 1].map(|_| random.below(place.max(1).into()) as u32);
    match kind {
        0 => Part::Const(f64::from_bits(random.pick(&CONSTANTS))),
        1 => Part::Min(a, b),
        2 => Part::Max(a, b),
        3 => Part::Add(a, b),
        4 => Part::Sub(a, b),
        _ => Part::Neg(a),
    }
}

/// A job of one child and a model of special values.
fn special(random: &mut Random) -> Input {
    let count = 3 + random.below(6) as u32;
    let parts: Vec<Part> = (0..count)
        .map(|place| special_part(random, place))
        .collect();
    with_parts(one_child(), &parts)
}

/// A byte changed, taken out, doubled or put in, two lines swapped, or the
/// text cut.
fn mutated(random: &mut Random, mut text: Vec<u8>) -> Vec<u8> {
    let at = random.below(text.len() as u64) as usize;
    match random.below(8) {
        0 | 1 => text[at] = random.pick(BYTES),
        2 => text[at] = random.draw() as u8,
        3 => {
            text.remove(at);
        }
        4 => text.insert(at, text[at]),
        5 => text.insert(at, random.pick(BYTES)),
        6 => return swapped(random, &text),
        _ => text.truncate(at),
    }
    text
}

fn swapped(random: &mut Random, text: &[u8]) -> Vec<u8> {
    let mut lines: Vec<&[u8]> = text.split_inclusive(|&byte| byte == b'\n').collect();
    let [a, b] = [0, 1].map(|_| random.below(lines.len() as u64) as usize);
    lines.swap(a, b);
    lines.concat()
}
