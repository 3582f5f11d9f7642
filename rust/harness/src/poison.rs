//! First contents: any bits, special floats, NaNs.

use crate::arrays::{Model, Opening, RecordArrays};
use cases::jobs::SPECIAL;
use cases::random::Random;
use jisampode::sys::MOST_PARTS;
use ledger::{Lengths, Memory};

/// Any bits, in one of several styles.
struct Bits {
    style: u64,
}

impl Bits {
    fn choose(random: &mut Random) -> Bits {
        Bits {
            style: random.below(5),
        }
    }

    fn next(&self, random: &mut Random) -> u64 {
        match self.style {
            0 => 0,
            1 => u64::MAX,
            2 => 0x7ff0_0000_0000_0001 | random.draw(),
            3 => random.pick(&SPECIAL),
            _ => random.draw(),
        }
    }
}

/// Memory of these lengths with any contents.
pub fn memory(random: &mut Random, lengths: Lengths) -> Memory {
    let mut words = |length: u64| -> Vec<u64> {
        let bits = Bits::choose(random);
        (0..length).map(|_| bits.next(random)).collect()
    };
    let floats = |words: Vec<u64>| words.into_iter().map(f64::from_bits).collect();
    Memory {
        kinds: words(lengths.kinds).iter().map(|&x| x as u8).collect(),
        numbers: floats(words(lengths.numbers)),
        places: words(lengths.places).iter().map(|&x| x as u32).collect(),
        store: floats(words(lengths.store)),
        corners: floats(words(lengths.corners)),
    }
}

/// A record whose job word is 0. The rest is anything.
pub fn record(random: &mut Random) -> RecordArrays {
    let bits = Bits::choose(random);
    let mut record = RecordArrays {
        words: std::array::from_fn(|_| bits.next(random)),
        settings: std::array::from_fn(|_| bits.next(random)),
        model: Model {
            parts: std::array::from_fn(|_| bits.next(random) as u32),
            reals: std::array::from_fn(|_| bits.next(random)),
        },
    };
    record.words[0] = 0;
    record
}

/// Sets what no part below the count uses to anything.
pub fn unused(random: &mut Random, opening: &mut Opening) {
    let bits = Bits::choose(random);
    let count = opening.count as usize;
    let Model { parts, reals } = &mut opening.model;
    for place in 0..MOST_PARTS {
        if place >= count {
            let code = bits.next(random) as u32;
            parts[place] = random.pick(&[code, code % 8]);
        }
        let code = parts[place];
        let (inputs, vector, number) = match code {
            _ if place >= count => (0, false, false),
            0 => (0, false, true),
            1 | 2 => (0, true, true),
            3..=6 => (2, false, false),
            _ => (1, false, false),
        };
        for row in inputs..2 {
            parts[(1 + row) * MOST_PARTS + place] = bits.next(random) as u32;
        }
        for row in 0..4 {
            let used = if row == 3 { number } else { vector };
            if !used {
                reals[row * MOST_PARTS + place] = bits.next(random);
            }
        }
    }
}
