//! Inputs of jobs: any grids, models and bands, with special floats.

use crate::inputs::{coordinate, exact, of_grid, random_band, with_band, with_parts};
use crate::random::Random;
use ledger::grid::{cause, Grid};
use ledger::input::MOST_PARTS;
use ledger::record::Record;
use ledger::{Input, Lengths, Part};

/// Numbers for which an operation may have a rule of its own. The last six are
/// NaNs, one of them signalling.
pub const SPECIAL: [u64; 20] = [
    0,
    0x8000_0000_0000_0000,
    0x3ff0_0000_0000_0000,
    0xbff0_0000_0000_0000,
    1,
    0x8000_0000_0000_0001,
    0x000f_ffff_ffff_ffff,
    0x0010_0000_0000_0000,
    0x4340_0000_0000_0000,
    0x7fe0_0000_0000_0000,
    0x7fef_ffff_ffff_ffff,
    0xffef_ffff_ffff_ffff,
    0x7ff0_0000_0000_0000,
    0xfff0_0000_0000_0000,
    0x7ff8_0000_0000_0000,
    0xfff8_0000_0000_0000,
    0x7ff8_0000_0000_1234,
    0x7ff0_0000_0000_0001,
    0xfff4_0000_dead_beef,
    0xffff_ffff_ffff_ffff,
];

/// How large a job may be.
#[derive(Clone, Copy)]
pub struct Size {
    /// The most children of all nodes.
    pub children: u64,
    /// The most values of the store.
    pub store: u64,
    /// The largest blocks, as powers of two.
    pub inner: u64,
    pub leaf: u64,
    /// The most parts of a model.
    pub parts: u64,
    /// The most parts that are worked out in the whole job.
    pub work: u64,
}

pub const SMALL: Size = Size {
    children: 64,
    store: 512,
    inner: 2,
    leaf: 2,
    parts: 6,
    work: 20_000,
};

pub const MIDDLE: Size = Size {
    children: 512,
    store: 4096,
    inner: 3,
    leaf: 3,
    parts: 64,
    work: 60_000,
};

pub const LARGE: Size = Size {
    children: 32_768,
    store: 300_000,
    inner: 5,
    leaf: 6,
    parts: 4,
    work: 700_000,
};

/// Of ordinary size with all digits.
pub fn full(random: &mut Random) -> f64 {
    let bits = random.draw();
    let exponent = 1018 + bits % 8;
    f64::from_bits((bits & 0x800f_ffff_ffff_ffff) | exponent << 52)
}

/// A special number once in so many times, and else an ordinary one.
pub fn number(random: &mut Random, special: u64) -> f64 {
    match random.below(special) {
        0 => f64::from_bits(random.pick(&SPECIAL)),
        n if n % 2 == 0 => full(random),
        _ => coordinate(random),
    }
}

fn part(random: &mut Random, place: u32, special: u64) -> Part {
    let point = |random: &mut Random| [0, 1, 2].map(|_| number(random, special));
    // Near the end the last parts are read more often, so that a model's value
    // comes from many of its parts.
    let input = |random: &mut Random| {
        let below = place.max(1);
        let near = random.below(2) == 0;
        let span = if near { below.min(3) } else { below };
        below - 1 - random.below(span.into()) as u32
    };
    let kinds = if place == 0 { 3 } else { 8 };
    match random.below(kinds) {
        0 => Part::Const(number(random, special)),
        1 => Part::Sphere(point(random), number(random, special)),
        2 => Part::Plane(point(random), number(random, special)),
        3 => Part::Min(input(random), input(random)),
        4 => Part::Max(input(random), input(random)),
        5 => Part::Add(input(random), input(random)),
        6 => Part::Sub(input(random), input(random)),
        _ => Part::Neg(input(random)),
    }
}

/// A model of 1 to so many parts.
pub fn model(random: &mut Random, most: u64) -> Vec<Part> {
    let most = most.min(MOST_PARTS.into());
    let most = random.pick(&[1, most.min(4), most]);
    let count = 1 + random.below(most) as u32;
    let special = random.pick(&[4, 40, 1 << 40]);
    (0..count)
        .map(|place| part(random, place, special))
        .collect()
}

/// Bounds of up to a few nodes along an axis: points, flat, ending at a face of
/// a child or one float beside it, or anywhere.
fn extent(random: &mut Random, least: f64, size: f64, inner: u32) -> f64 {
    let step = size / f64::from(inner);
    let faces = random.below(2 * u64::from(inner) + 1) as f64;
    match random.below(8) {
        0 | 1 => least,
        2 | 3 => least + faces * step,
        4 => (least + faces * step).next_after(random.below(2) == 0),
        5 => least + step * 0.5,
        _ => least + size * (random.below(70) as f64 / 32.0),
    }
}

/// A float beside another.
trait Beside {
    fn next_after(self, up: bool) -> f64;
}

impl Beside for f64 {
    fn next_after(self, up: bool) -> f64 {
        let bits = self.to_bits();
        if self == 0.0 || !self.is_finite() {
            return self;
        }
        f64::from_bits(if up == (self > 0.0) {
            bits + 1
        } else {
            bits - 1
        })
    }
}

/// A cell's size, and where the bounds begin.
fn scale(random: &mut Random) -> (f64, [f64; 3]) {
    let near = |random: &mut Random| [0, 1, 2].map(|_| coordinate(random));
    match random.below(16) {
        // Sizes without a special place.
        0..=6 => {
            let cell = random.pick(&[1.0, 0.5, 0.1, 3.0, 1.0 / 3.0, 0.0625]);
            (cell, near(random))
        }
        7..=9 => {
            let cell = full(random).abs();
            (cell, [0, 1, 2].map(|_| full(random)))
        }
        // The bounds begin where floats are wide apart.
        10 => (0.25, [f64::from_bits(0x4340_0000_0000_0000); 3]),
        11 => (full(random).abs(), [0, 1, 2].map(|_| full(random) * 1e15)),
        // Numbers below the normal ones, and squares that vanish.
        12 => (5e-324 * (1 + random.below(9)) as f64, [0.0; 3]),
        13 => (
            full(random).abs() * 1e-300,
            near(random).map(|x| x * 1e-300),
        ),
        // Squares and node ends that are infinite.
        14 => (full(random).abs() * 1e300, near(random).map(|x| x * 1e305)),
        _ => {
            let cell = f64::from_bits(0x7fd0_0000_0000_0000 + random.below(1 << 53));
            let least = [0, 1, 2].map(|_| random.pick(&[0.0, -1e308, 1e308, 9e307]));
            (cell, least)
        }
    }
}

fn any(random: &mut Random, size: Size) -> Input {
    let [inner, leaf] = [size.inner, size.leaf].map(|most| 2u32 << random.below(most));
    let (cell, min) = scale(random);
    let node = cell * f64::from(inner * (leaf - 1));
    let max = min.map(|least| extent(random, least, node, inner));
    let grid = of_grid(min, max, cell, inner, leaf);
    let parts = model(random, size.parts);
    let band = match random.below(8) {
        0 => [(); 2].map(|_| number(random, 2)).map(not_nan),
        _ => random_band(random),
    };
    with_band(with_parts(grid, &parts), band)
}

fn not_nan(x: f64) -> f64 {
    if x.is_nan() {
        0.0
    } else {
        x
    }
}

/// Whether a job is not larger than this.
fn within(input: &Input, size: Size) -> bool {
    let most = Lengths {
        kinds: size.children,
        numbers: size.children,
        places: size.children,
        store: size.store,
        corners: u64::MAX,
    };
    if cause(input, most).is_some() {
        return false;
    }
    let evaluations = Grid::new(input).nodes() * exact(input).corners + exact(input).store;
    evaluations * u64::from(input.count) <= size.work
}

/// The cause by which open refuses an input, whatever is lent: one of 1 to 5.
pub fn refusal(input: &Input) -> Option<u32> {
    let nothing = Record::none().lengths;
    cause(input, nothing).filter(|&cause| cause < 6)
}

/// Sets the band so that an active child's values meet a limit exactly, or miss
/// it by one float.
fn to_the_limit(random: &mut Random, input: &mut Input) {
    let grid = Grid::new(input);
    let v = random.below(grid.nodes());
    let active: Vec<u64> = (0..grid.children())
        .filter(|&c| grid.is_active(v, c))
        .collect();
    if active.is_empty() {
        return;
    }
    let corner = |(corner, needed)| match needed {
        true => grid.corner_value(v, corner),
        false => 0.0,
    };
    let corners: Vec<f64> = (0..).zip(grid.needed(v)).map(corner).collect();
    let limits = grid.limits(v, random.pick(&active), &corners);
    let [above, below] = limits.map(|limit| match random.below(3) {
        0 => limit.next_after(true),
        1 => limit.next_after(false),
        _ => limit,
    });
    if above.is_nan() || below.is_nan() {
        return;
    }
    [input.band_min, input.band_max] = match random.below(3) {
        0 => [above, f64::INFINITY],
        1 => [f64::NEG_INFINITY, below],
        _ => [above, below],
    };
}

/// An input that no cause refuses, of at most this size.
pub fn accepted(random: &mut Random, size: Size) -> Input {
    loop {
        let mut input = any(random, size);
        if within(&input, size) {
            if random.below(6) == 0 {
                to_the_limit(random, &mut input);
            }
            return input;
        }
    }
}

/// An input with a fault for a cause of open, 1 to 5. Others may apply too.
pub fn faulty(random: &mut Random, number: u64, input: Input) -> Input {
    let mut input = input;
    let axis = random.below(3) as usize;
    match number {
        1 => match random.below(4) {
            0 => input.min[axis] = not_finite(random),
            1 => input.max[axis] = not_finite(random),
            2 => {
                let below = input.min[axis].next_after(false);
                input.max[axis] = if below == input.min[axis] {
                    -1.0
                } else {
                    below
                };
                input.min[axis] = input.min[axis].max(0.0);
            }
            _ => {
                let no_number = not_finite(random);
                input.cell = random.pick(&[0.0, -0.0, -1.0, -5e-324, no_number]);
            }
        },
        2 => {
            let block = random.pick(&[0, 1, 3, 5, 6, 7, 12, 33, 63, 65, 128, u32::MAX]);
            if random.below(2) == 0 {
                input.inner = block;
            } else {
                input.leaf = block;
            }
        }
        3 => {
            let nan = f64::from_bits(random.pick(&SPECIAL[14..]));
            if random.below(2) == 0 {
                input.band_min = nan;
            } else {
                input.band_max = nan;
            }
        }
        4 => match random.below(3) {
            0 => input.count = random.pick(&[0, 65, 66, 1 << 31, u32::MAX]),
            _ => {
                let place = random.below(input.parts.len() as u64) as u32;
                let outside = random
                    .pick(&[place, place + 1, 63, 64, u32::MAX])
                    .max(place);
                let inside = random.below(u64::from(place).max(1)) as u32;
                input.parts[place as usize] = match random.below(4) {
                    0 => Part::Min(outside, inside),
                    1 => Part::Sub(inside, outside),
                    2 => Part::Add(outside, outside),
                    _ => Part::Neg(outside),
                };
            }
        },
        _ => match random.below(4) {
            0 => input.cell = f64::MAX,
            1 => input.max[axis] = input.min[axis] + input.cell * 1e6,
            2 => input.max = input.min.map(|x| x + input.cell * 2e4),
            _ => {
                let blocks = f64::from(input.inner) * (f64::from(input.leaf) - 1.0);
                let node = input.cell * blocks;
                input.max[axis] = input.min[axis] + node * random.pick(&[1024.0, 1024.5, 1025.0]);
            }
        },
    }
    input
}

fn not_finite(random: &mut Random) -> f64 {
    f64::from_bits(random.pick(&SPECIAL[12..]))
}

/// A job that runs through, with budgets that pause it.
pub struct Job {
    pub input: Input,
    /// The last one is all that remains.
    pub budgets: Vec<u64>,
    /// Chooses first contents.
    pub random: Random,
}

/// The job of a number. A few inputs have a fault.
pub fn numbered(seed: u64, number_of_job: u64) -> Job {
    let mut random = Random::new(seed ^ number_of_job.wrapping_mul(0x2545_f491_4f6c_dd1d));
    let size = match random.below(100) {
        0 => LARGE,
        1..=49 => MIDDLE,
        _ => SMALL,
    };
    let mut input = accepted(&mut random, size);
    if random.below(20) == 0 {
        let cause = 1 + random.below(5);
        let faulty = faulty(&mut random, cause, input.clone());
        if refusal(&faulty).is_some() {
            input = faulty;
        }
    }
    let mut budgets: Vec<u64> = (0..random.below(4)).map(|_| random.below(100)).collect();
    budgets.push(u64::MAX);
    Job {
        input,
        budgets,
        random,
    }
}
