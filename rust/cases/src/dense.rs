//! Calls on dense fields, walks and corner lists, chosen by a seed.

use crate::dense_rules::*;
use crate::inputs::coordinate;
use crate::jobs::{full, model, number, SPECIAL};
use crate::random::Random;
use ledger::input::MOST_PARTS;
use ledger::Part;

/// The most steps of one walk.
const MOST_STEPS: u64 = 24;

/// Where a walk begins, and how many steps it makes at most.
#[derive(Debug)]
pub struct Walk {
    pub n: Triple,
    pub from: Triple,
    pub steps: u64,
}

#[derive(Debug)]
pub enum Case {
    Count(Bounds, f64),
    Sample {
        parts: Vec<Part>,
        origin: Point,
        cell: f64,
        n: Triple,
        length: usize,
    },
    Padding(Triple, f64, Vec<f64>),
    Threshold(Triple, f64, Vec<f64>),
    Smooth {
        n: Triple,
        factor: f64,
        rounds: u32,
        values: Vec<f64>,
        scratch: usize,
    },
    Points(Bounds, Walk),
    Cells(Bounds, Walk),
    Octets(Walk, Vec<f64>),
    /// The children of a node that are active.
    Corners(u32, Vec<bool>),
}

impl Case {
    /// The cause that refuses the call, or a walk's first step, or 0.
    pub fn refusal(&self) -> usize {
        let nine = |refused: bool| if refused { 9 } else { 0 };
        match self {
            Case::Count(bounds, cell) => count_refusal(*bounds, *cell),
            Case::Sample {
                parts,
                origin,
                cell,
                n,
                length,
            } => {
                if point_refused(*origin) || cell_refused(*cell) {
                    1
                } else if parts.is_empty() || parts.len() > MOST_PARTS as usize {
                    4
                } else {
                    nine(values_refused(*n, *length))
                }
            }
            Case::Padding(n, _, values) | Case::Threshold(n, _, values) => {
                nine(values_refused(*n, values.len()))
            }
            Case::Smooth {
                n, values, scratch, ..
            } => nine(values_refused(*n, values.len()) || *scratch < values.len()),
            Case::Points(bounds, walk) => walk_refusal(2, *bounds, walk.n, walk.from),
            Case::Cells(bounds, walk) => walk_refusal(1, *bounds, walk.n, walk.from),
            Case::Octets(walk, values) => octet_refusal(walk.n, walk.from, values.len()),
            Case::Corners(..) => 0,
        }
    }

    /// Whether it is an octet walk over a dimension of 1, which is done from
    /// the start.
    pub fn without_cells(&self) -> bool {
        matches!(self, Case::Octets(walk, _) if walk.n.contains(&1))
    }
}

/// A small field. A few are rows, whose parts an engine may work on at once.
fn small(random: &mut Random) -> Triple {
    let mut n = [0, 1, 2].map(|_| 1 + random.below(6) as usize);
    if random.below(10) == 0 {
        let along = random.pick(&[63, 64, 65, 128, 129, 130]);
        let axis = random.below(3) as usize;
        n = n.map(|count| count.min(2));
        n[axis] = along;
    }
    n
}

/// Dimensions that cause 9 often refuses.
fn odd(random: &mut Random) -> Triple {
    let numbers = [
        0,
        1,
        2,
        4096,
        MOST - 1,
        MOST,
        MOST + 1,
        1 << 32,
        1 << 62,
        (1 << 62) + 1,
        usize::MAX,
    ];
    [0, 1, 2].map(|_| random.pick(&numbers))
}

/// Dimensions, and how many values are lent.
fn field(random: &mut Random) -> (Triple, usize) {
    if random.below(24) == 0 {
        return (odd(random), random.below(5) as usize);
    }
    let n = small(random);
    let exact = n[0] * n[1] * n[2];
    let length = match random.below(32) {
        0 => exact - 1,
        1 => exact + 1,
        _ => exact,
    };
    (n, length)
}

fn values(random: &mut Random, length: usize) -> Vec<f64> {
    let special = random.pick(&[2, 8, 1 << 40]);
    (0..length).map(|_| number(random, special)).collect()
}

/// Bounds with any extents: none, few cells, many, huge.
fn bounds(random: &mut Random) -> Bounds {
    let special = random.pick(&[12, 1 << 40, 1 << 40]);
    let huge = random.below(10) == 0;
    let scale = if huge {
        random.pick(&[1e300, 1e-300, 1e15])
    } else {
        1.0
    };
    let least = [0, 1, 2].map(|_| number(random, special) * scale);
    let extent = |random: &mut Random| match random.below(5) {
        0 => 0.0,
        1 => coordinate(random).abs(),
        _ => number(random, special).abs(),
    };
    let most = least.map(|x| x + extent(random) * scale);
    [least, most]
}

fn cell(random: &mut Random) -> f64 {
    match random.below(12) {
        0 => f64::from_bits(random.pick(&SPECIAL)),
        n if n < 7 => random.pick(&[1.0, 0.5, 0.1, 0.25, 1.0 / 3.0, 2.0]),
        _ => full(random).abs(),
    }
}

/// From the start, from inside, or from outside.
fn walk(random: &mut Random, n: Triple) -> Walk {
    let inside = |random: &mut Random| n.map(|n| random.below(n.max(1) as u64) as usize);
    let from = match random.below(12) {
        0..=4 => [0, 0, 0],
        5 => {
            let beside = [0, 1, usize::MAX];
            n.map(|n| random.pick(&beside).wrapping_add(n))
        }
        6 => {
            let mut from = inside(random);
            from[2] = random.pick(&[n[2], n[2].wrapping_sub(1), usize::MAX]);
            from
        }
        _ => inside(random),
    };
    Walk {
        n,
        from,
        steps: 1 + random.below(MOST_STEPS),
    }
}

/// The counts of a walk along the axes.
fn walked(random: &mut Random) -> Triple {
    match random.below(16) {
        0 => odd(random),
        1 => [0, 1, 2].map(|_| random.pick(&[2, 3, 1000, MOST])),
        _ => [0, 1, 2].map(|_| 1 + random.below(5) as usize),
    }
}

fn corners(random: &mut Random) -> Case {
    let inner = 2u32 << random.below(3);
    let once = random.pick(&[1, 2, 4, 20]);
    let children = inner.pow(3);
    let active = (0..children).map(|_| random.below(once) == 0).collect();
    Case::Corners(inner, active)
}

fn sample(random: &mut Random) -> Case {
    let (n, length) = field(random);
    let special = random.pick(&[10, 1 << 40]);
    let points = (n[0].min(1000) * n[1].min(1000) * n[2].min(1000)).max(1) as u64;
    let parts = match random.below(40) {
        0 => Vec::new(),
        _ => model(random, (16_000 / points).clamp(1, 64)),
    };
    Case::Sample {
        parts,
        origin: [0, 1, 2].map(|_| number(random, special)),
        cell: cell(random),
        n,
        length,
    }
}

fn smooth(random: &mut Random) -> Case {
    let (n, length) = field(random);
    Case::Smooth {
        n,
        factor: random.pick(&[
            0.5,
            0.25,
            1.0,
            0.0,
            -0.0,
            -1.0,
            2.0,
            f64::NAN,
            f64::INFINITY,
        ]),
        rounds: random.below(5) as u32,
        values: values(random, length),
        scratch: match random.below(16) {
            0 => length.saturating_sub(1),
            1 => length + 7,
            _ => length,
        },
    }
}

/// The case of a number.
pub fn numbered(seed: u64, number_of_case: u64) -> Case {
    let mut random = Random::new(!seed ^ number_of_case.wrapping_mul(0x2545_f491_4f6c_dd1d));
    let random = &mut random;
    match random.below(10) {
        0 => Case::Count(bounds(random), cell(random)),
        1 | 2 => sample(random),
        3 => {
            let (n, length) = field(random);
            Case::Padding(n, number(random, 4), values(random, length))
        }
        4 => {
            let (n, length) = field(random);
            let values = values(random, length);
            let limit = match random.below(3) {
                0 if length > 0 => values[random.below(length as u64) as usize].abs(),
                _ => number(random, 3),
            };
            Case::Threshold(n, limit, values)
        }
        5 => smooth(random),
        6 => {
            let n = walked(random);
            Case::Points(bounds(random), walk(random, n))
        }
        7 => {
            let n = walked(random);
            Case::Cells(bounds(random), walk(random, n))
        }
        8 => {
            let (n, length) = field(random);
            Case::Octets(walk(random, n), values(random, length))
        }
        _ => corners(random),
    }
}
