//! Inputs of jobs.

use crate::random::Random;
use ledger::grid::{self, Grid};
use ledger::{Input, Lengths, Part};

const INFINITY: f64 = f64::INFINITY;

/// Bands that make every child a leaf, and none whose values are finite.
pub const ALL: [f64; 2] = [-INFINITY, INFINITY];
pub const NONE: [f64; 2] = [INFINITY, INFINITY];
const SOME: [f64; 2] = [-0.25, 0.0];

/// The plane x = 0.
const X_PLANE: Part = Part::Plane([1.0, 0.0, 0.0], 0.0);

/// A grid, with the band and the model of the plane case.
pub fn of_grid(min: [f64; 3], max: [f64; 3], cell: f64, inner: u32, leaf: u32) -> Input {
    Input {
        min,
        max,
        cell,
        inner,
        leaf,
        band_min: SOME[0],
        band_max: SOME[1],
        count: 1,
        parts: vec![X_PLANE],
    }
}

pub fn with_parts(input: Input, parts: &[Part]) -> Input {
    Input {
        count: parts.len() as u32,
        parts: parts.to_vec(),
        ..input
    }
}

pub fn with_band(input: Input, band: [f64; 2]) -> Input {
    Input {
        band_min: band[0],
        band_max: band[1],
        ..input
    }
}

/// The plane case: 4 leaves and 4 constants, 59 evaluations.
pub fn plane_case() -> Input {
    of_grid([0.0; 3], [2.0; 3], 1.0, 2, 2)
}

/// One child of 8, at the lowest corner.
pub fn one_child() -> Input {
    of_grid([0.0; 3], [0.0; 3], 1.0, 2, 2)
}

/// 64 children, of which 16 are active.
pub fn large() -> Input {
    of_grid([0.0; 3], [4.0, 4.0, 0.5], 1.0, 4, 2)
}

/// Two nodes along x, of which the second has active children on one side.
pub fn two_nodes() -> Input {
    of_grid([0.0; 3], [3.0, 1.0, 0.5], 1.0, 2, 2)
}

/// No child is active, since the node's end is infinite.
pub fn no_child() -> Input {
    let x = f64::from_bits(0x7fe1_ccf3_85eb_c8a0);
    of_grid([x; 3], [x; 3], f64::from_bits(0x7fdf_ffff_ffff_ffff), 2, 2)
}

/// An infinite end of the second node: it has no active child.
pub fn empty_node() -> Input {
    let cell = f64::from_bits(0x7fd0_0000_0000_0000);
    of_grid([0.0; 3], [f64::MAX, 0.0, 0.0], cell, 2, 2)
}

/// All 8 children are active, since the node is smaller than the spacing of
/// floats there.
pub fn all_active() -> Input {
    let x = f64::from_bits(0x4340_0000_0000_0000);
    of_grid([x; 3], [x; 3], 0.25, 2, 2)
}

/// The shortest slices that an input takes.
pub fn exact(input: &Input) -> Lengths {
    let grid = Grid::new(input);
    let children = grid.nodes() * grid.children();
    Lengths {
        kinds: children,
        numbers: children,
        places: children,
        store: grid.active_total() * grid.leaf_points(),
        corners: grid.corners(),
    }
}

/// Slices that take each of two inputs.
pub fn both(a: Lengths, b: Lengths) -> Lengths {
    Lengths {
        kinds: a.kinds.max(b.kinds),
        numbers: a.numbers.max(b.numbers),
        places: a.places.max(b.places),
        store: a.store.max(b.store),
        corners: a.corners.max(b.corners),
    }
}

/// An input for each of the causes 1 to 5, with no cause below it.
pub fn refused() -> Vec<Input> {
    let good = plane_case;
    vec![
        Input {
            max: [2.0, f64::NAN, 2.0],
            ..good()
        },
        Input {
            min: [0.0, 0.0, 2.5],
            ..good()
        },
        Input {
            cell: -0.0,
            ..good()
        },
        Input { inner: 3, ..good() },
        Input {
            leaf: 128,
            ..good()
        },
        Input {
            band_min: f64::NAN,
            ..good()
        },
        Input { count: 0, ..good() },
        Input {
            count: 65,
            ..good()
        },
        with_parts(good(), &[Part::Const(1.0), Part::Add(0, 1)]),
        Input {
            max: [2048.5, 2.0, 2.0],
            ..good()
        },
        Input {
            cell: f64::MAX,
            ..good()
        },
        Input {
            max: [500.0; 3],
            ..good()
        },
    ]
}

/// Models with every kind of part, NaN, infinities and zeros of both signs.
pub fn models() -> Vec<Vec<Part>> {
    let x = X_PLANE;
    let sphere = Part::Sphere([1.0, 1.0, 1.0], 0.75);
    let constants = [-0.0, 1.0, f64::NAN, INFINITY, -INFINITY, f64::MAX, 5e-324];
    let mut models: Vec<Vec<Part>> = constants.iter().map(|&c| vec![Part::Const(c)]).collect();
    models.extend([
        vec![sphere],
        vec![Part::Plane([0.0, 1.0, 0.0], 0.5)],
        vec![Part::Plane([-0.0, 0.0, 3.0], 1.0)],
        vec![x, sphere, Part::Min(0, 1)],
        vec![x, sphere, Part::Max(1, 0)],
        vec![x, sphere, Part::Add(0, 1)],
        vec![x, sphere, Part::Sub(1, 0)],
        vec![x, Part::Neg(0)],
        vec![Part::Const(f64::NAN), x, Part::Min(0, 1)],
        vec![x, Part::Const(f64::NAN), Part::Max(0, 1)],
        vec![Part::Const(INFINITY), Part::Sub(0, 0), Part::Neg(1)],
        vec![
            x,
            Part::Const(1.0),
            Part::Sub(0, 1),
            Part::Sphere([INFINITY; 3], 1.0),
        ],
    ]);
    models
}

/// A union of 32 spheres in 63 parts, and one more part.
pub fn long_model() -> Vec<Part> {
    let centre = |i: u32| [f64::from(i % 4), f64::from(i / 4 % 4), f64::from(i / 16)];
    let mut parts: Vec<Part> = (0..32).map(|i| Part::Sphere(centre(i), 0.4)).collect();
    for i in 0..31 {
        let union = if i == 0 { 0 } else { 31 + i };
        parts.push(Part::Min(union, i + 1));
    }
    parts.push(Part::Neg(62));
    parts
}

/// A number that is often whole.
pub fn coordinate(random: &mut Random) -> f64 {
    match random.below(4) {
        0 => random.between(-4, 4) as f64 / 8.0,
        1 => random.between(-1000, 1000) as f64 / 300.0,
        _ => random.between(-3, 3) as f64,
    }
}

fn random_part(random: &mut Random, place: u32) -> Part {
    let point = |random: &mut Random| [0, 1, 2].map(|_| coordinate(random));
    let input = |random: &mut Random| random.below(place.max(1).into()) as u32;
    let kind = if place == 0 {
        random.below(3)
    } else {
        random.below(8)
    };
    match kind {
        0 => Part::Const(coordinate(random)),
        1 => Part::Sphere(point(random), coordinate(random).abs()),
        2 => Part::Plane(point(random), coordinate(random)),
        3 => Part::Min(input(random), input(random)),
        4 => Part::Max(input(random), input(random)),
        5 => Part::Add(input(random), input(random)),
        6 => Part::Sub(input(random), input(random)),
        _ => Part::Neg(input(random)),
    }
}

fn random_model(random: &mut Random) -> Vec<Part> {
    let count = 1 + random.below(4) as u32;
    (0..count).map(|place| random_part(random, place)).collect()
}

pub fn random_band(random: &mut Random) -> [f64; 2] {
    match random.below(6) {
        0 => ALL,
        1 => NONE,
        2 => [1.0, -1.0],
        _ => {
            let low = coordinate(random);
            [low, low + random.below(3) as f64]
        }
    }
}

/// A grid with few children, and any model and band.
fn random_input(random: &mut Random) -> Input {
    let inner = if random.below(16) == 0 { 4 } else { 2 };
    let leaf = if random.below(5) == 0 { 4 } else { 2 };
    let cell = random.pick(&[1.0, 0.5, 0.1, 3.0, 1.0 / 3.0]);
    let step = cell * f64::from(leaf - 1);
    let min = [0, 1, 2].map(|_| coordinate(random));
    let max = min.map(|least| {
        let steps = random.pick(&[0.0, 0.5, 1.0, 1.0, 1.75, 2.0, 2.5]);
        least + step * steps
    });
    let grid = of_grid(min, max, cell, inner, leaf);
    let parts = random_model(random);
    with_band(with_parts(grid, &parts), random_band(random))
}

/// The same where no cause refuses it, on slices that are not long.
pub fn random_accepted(random: &mut Random) -> Input {
    let most = Lengths {
        kinds: 64,
        numbers: 64,
        places: 64,
        store: 128,
        corners: 125,
    };
    loop {
        let input = random_input(random);
        if grid::cause(&input, most).is_none() {
            return input;
        }
    }
}
