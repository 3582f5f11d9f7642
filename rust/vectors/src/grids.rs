//! The list of the grid: block sizes, nodes, boxes, activity, points, pruning,
//! corner lists and the causes of open.
//!
//! The original gives the answers where it can be run. The rules give the
//! others, and wherever the original answers they must agree.

use crate::bits::*;
use crate::fields::List;
use crate::grid_rules::{self as rules, Bounds, Grid, Lengths, Model};
use crate::random::Random;
use original::parts::{max, min};
use original::types::computation::data::inside::{self, Nodes};
use original::types::geometry::{BoundingBox, Vec3};

type Point = [f64; 3];

const ORIGIN: Point = [0.0; 3];
const BLOCKS: [u64; 6] = [2, 4, 8, 16, 32, 64];
/// The float with the bits SMALLEST.
const TINY: f64 = 5e-324;

/// Coordinates and sizes for which an operation may have a rule of its own.
const SPECIAL: [f64; 12] = [
    0.0,
    -0.0,
    TINY,
    f64::MIN_POSITIVE,
    1e-300,
    -1.0,
    1e300,
    f64::MAX,
    -f64::MAX,
    f64::INFINITY,
    f64::NEG_INFINITY,
    f64::NAN,
];

pub fn list() -> List {
    let mut list = List::default();
    let mut random = Random::new(3);
    blocks(&mut list);
    sizes(&mut list, &mut random);
    along(&mut list, &mut random);
    for g in grids(&mut random) {
        grid_cases(&mut list, &mut random, &g);
    }
    for g in special_grids() {
        grid_cases(&mut list, &mut random, &g);
    }
    axes(&mut list, &mut random);
    points(&mut list, &mut random);
    places(&mut list, &mut random);
    halves(&mut list, &mut random);
    extremes(&mut list, &mut random);
    pruned(&mut list, &mut random);
    corner_lists(&mut list, &mut random);
    opens(&mut list, &mut random);
    list
}

/// The next float above a finite one, and the next below.
fn up(x: f64) -> f64 {
    match x {
        0.0 => TINY,
        x if x > 0.0 => f64::from_bits(x.to_bits() + 1),
        x => f64::from_bits(x.to_bits() - 1),
    }
}

fn down(x: f64) -> f64 {
    -up(-x)
}

fn around(x: f64) -> [f64; 3] {
    [down(x), x, up(x)]
}

/// A number of ordinary size with all its digits, above 0.
fn size_of(random: &mut Random) -> f64 {
    f64::from_bits(scaled(random.with_digits(53), random.between(-56, -48)))
}

/// A coordinate with all its digits.
fn full(random: &mut Random) -> f64 {
    let x = size_of(random);
    if random.below(2) == 0 {
        x
    } else {
        -x
    }
}

fn full_point(random: &mut Random) -> Point {
    [full(random), full(random), full(random)]
}

/// A part of 1, in 64ths.
fn part(random: &mut Random) -> f64 {
    random.below(65) as f64 / 64.0
}

fn results(p: &[f64]) -> Vec<u64> {
    p.iter().map(|&x| result(x)).collect()
}

fn bits_of(p: &[f64]) -> Vec<u64> {
    p.iter().map(|x| x.to_bits()).collect()
}

fn box_bits(b: Bounds) -> Vec<u64> {
    [bits_of(&b.0), bits_of(&b.1)].concat()
}

fn box_results(b: Bounds) -> Vec<u64> {
    [results(&b.0), results(&b.1)].concat()
}

fn grid_bits(g: &Grid) -> Vec<u64> {
    let numbers = [g.cell.to_bits(), g.inner, g.leaf];
    [box_bits((g.min, g.max)), numbers.to_vec()].concat()
}

fn to_box(b: Bounds) -> BoundingBox<f64> {
    let at = |p: Point| Vec3::new(p[0], p[1], p[2]);
    BoundingBox::new(at(b.0), at(b.1))
}

fn from_box(b: BoundingBox<f64>) -> Bounds {
    ([b.min.x, b.min.y, b.min.z], [b.max.x, b.max.y, b.max.z])
}

/// An answer that was accepted.
fn accepted(numbers: Vec<u64>) -> Vec<u64> {
    [vec![0], numbers].concat()
}

/// The original's nodes of a grid, where it takes the grid and they are few.
fn nodes_of(g: &Grid) -> Option<Nodes> {
    let (inner, leaf) = (inside::block(g.inner)?, inside::block(g.leaf)?);
    let takes = |axis: usize| {
        let quotient = ((g.max[axis] - g.min[axis]) / g.size()).ceil();
        quotient > -1.0 && quotient <= 1100.0
    };
    if !(0..3).all(takes) || g.children() > 300_000 {
        return None;
    }
    Some(Nodes::new(to_box((g.min, g.max)), g.cell, inner, leaf))
}

fn blocks(list: &mut List) {
    let huge = [
        127,
        128,
        256,
        1 << 16,
        (1 << 16) + 2,
        1 << 31,
        u32::MAX as u64,
    ];
    for n in (0..=70).chain(huge) {
        list.add("block", &[n], &[0, inside::block(n).is_some() as u64]);
    }
}

/// A node's size. The node of bounds from 0 to 0 ends there.
fn size_case(list: &mut List, cell: f64, inner: u64, leaf: u64) {
    let rule = rules::node_size(cell, inner, leaf);
    let g = Grid {
        min: ORIGIN,
        max: ORIGIN,
        cell,
        inner,
        leaf,
    };
    if let (true, Some(nodes)) = (rule.is_finite(), nodes_of(&g)) {
        assert_eq!(nodes.node_box(0).max.x.to_bits(), rule.to_bits());
    }
    list.add("size", &[cell.to_bits(), inner, leaf], &[0, result(rule)]);
}

fn sizes(list: &mut List, random: &mut Random) {
    for inner in BLOCKS {
        for leaf in BLOCKS {
            size_case(list, 0.1, inner, leaf);
            size_case(list, size_of(random), inner, leaf);
        }
    }
    for cell in SPECIAL
        .into_iter()
        .chain([f64::MAX / 2.0, f64::MAX / 4032.0])
    {
        for (inner, leaf) in [(2, 2), (4, 8), (64, 64)] {
            size_case(list, cell, inner, leaf);
        }
    }
    let most = u32::MAX as u64;
    for (inner, leaf) in [
        (0, 0),
        (0, 5),
        (5, 0),
        (1, 1),
        (3, 7),
        (most, 2),
        (most, most),
    ] {
        size_case(list, 1.0, inner, leaf);
        size_case(list, -0.3, inner, leaf);
    }
}

/// Nodes along an axis. The original has them along x, where the cell is half
/// the node's size.
fn along_case(list: &mut List, least: f64, most: f64, s: f64) {
    let rule = rules::nodes_along(least, most, s);
    let g = Grid {
        min: [least, 0.0, 0.0],
        max: [most, 0.0, 0.0],
        cell: s / 2.0,
        inner: 2,
        leaf: 2,
    };
    if g.size() == s {
        if let Some(nodes) = nodes_of(&g) {
            assert_eq!(nodes.counts(), [rule as usize, 1, 1]);
        }
    }
    list.add("along", &bits_of(&[least, most, s]), &[0, rule]);
}

fn along(list: &mut List, random: &mut Random) {
    let sizes = [2.0, 0.3, 0.7, 1e-3, 1e300, 8.0 * TINY, size_of(random)];
    for s in sizes {
        for m in [1.0, 2.0, 3.0, 7.0, 1023.0, 1024.0, 1025.0] {
            for extent in around(m * s) {
                along_case(list, 0.0, extent, s);
            }
        }
    }
    for s in [2.0, 0.3, size_of(random)] {
        for m in [1.0, 3.0, 1024.0] {
            let least = full(random);
            for most in around(least + m * s) {
                along_case(list, least, most, s);
            }
        }
    }
    // Extents below 0, less than a node and more.
    for most in [-0.0, -TINY, -0.5, -1.9, -2.0, -2.1, -1e300] {
        along_case(list, 0.0, most, 2.0);
    }
    // Quotients around the ends of 64 bits, infinite ones and NaN.
    for most in [
        9007199254740993.0,
        9223372036854775808.0,
        18446744073709549568.0,
    ] {
        along_case(list, 0.0, most, 1.0);
        along_case(list, 0.0, up(most), 1.0);
    }
    along_case(list, -f64::MAX, f64::MAX, 1.0);
    along_case(list, -f64::MAX, f64::MAX, f64::INFINITY);
    along_case(list, 0.0, f64::MAX, TINY);
    for x in SPECIAL {
        along_case(list, x, 1.0, 2.0);
        along_case(list, 0.0, x, 2.0);
        along_case(list, 0.0, 1.0, x);
        along_case(list, x, x, x);
    }
}

fn grid(b: Bounds, cell: f64, inner: u64, leaf: u64) -> Grid {
    Grid {
        min: b.0,
        max: b.1,
        cell,
        inner,
        leaf,
    }
}

/// Bounds of every shape for a node of this size.
fn shapes(s: f64, inner: u64, random: &mut Random) -> Vec<Bounds> {
    let o = full_point(random);
    let to = |sizes: Point| [0, 1, 2].map(|axis| o[axis] + sizes[axis] * s);
    // Where children and nodes begin on an axis that starts at x.
    let child = |x: f64, c: u64| x + c as f64 * (((x + s) - x) / inner as f64);
    let node = |x: f64, i: f64| x + i * s;
    let faces = |at: &dyn Fn(f64) -> f64| [at(o[0]), down(at(o[1])), up(at(o[2]))];
    let mut shapes = vec![
        (ORIGIN, ORIGIN),
        (o, o),
        (o, [o[0], o[1] + 1.3 * s, o[2] + 0.6 * s]),
        (o, [o[0] + 1.3 * s, o[1] + 0.1 * s, o[2]]),
        (ORIGIN, [s, s, s]),
        (ORIGIN, [up(s), down(s), 2.0 * s]),
        (o, faces(&|x| child(x, 1))),
        (o, faces(&|x| child(x, inner - 1))),
        (o, faces(&|x| node(x, 1.0))),
        (o, faces(&|x| child(node(x, 1.0), 1))),
        // The highest point below the lowest, by less than a node.
        (o, to([-0.3, 0.5, 0.5])),
        (o, to([0.5, -0.01, -0.9])),
        // Both zeros.
        (ORIGIN, [-0.0, s, -0.0]),
        ([-0.0; 3], [0.0, 0.0, s]),
    ];
    for _ in 0..3 {
        let sizes = [part(random), part(random), part(random)];
        shapes.push((o, to(sizes.map(|x| 2.2 * x))));
    }
    shapes
}

fn grids(random: &mut Random) -> Vec<Grid> {
    let mut grids = Vec::new();
    for (inner, leaf) in [(2, 2), (2, 4), (4, 2), (4, 4), (8, 2), (2, 8), (8, 8)] {
        for cell in [1.0, size_of(random)] {
            // Of each size one with all digits, of some a whole one.
            if cell == 1.0 && (inner == leaf || inner == 8 || leaf == 8) {
                continue;
            }
            let s = rules::node_size(cell, inner, leaf);
            for b in shapes(s, inner, random) {
                grids.push(grid(b, cell, inner, leaf));
            }
        }
    }
    grids
}

/// Huge, tiny and coarse grids, and bounds that are no numbers.
fn special_grids() -> Vec<Grid> {
    let all = |x: f64| [x; 3];
    let huge = f64::from_bits(0x7fe1_ccf3_85eb_c8a0);
    let half = f64::from_bits(0x7fdf_ffff_ffff_ffff);
    let quarter = f64::from_bits(0x7fd0_0000_0000_0000);
    let coarse = f64::from_bits(0x4340_0000_0000_0000);
    let mut grids = vec![
        // An infinite node end, alone and among others.
        grid((all(huge), all(huge)), half, 2, 2),
        grid((ORIGIN, [f64::MAX, 0.0, 0.0]), quarter, 2, 2),
        grid((ORIGIN, [0.0, f64::MAX, f64::MAX]), quarter, 4, 2),
        // A node size below the spacing of the lowest point.
        grid((all(coarse), all(coarse)), 0.25, 2, 2),
        grid((all(coarse), all(up(coarse))), 0.25, 2, 2),
        grid((all(-coarse), [-coarse, up(-coarse), -coarse]), 0.125, 4, 2),
        grid(([coarse, 0.0, 0.0], [coarse, 0.25, 0.5]), 0.125, 8, 2),
        // Below the normal numbers.
        grid((ORIGIN, all(TINY)), TINY, 2, 2),
        grid((ORIGIN, [3.0 * TINY, TINY, 0.0]), TINY, 4, 2),
        grid((all(-5.0 * TINY), all(4.0 * TINY)), TINY, 2, 4),
        grid((all(1e-310), all(1.5e-310)), 1e-311, 4, 4),
        grid((ORIGIN, all(1e-300)), 1e-301, 8, 2),
        // Huge, but for the sums.
        grid((all(-1e300), all(1e300)), 3e299, 2, 4),
        grid((all(1e307), all(1.7e308)), 1e307, 2, 8),
        grid(
            (all(-f64::MAX), [f64::MAX, -f64::MAX, -f64::MAX]),
            half,
            2,
            2,
        ),
        // A cell of another size than the bounds.
        grid((ORIGIN, all(1e-3)), 1e9, 4, 8),
        grid((all(1.0), all(1.0)), TINY, 2, 2),
    ];
    let ends = [f64::NAN, f64::INFINITY, f64::NEG_INFINITY];
    for x in ends {
        grids.push(grid(([x, 0.0, 0.0], [1.0, 1.0, 1.0]), 1.0, 2, 2));
        grids.push(grid((ORIGIN, [1.0, x, 1.0]), 1.0, 2, 2));
        grids.push(grid((ORIGIN, [1.0, 1.0, 1.0]), x, 4, 2));
    }
    for cell in [0.0, -0.0, -1.0, f64::MAX] {
        grids.push(grid((ORIGIN, [1.0, 2.0, 1.0]), cell, 2, 2));
    }
    grids
}

/// One bit for each, 64 to a number.
fn words(flags: &[bool]) -> Vec<u64> {
    flags
        .chunks(64)
        .map(|chunk| (0..chunk.len()).map(|b| (chunk[b] as u64) << b).sum())
        .collect()
}

/// The counts of a grid, and its first, its last and another node.
fn grid_cases(list: &mut List, random: &mut Random, g: &Grid) {
    let nodes = nodes_of(g);
    let counts = g.counts();
    if let Some(nodes) = &nodes {
        assert_eq!(nodes.counts().map(|n| n as u64), counts);
        assert_eq!(nodes.active() as u64, g.active());
    }
    list.add("counts", &grid_bits(g), &accepted(counts.to_vec()));
    let total = g.nodes().min(u32::MAX as u128) as u64;
    let mut chosen = vec![0, total - 1, random.below(total)];
    chosen.dedup();
    if chosen.len() > 1 && chosen[chosen.len() - 1] == 0 {
        chosen.pop();
    }
    for v in chosen {
        node_cases(list, random, g, nodes.as_ref(), v);
    }
}

fn node_cases(list: &mut List, random: &mut Random, g: &Grid, nodes: Option<&Nodes>, v: u64) {
    let node = [grid_bits(g), vec![v]].concat();
    let rule = box_results(g.node_box(v));
    if let Some(nodes) = nodes {
        assert_eq!(box_results(from_box(nodes.node_box(v as usize))), rule);
    }
    // The first of several nodes begins at the lowest point.
    if v > 0 || nodes.is_none() || g.nodes() == 1 {
        list.add("node", &node, &accepted(rule));
    }

    let children = g.inner.pow(3);
    let flags: Vec<bool> = (0..children).map(|c| g.is_active(v, c)).collect();
    if let Some(nodes) = nodes {
        assert_eq!(nodes.active_in(v as usize), flags);
    }
    let count = flags.iter().filter(|&&is| is).count() as u64;
    let answer = [vec![count], words(&flags)].concat();
    list.add("active", &node, &accepted(answer));

    let c = random.below(children);
    let rule = box_results(g.child_box(v, c));
    if let Some(nodes) = nodes {
        let child = nodes.child_box(v as usize, c as usize);
        assert_eq!(box_results(from_box(child)), rule);
    }
    let case = [node, vec![c]].concat();
    let active = flags[c as usize] as u64;
    list.add("child", &case, &accepted([rule, vec![active]].concat()));
}

/// One axis. The original has it along x: the first child on y and z is
/// active.
fn axis_case(list: &mut List, least: f64, most: f64, s: f64, inner: u64, i: u64, c: u64) {
    let (begin, end) = rules::node_ends(least, s, i);
    let rule = rules::axis_active(least, most, s, inner, i, c);
    let g = grid(
        ([least, 0.0, 0.0], [most, 0.0, 0.0]),
        s / inner as f64,
        inner,
        2,
    );
    if g.size() == s && i < g.counts()[0] {
        if let Some(nodes) = nodes_of(&g) {
            let (min, max) = from_box(nodes.node_box(i as usize));
            assert_eq!(
                [result(min[0]), result(max[0])],
                [result(begin), result(end)]
            );
            assert_eq!(nodes.active_in(i as usize)[c as usize], rule);
        }
    }
    let case = [bits_of(&[least, most, s]), vec![inner, i, c]].concat();
    let answer = [0, result(begin), result(end), rule as u64];
    list.add("axis", &case, &answer);
}

fn axes(list: &mut List, random: &mut Random) {
    for inner in [2, 4, 8, 16, 64] {
        for _ in 0..3 {
            let (least, s) = (full(random), size_of(random));
            let (i, c) = (random.below(3), random.below(inner));
            let begin = least + i as f64 * s;
            let face = begin + c as f64 * (((begin + s) - begin) / inner as f64);
            for most in around(face) {
                axis_case(list, least, most, s, inner, i, c);
            }
        }
    }
    for x in SPECIAL {
        axis_case(list, x, 1.0, 2.0, 2, 0, 1);
        axis_case(list, 0.0, x, 2.0, 2, 1, 0);
        axis_case(list, 0.0, 1.0, x, 4, 0, 3);
        axis_case(list, x, x, 0.25, 2, 3, 1);
    }
}

/// Boxes whose axes differ, and boxes of special numbers.
fn boxes(random: &mut Random) -> Vec<Bounds> {
    let mut boxes = vec![
        (ORIGIN, [1.0, 2.0, 3.0]),
        (ORIGIN, ORIGIN),
        ([1.0, 1.0, 1.0], [0.0, -2.0, 0.5]),
        ([-0.0; 3], [-0.0, 0.0, 4.0]),
        ([-1e308; 3], [1e308, 1.0, 1e308]),
        (ORIGIN, [TINY, 3.0 * TINY, 1.0]),
        ([0.0, 1e16, -1e16], [1.0, 1e16 + 4.0, 3.0]),
    ];
    for _ in 0..6 {
        let o = full_point(random);
        boxes.push((o, [0, 1, 2].map(|axis| o[axis] + size_of(random))));
    }
    for x in [f64::MAX, f64::INFINITY, f64::NEG_INFINITY, f64::NAN] {
        boxes.push((ORIGIN, [x, 1.0, 1.0]));
        boxes.push((ORIGIN, [1.0, x, x]));
        boxes.push(([1.0, 2.0, x], [2.0, 2.5, x]));
    }
    boxes
}

fn points(list: &mut List, random: &mut Random) {
    for b in boxes(random) {
        for n in [2, 4, 8] {
            corner_cases(list, random, b, n);
            leaf_cases(list, random, b, n);
        }
    }
    let b = (full_point(random), full_point(random));
    for n in [16, 64] {
        corner_cases(list, random, b, n);
        leaf_cases(list, random, b, n);
    }
    // Sizes and corners that no node has.
    for n in [0, 1, 3, u32::MAX as u64] {
        for corner in [0, 1, 26, 1 << 20] {
            corner_case(list, b, n, corner, None);
            corner_case(list, (ORIGIN, ORIGIN), n, corner, None);
        }
    }
    for leaf in [1, 3, 5] {
        for p in [0, 1, 26, 124, 125] {
            leaf_case(list, b, leaf, p, None);
        }
    }
}

fn point_answer(rule: Point, known: Option<Point>) -> Vec<u64> {
    if let Some(point) = known {
        assert_eq!(results(&point), results(&rule));
    }
    results(&rule)
}

fn corner_case(list: &mut List, b: Bounds, n: u64, corner: u64, known: Option<Point>) {
    let case = [box_bits(b), vec![n, corner]].concat();
    let answer = point_answer(rules::corner_point(b, n, corner), known);
    list.add("corner", &case, &accepted(answer));
}

fn leaf_case(list: &mut List, b: Bounds, leaf: u64, p: u64, known: Option<Point>) {
    let case = [box_bits(b), vec![leaf, p]].concat();
    let answer = point_answer(rules::leaf_point(b, leaf, p), known);
    list.add("leaf", &case, &accepted(answer));
}

/// A stretch of points in a row.
fn row_case(list: &mut List, word: &str, b: Bounds, n: u64, first: u64, row: &[Point]) {
    let case = [box_bits(b), vec![n, first, row.len() as u64]].concat();
    list.add(word, &case, &accepted(results(&row.concat())));
}

fn corner_cases(list: &mut List, random: &mut Random, b: Bounds, n: u64) {
    let known = inside::corner_points(to_box(b), inside::block(n).unwrap());
    let corners = known.len() as u64;
    for corner in [random.below(corners), corners - 1] {
        corner_case(list, b, n, corner, Some(known[corner as usize]));
    }
    let count = random.between(1, 5) as usize;
    let first = random.below(corners - count as u64) as usize;
    row_case(
        list,
        "corners",
        b,
        n,
        first as u64,
        &known[first..first + count],
    );
}

fn leaf_cases(list: &mut List, random: &mut Random, b: Bounds, leaf: u64) {
    let known = inside::leaf_points(to_box(b), inside::block(leaf).unwrap());
    let points = known.len() as u64;
    for p in [random.below(points), points - 1] {
        leaf_case(list, b, leaf, p, Some(known[p as usize]));
    }
    let count = random.between(1, 5) as usize;
    let first = random.below(points - count as u64) as usize;
    row_case(
        list,
        "leaves",
        b,
        leaf,
        first as u64,
        &known[first..first + count],
    );
}

fn places(list: &mut List, random: &mut Random) {
    for inner in BLOCKS {
        let children = inner.pow(3);
        for c in [0, 1, inner, children - 1, random.below(children)] {
            let places = inside::octet(inside::block(inner).unwrap(), c as usize);
            let answer = places.map(|p| p as u64).to_vec();
            list.add("places", &[inner, c], &accepted(answer));
        }
    }
    // Whole rows of points and corners.
    let b = ([0.5, -1.25, 3.0], [1.5, 0.0, 7.0]);
    let corners = inside::corner_points(to_box(b), inside::block(2).unwrap());
    row_case(list, "corners", b, 2, 0, &corners);
    row_case(list, "corners", b, 2, 0, &[]);
    let leaf = inside::leaf_points(to_box(b), inside::block(4).unwrap());
    row_case(list, "leaves", b, 4, 0, &leaf[..50]);
    row_case(list, "leaves", b, 4, 14, &leaf[14..]);
    row_case(list, "leaves", b, 4, 5, &[]);
}

/// Half the original's distance between a box's ends.
fn half_of(b: Bounds) -> f64 {
    let b = to_box(b);
    b.min.distance_to_vec3(&b.max) / 2.0
}

fn halves(list: &mut List, random: &mut Random) {
    let mut all = boxes(random);
    all.push(([1.0, 2.0, 3.0], [4.0, 6.0, 15.0]));
    all.push((ORIGIN, [1e160, 1e160, 0.0]));
    all.push((ORIGIN, [1e-170, 1e-170, 1e-170]));
    for _ in 0..30 {
        all.push((full_point(random), full_point(random)));
    }
    for b in all {
        list.add("half", &box_bits(b), &[0, result(half_of(b))]);
    }
}

fn octet_of(random: &mut Random) -> [f64; 8] {
    [0; 8].map(|_| full(random))
}

/// The least, the greatest and the mean. The original keeps the first two to
/// itself.
fn extremes_case(list: &mut List, octet: [f64; 8]) {
    let lo = octet[1..].iter().fold(octet[0], |a, &b| min(a, b));
    let hi = octet[1..].iter().fold(octet[0], |a, &b| max(a, b));
    let mean = inside::average(octet);
    let rule = octet.iter().fold(0.0, |a, b| a + b) / 8.0;
    assert_eq!(result(mean), result(rule));
    let answer = [0, result(lo), result(hi), result(mean)];
    list.add("extremes", &bits_of(&octet), &answer);
}

fn extremes(list: &mut List, random: &mut Random) {
    for x in SPECIAL {
        extremes_case(list, [x; 8]);
        let mut first = octet_of(random);
        first[0] = x;
        extremes_case(list, first);
    }
    // One value unlike the others at each place.
    for place in 0..8 {
        for (most, one) in [
            (0.0, -0.0),
            (-0.0, 0.0),
            (1.0, f64::NAN),
            (f64::NAN, 1.0),
            (f64::NAN, -0.0),
            (-2.0, f64::INFINITY),
            (5.0, f64::NEG_INFINITY),
            (f64::MAX, -f64::MAX),
            (TINY, -TINY),
        ] {
            let mut octet = [most; 8];
            octet[place] = one;
            extremes_case(list, octet);
        }
    }
    // The order of the sum shows.
    for _ in 0..10 {
        let mut octet = octet_of(random);
        octet[random.below(8) as usize] = 1e16;
        octet[random.below(8) as usize] = -1e16;
        extremes_case(list, octet);
    }
    for _ in 0..30 {
        extremes_case(list, octet_of(random));
    }
    let inf = f64::INFINITY;
    extremes_case(list, [inf, -inf, 0.0, 0.0, 0.0, 0.0, 0.0, 0.0]);
    extremes_case(list, [1e308, 1e308, -1e308, -1e308, 1.0, 1.0, 1.0, 1.0]);
}

/// Whether a child is pruned. The original has its half diagonal from a box,
/// here one along x.
fn pruned_case(list: &mut List, band: [f64; 2], h: f64, octet: [f64; 8]) {
    let lo = octet[1..].iter().fold(octet[0], |a, &b| min(a, b));
    let hi = octet[1..].iter().fold(octet[0], |a, &b| max(a, b));
    let rule = rules::is_pruned(band[0], band[1], lo, hi, h);
    let b = (ORIGIN, [2.0 * h, 0.0, 0.0]);
    if result(half_of(b)) == result(h) {
        let overlapping = inside::is_overlapping(to_box(b), octet, band[0], band[1]);
        assert_eq!(!overlapping, rule);
    }
    let case = [bits_of(&[band[0], band[1], h]), bits_of(&octet)].concat();
    list.add("pruned", &case, &[0, rule as u64]);
}

fn pruned(list: &mut List, random: &mut Random) {
    // At the limits and on both sides of them.
    for _ in 0..8 {
        let octet = octet_of(random);
        let h = size_of(random);
        let lo = octet.iter().fold(f64::MAX, |a, &b| min(a, b));
        let hi = octet.iter().fold(-f64::MAX, |a, &b| max(a, b));
        for limit in around(hi + h) {
            pruned_case(list, [limit, f64::INFINITY], h, octet);
        }
        for limit in around(lo - h) {
            pruned_case(list, [f64::NEG_INFINITY, limit], h, octet);
        }
        // The least limit above the greatest.
        pruned_case(list, [hi + h, lo - h], h, octet);
        pruned_case(list, [up(hi + h), down(lo - h)], h, octet);
    }
    let quarter = [0.25, 0.5, 0.25, 0.25, 0.5, 0.5, 0.25, 0.25];
    for h in [0.0, -0.0, 0.25, TINY, 1e300] {
        pruned_case(list, [0.5 + h, 1.0], h, quarter);
        pruned_case(list, [up(0.5 + h), 1.0], h, quarter);
        pruned_case(list, [-1.0, 0.25 - h], h, quarter);
        pruned_case(list, [-1.0, down(0.25 - h)], h, quarter);
    }
    // An infinite half diagonal, infinite values, zeros, NaN.
    let inf = f64::INFINITY;
    for h in [inf, f64::MAX, f64::NAN, 1.0, -1.0] {
        for x in [inf, -inf, f64::NAN, -0.0, f64::MAX, -f64::MAX] {
            for band in [[-0.25, 0.0], [inf, -inf], [-inf, inf], [0.0, -0.0]] {
                pruned_case(list, band, h, [x; 8]);
            }
            let mut one = [3.0; 8];
            one[random.below(8) as usize] = x;
            pruned_case(list, [4.5, 5.0], h, one);
            pruned_case(list, [0.0, 1.5], h, one);
        }
    }
    for band in [[f64::NAN, 0.0], [0.0, f64::NAN], [f64::NAN, f64::NAN]] {
        pruned_case(list, band, 0.5, [7.0; 8]);
        pruned_case(list, band, 0.5, [-7.0; 8]);
    }
}

/// A corner list from this many kinds into a list this long. The kinds that
/// are set are `kind`.
fn list_case(list: &mut List, n: u64, lengths: [u64; 2], kind: u64, active: &[bool]) {
    let (word, numbers) = if active.len() > 64 {
        ("longlist", 8)
    } else {
        ("list", 1)
    };
    let mut bits = words(active);
    bits.resize(numbers, 0);
    let case = [vec![n, lengths[0], lengths[1], kind], bits].concat();
    let Some(block) = inside::block(n) else {
        return list.add(word, &case, &[2, 1]);
    };
    let corners = (n + 1).pow(3);
    if lengths[0] != n.pow(3) || lengths[1] < corners {
        return list.add(word, &case, &[6, 1]);
    }
    let set: Vec<bool> = active.iter().map(|&is| is && kind != 0).collect();
    let needed = inside::needed_corners(block, &set);
    let mut flags = vec![false; corners as usize];
    for &corner in &needed {
        flags[corner] = true;
    }
    let numbers = vec![
        needed.len() as u64,
        needed.iter().sum::<usize>() as u64,
        1,
        1,
    ];
    let answer = [numbers, words(&flags)].concat();
    list.add(word, &case, &accepted(answer));
}

fn corner_lists(list: &mut List, random: &mut Random) {
    let kinds = [1, 2, 255];
    // Every set of children of a node of 2, and each child of a node of 4.
    for mask in 0..256u64 {
        let active: Vec<bool> = (0..8).map(|c| mask >> c & 1 == 1).collect();
        let long = 27 + mask % 3;
        list_case(list, 2, [8, long], kinds[mask as usize % 3], &active);
    }
    for c in 0..64 {
        let active: Vec<bool> = (0..64).map(|child| child == c).collect();
        list_case(list, 4, [64, 125], 1, &active);
    }
    for n in [4u64, 8] {
        let (children, corners) = (n.pow(3), (n + 1).pow(3));
        for sparse in [1, 2, 4, 10, 40] {
            for _ in 0..4 {
                let active: Vec<bool> = (0..children).map(|_| random.below(sparse) == 0).collect();
                let kind = random.pick(&kinds);
                let long = corners + random.below(3) * 30;
                list_case(list, n, [children, long], kind, &active);
            }
        }
        list_case(
            list,
            n,
            [children, corners],
            1,
            &vec![false; children as usize],
        );
        list_case(
            list,
            n,
            [children, corners],
            0,
            &vec![true; children as usize],
        );
    }
    // Refused: no block, kinds or list not as they must be, both.
    for n in [0, 1, 3, 5, 6, 7, 9, 12, 65, 128, u32::MAX as u64] {
        list_case(list, n, [8, 27], 1, &[true; 8]);
        list_case(list, n, [0, 0], 1, &[true; 8]);
    }
    for n in [2u64, 4, 8] {
        let (children, corners) = (n.pow(3), (n + 1).pow(3));
        for kinds in [0, children - 1, children, children + 1] {
            for long in [0, corners - 1, corners, corners + 1, 800] {
                list_case(list, n, [kinds, long], 1, &[true, false, true]);
            }
        }
    }
    for n in [16, 32, 64] {
        list_case(list, n, [512, 800], 1, &[true]);
    }
}

/// What open is asked with.
#[derive(Clone, Copy)]
struct Job {
    grid: Grid,
    band: [f64; 2],
    model: Model,
    lengths: Lengths,
}

const ONE_PART: Model = Model {
    count: 1,
    place: 0,
    kind: 5,
    inputs: [0, 0],
};

impl Job {
    /// A job that is lent just what its grid needs, where that can be said.
    fn new(grid: Grid) -> Job {
        let few = grid.counts().iter().all(|&n| n <= rules::MOST_NODES);
        let known = few && rules::is_block(grid.inner) && rules::is_block(grid.leaf);
        Job {
            grid,
            band: [-0.25, 0.0],
            model: ONE_PART,
            lengths: if known {
                rules::lengths_needed(&grid)
            } else {
                [1 << 40; 5]
            },
        }
    }

    fn add(&self, list: &mut List) {
        let (g, m) = (&self.grid, &self.model);
        let model = vec![m.count, m.place, m.kind, m.inputs[0], m.inputs[1]];
        let case = [
            grid_bits(g),
            bits_of(&self.band),
            model,
            self.lengths.to_vec(),
        ]
        .concat();
        let cause = rules::refusal(g, self.band, m, &self.lengths);
        if cause != 0 {
            return list.add("open", &case, &[cause]);
        }
        let counted = [g.nodes() as u64, g.active()];
        if let Some(nodes) = nodes_of(g) {
            let product: usize = nodes.counts().iter().product();
            assert_eq!([product as u64, nodes.active() as u64], counted);
        }
        list.add("open", &case, &accepted(counted.to_vec()));
    }
}

fn unit(inner: u64, leaf: u64) -> Grid {
    grid((ORIGIN, [1.0; 3]), 1.0, inner, leaf)
}

fn opens(list: &mut List, random: &mut Random) {
    for g in special_grids() {
        Job::new(g).add(list);
    }
    for g in grids(random).into_iter().step_by(4) {
        Job::new(g).add(list);
    }
    cause_one(list);
    cause_two(list);
    cause_three(list);
    cause_four(list);
    cause_five(list);
    cause_six(list, random);
    two_causes(list);
}

fn cause_one(list: &mut List) {
    let good = Job::new(grid(([-1.0, 0.5, 2.0], [1.5, 3.0, 2.25]), 0.5, 2, 2));
    good.add(list);
    for axis in 0..3 {
        for x in [f64::NAN, f64::INFINITY, f64::NEG_INFINITY] {
            let (mut low, mut high) = (good, good);
            low.grid.min[axis] = x;
            low.add(list);
            high.grid.max[axis] = x;
            high.add(list);
        }
        // The highest point at the lowest, and one float on both sides.
        for most in around(good.grid.min[axis]) {
            let mut job = good;
            job.grid.max[axis] = most;
            job.lengths = [1 << 20; 5];
            job.add(list);
        }
        let mut zeros = good;
        zeros.grid.min[axis] = 0.0;
        zeros.grid.max[axis] = -0.0;
        zeros.lengths = [1 << 20; 5];
        zeros.add(list);
    }
    let mut cells = SPECIAL.to_vec();
    cells.extend([-TINY, down(0.0), 0.25, 1.0]);
    for cell in cells {
        let mut job = Job::new(grid((ORIGIN, ORIGIN), cell, 2, 2));
        job.lengths = [1 << 20; 5];
        job.add(list);
    }
}

fn cause_two(list: &mut List) {
    let sizes = [
        0, 1, 2, 3, 4, 5, 7, 8, 9, 15, 16, 17, 31, 32, 33, 63, 64, 65, 128,
    ];
    for n in sizes.into_iter().chain([1 << 31, u32::MAX as u64]) {
        Job::new(grid((ORIGIN, ORIGIN), 1.0, n, 2)).add(list);
        Job::new(grid((ORIGIN, ORIGIN), 1.0, 2, n)).add(list);
    }
}

fn cause_three(list: &mut List) {
    let limits = [0.0, -0.0, 1.0, f64::INFINITY, f64::NEG_INFINITY, f64::NAN];
    for low in limits {
        for high in limits {
            let mut job = Job::new(unit(2, 2));
            job.band = [low, high];
            job.add(list);
        }
    }
}

fn cause_four(list: &mut List) {
    let good = Job::new(unit(2, 2));
    for count in [0, 1, 2, 63, 64, 65, 66, u32::MAX as u64] {
        let mut job = good;
        job.model.count = count;
        job.add(list);
    }
    // An input below its part's place, at it and past it, the first or the
    // second one.
    for kind in 0..=4 {
        for place in [0u64, 1, 63] {
            for far in [place.saturating_sub(1), place, u32::MAX as u64] {
                for inputs in [[far, 0], [0, far]] {
                    let mut job = good;
                    job.model = Model {
                        count: place + 1,
                        place,
                        kind,
                        inputs,
                    };
                    job.add(list);
                }
            }
        }
    }
    // A part past the last is none.
    for place in [1, 2, 63] {
        let mut job = good;
        job.model = Model {
            count: place,
            place,
            kind: 0,
            inputs: [place, place],
        };
        job.add(list);
    }
}

fn cause_five(list: &mut List) {
    // A node's size at the end of the floats.
    for (cell, leaf) in [(f64::MAX, 2), (f64::MAX / 2.0, 2), (up(f64::MAX / 2.0), 2)] {
        Job::new(grid((ORIGIN, ORIGIN), cell, 2, leaf)).add(list);
    }
    for (inner, leaf) in [(64, 64), (64, 2), (2, 64)] {
        let steps = (inner * (leaf - 1)) as f64;
        for cell in around(f64::MAX / steps) {
            Job::new(grid((ORIGIN, ORIGIN), cell, inner, leaf)).add(list);
        }
    }
    // 1,024 nodes on each axis, and 1,025.
    for axis in 0..3 {
        for m in [1023.0, 1024.0, 1025.0] {
            for extent in around(m * 2.0) {
                let mut max = ORIGIN;
                max[axis] = extent;
                Job::new(grid((ORIGIN, max), 1.0, 2, 2)).add(list);
            }
        }
    }
    // All children at the limit and above it.
    for inner in BLOCKS {
        let side = (256 / inner) as f64;
        for sides in [
            [side, side, side],
            [side, side, side + 1.0],
            [side, side + 1.0, side],
            [side + 1.0, side, side],
            [2.0 * side, side, side / 2.0],
        ] {
            let s = inner as f64;
            Job::new(grid((ORIGIN, sides.map(|n| n * s)), 1.0, inner, 2)).add(list);
        }
    }
    for counts in [[1024.0, 1024.0, 2.0], [1024.0, 1024.0, 3.0], [1024.0; 3]] {
        Job::new(grid((ORIGIN, counts.map(|n| 2.0 * n)), 1.0, 2, 2)).add(list);
    }
    // Quotients past every count.
    for (least, most) in [(0.0, f64::MAX), (-f64::MAX, f64::MAX), (0.0, 1e19)] {
        Job::new(grid(([least; 3], [most; 3]), 1.0, 2, 2)).add(list);
        Job::new(grid(([least, 0.0, 0.0], [most, 1.0, 1.0]), TINY, 2, 2)).add(list);
    }
}

fn cause_six(list: &mut List, random: &mut Random) {
    let coarse = f64::from_bits(0x4340_0000_0000_0000);
    let o = full_point(random);
    let grids = [
        unit(2, 2),
        unit(4, 2),
        grid((ORIGIN, ORIGIN), 1.0, 2, 2),
        grid((ORIGIN, [1.0, 0.0, 5.0]), 0.25, 4, 4),
        grid((o, o.map(|x| x + 3.7)), 0.3, 2, 8),
        grid((ORIGIN, [1.0; 3]), 0.01, 8, 2),
        grid((ORIGIN, [100.0, 1.0, 1.0]), 1.0, 64, 4),
        grid(([coarse; 3], [coarse; 3]), 0.25, 2, 2),
        // No active child: the store may have any length.
        grid(
            (
                [f64::from_bits(0x7fe1_ccf3_85eb_c8a0); 3],
                [f64::from_bits(0x7fe1_ccf3_85eb_c8a0); 3],
            ),
            f64::from_bits(0x7fdf_ffff_ffff_ffff),
            2,
            2,
        ),
    ];
    for g in grids {
        let job = Job::new(g);
        job.add(list);
        for slice in 0..5 {
            let needed = job.lengths[slice];
            for long in [needed.saturating_sub(1), needed + 1] {
                let mut other = job;
                other.lengths[slice] = long;
                other.add(list);
            }
        }
        for lengths in [job.lengths.map(|n| n + 7), [0; 5], [u64::MAX; 5]] {
            let mut other = job;
            other.lengths = lengths;
            other.add(list);
        }
    }
}

/// Each two causes at once, and all six.
fn two_causes(list: &mut List) {
    let apply = |job: &mut Job, cause: u64| match cause {
        1 => job.grid.cell = -1.0,
        2 => job.grid.leaf = 3,
        3 => job.band[1] = f64::NAN,
        4 => job.model.count = 0,
        5 => job.grid.max[1] = 1e9,
        _ => job.lengths[4] = 0,
    };
    for first in 1..=6 {
        for second in first..=6 {
            let mut job = Job::new(unit(2, 2));
            job.lengths = [1 << 20; 5];
            apply(&mut job, first);
            apply(&mut job, second);
            job.add(list);
        }
    }
    for first in 1..=6 {
        let mut job = Job::new(unit(2, 2));
        for cause in first..=6 {
            apply(&mut job, cause);
        }
        job.add(list);
    }
}
