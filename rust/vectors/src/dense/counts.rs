//! Point counts from bounds and a cell's size:
//! `count MIN MIN MIN MAX MAX MAX CELL`, answered by the refusal and the three
//! counts.

use super::*;

pub fn write(list: &mut List, random: &mut Random) {
    multiples(list, random);
    limits(list);
    refused(list);
    far_and_near(list);
}

pub fn case(list: &mut List, bounds: Bounds, cell: f64) {
    let refused = count_refusal(bounds, cell);
    let mut answer = Row::new().count(refused);
    if refused == 0 {
        let n = original::dense::point_count(&bounding_box(bounds), cell);
        answer = answer.counts([n.i, n.j, n.k]);
    }
    put(
        list,
        "count",
        Row::new().bounds(bounds).floats(&[cell]),
        answer,
    );
}

/// Extents at whole multiples of the cell, and the floats on both sides.
fn multiples(list: &mut List, random: &mut Random) {
    for cell in [1.0, 0.5, 0.1, 0.3, 1.0 / 3.0, 7.0, 1e-5] {
        for times in [1.0, 2.0, 3.0, 10.0, 49.0] {
            let extent = cell * times;
            case(list, [ORIGIN, [below(extent), extent, above(extent)]], cell);
        }
    }
    // The extent is itself rounded.
    for (min, max) in [(0.1, 0.7), (0.7, 1.0), (-0.3, 0.3), (1.1, 1.4)] {
        case(list, [[min, 0.0, min], [max, max, min]], 0.1);
    }
    case(list, [ORIGIN, ORIGIN], 1.0);
    case(list, [[0.0, 1.0, 2.0], [0.0, 2.0, 4.0]], 1.0);
    for _ in 0..30 {
        let bounds = full_bounds(random);
        let cell = full(random).abs() / 16.0;
        case(list, bounds, cell);
    }
}

/// 16,777,216 points and one more.
fn limits(list: &mut List) {
    let most = MOST as f64;
    for axis in 0..3 {
        for extent in [most - 1.0, below(most), most, above(most), most + 1.0] {
            case(list, [ORIGIN, with(ORIGIN, axis, extent)], 1.0);
        }
        case(list, [ORIGIN, with([255.0; 3], axis, 256.0)], 1.0);
        case(list, [ORIGIN, with([255.0; 3], axis, below(256.0))], 1.0);
        case(list, [ORIGIN, with([4095.0; 3], axis, 0.0)], 1.0);
        case(list, [ORIGIN, with([4096.0; 3], axis, 0.0)], 1.0);
        // Counts whose product wraps in 64 bits.
        case(list, [ORIGIN, with([4294967295.0; 3], axis, 0.0)], 1.0);
    }
    case(list, [ORIGIN, [255.0; 3]], 1.0);
    case(list, [ORIGIN, [0.75 * 255.0; 3]], 0.75);
    case(list, [ORIGIN, [16777214.0, 0.5, 0.5]], 1.0);
    case(list, [ORIGIN, [8388607.0, 1.0, 0.0]], 1.0);
    case(list, [ORIGIN, [8388608.0, 1.0, 0.0]], 1.0);
}

fn refused(list: &mut List) {
    let unit = [1.0; 3];
    for axis in 0..3 {
        for x in NOT_FINITE {
            case(list, [with(ORIGIN, axis, x), unit], 1.0);
            case(list, [ORIGIN, with(unit, axis, x)], 1.0);
        }
        // Max below min, and equal to it.
        case(list, [with(ORIGIN, axis, above(1.0)), unit], 1.0);
        case(list, [with(ORIGIN, axis, 2.0), unit], 0.25);
        case(list, [with(ORIGIN, axis, 1.0), unit], 1.0);
        case(list, [ORIGIN, with(unit, axis, -5e-324)], 1.0);
        case(list, [ORIGIN, with(unit, axis, -1e300)], 1e-300);
        case(list, [ORIGIN, with(unit, axis, -0.0)], 1.0);
    }
    case(list, [[f64::INFINITY; 3], [f64::INFINITY; 3]], 1.0);
    case(list, [[f64::NEG_INFINITY; 3], [f64::INFINITY; 3]], 1.0);
    for cell in REFUSED_CELLS {
        case(list, [ORIGIN, unit], cell);
        case(list, [ORIGIN, ORIGIN], cell);
        // 1 comes before 9.
        case(list, [ORIGIN, [1e300; 3]], cell);
    }
}

/// Huge and tiny cells and extents, infinite extents and quotients.
fn far_and_near(list: &mut List) {
    let tiny = f64::from_bits(SMALLEST);
    let normal = f64::from_bits(SMALLEST_NORMAL);
    for cell in [tiny, normal, 1e-300, 1e300, f64::MAX] {
        for extent in [0.0, tiny, 3.0 * tiny, normal, 1.0, 1e300, f64::MAX] {
            case(list, [ORIGIN, [extent, 0.0, 0.0]], cell);
        }
    }
    for cell in [1.0, 1e308, f64::MAX] {
        case(list, [[-1e308; 3], [1e308; 3]], cell);
        case(list, [[-f64::MAX, 0.0, 0.0], [f64::MAX, 1.0, 1.0]], cell);
    }
    let large = 9007199254740992.0;
    case(list, [[large; 3], [large + 2.0; 3]], 1.0);
    case(list, [[large; 3], [large + 2.0; 3]], 0.25);
}
