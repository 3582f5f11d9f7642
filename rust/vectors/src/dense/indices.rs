//! The index of a grid point both ways: `place I J K NX NY NZ`, answered by
//! the refusal and the place; `indices PLACE NX NY NZ`, answered by the refusal
//! and the three indices.

use super::*;

pub fn write(list: &mut List) {
    let fields = [
        [1, 1, 1],
        [2, 1, 1],
        [1, 3, 1],
        [1, 1, 4],
        [2, 3, 2],
        [3, 3, 3],
        [4, 1, 2],
    ];
    for n in fields {
        for at in all_below(n) {
            place(list, at, n);
        }
        for at in 0..n[0] * n[1] * n[2] {
            indices(list, at, n);
        }
        outside(list, n);
    }
    large(list);
    for n in refused_dimensions() {
        place(list, [0, 0, 0], n);
        place(list, [usize::MAX; 3], n);
        indices(list, 0, n);
        indices(list, usize::MAX, n);
    }
}

fn place(list: &mut List, at: Triple, n: Triple) {
    let answer = if dimensions_refused(n) {
        Row::new().count(9)
    } else if (0..3).any(|axis| at[axis] >= n[axis]) {
        Row::new().count(10)
    } else {
        Row::new().count(0).count(original::dense::place(at, n))
    };
    put(list, "place", Row::new().counts(at).counts(n), answer);
}

fn indices(list: &mut List, at: usize, n: Triple) {
    let answer = if dimensions_refused(n) {
        Row::new().count(9)
    } else if at >= n[0] * n[1] * n[2] {
        Row::new().count(10)
    } else {
        Row::new().count(0).counts(original::dense::indices(at, n))
    };
    put(list, "indices", Row::new().count(at).counts(n), answer);
}

fn outside(list: &mut List, n: Triple) {
    for axis in 0..3 {
        for far in [n[axis], 1 << 32, usize::MAX] {
            place(list, with_count([0, 0, 0], axis, far), n);
        }
    }
    place(list, n, n);
    let points = n[0] * n[1] * n[2];
    for far in [points, points + 1, 1 << 32, usize::MAX] {
        indices(list, far, n);
    }
}

/// The largest fields: their last points, and the places after them.
fn large(list: &mut List) {
    for n in [
        [MOST, 1, 1],
        [1, MOST, 1],
        [1, 1, MOST],
        [4096, 4096, 1],
        [256, 256, 256],
        [2, 8388608, 1],
        [3, 5, 1118481],
    ] {
        let last = n.map(|n| n - 1);
        place(list, last, n);
        indices(list, original::dense::place(last, n), n);
        place(list, last.map(|i| i / 2), n);
        indices(list, original::dense::place(last.map(|i| i / 2), n), n);
        outside(list, n);
    }
}
