//! The lengths that a job needs: just these are enough, and none can be less.

use jisampode::{Bounds, JobBuilder, Lengths, OwnedMemory, Refusal};

use crate::jobs::case;

fn opens(builder: &JobBuilder, lengths: Lengths) -> bool {
    let mut memory = OwnedMemory::new(lengths);
    let opened = builder.open(memory.lend());
    match opened {
        Ok(_) => true,
        Err(refused) => {
            assert_eq!(refused, Refusal::Short);
            false
        }
    }
}

/// Lengths with one element less in one slice.
fn shorter(of: Lengths) -> [Lengths; 5] {
    let (kinds, numbers, places) = (of.kinds - 1, of.numbers - 1, of.places - 1);
    let (store, corners) = (of.store - 1, of.corners - 1);
    [
        Lengths { kinds, ..of },
        Lengths { numbers, ..of },
        Lengths { places, ..of },
        Lengths { store, ..of },
        Lengths { corners, ..of },
    ]
}

#[test]
fn the_case() {
    let lengths = Lengths {
        kinds: 8,
        numbers: 8,
        places: 8,
        store: 64,
        corners: 27,
    };
    assert_eq!(case().lengths(), Ok(lengths));
}

/// That just the lengths that the builder names are enough.
fn exact(builder: &JobBuilder) {
    let lengths = builder.lengths().unwrap();
    assert!(opens(builder, lengths));
    assert!(!shorter(lengths).iter().any(|&less| opens(builder, less)));
}

#[test]
fn many_grids() {
    // Ends at a node's border, one float beside it, and in between.
    let extents = [0.0, 0.3, 1.0, 2.0, 2.0000000000000004, 5.9, 6.0, 11.1];
    let starts = [0.0, -3.7, 1e6 + 0.1];
    let blocks = [(2, 2), (4, 2), (2, 4), (8, 2)];
    for (case_number, extent) in (0..).zip(extents) {
        for start in starts {
            let min = [start, -start, 0.1];
            let sizes = [extent, extents[(case_number + 3) % 8], 1.7];
            let max = [0, 1, 2].map(|axis| min[axis] + sizes[axis]);
            for (inner, leaf) in blocks {
                for cell in [1.0, 0.7] {
                    let bounds = Bounds::new(min, max);
                    exact(&case().bounds(bounds).cell(cell).blocks(inner, leaf));
                }
            }
        }
    }
}

#[test]
fn far_from_the_origin() {
    // Floats are 2 apart from 2⁵³ on, and 16 apart at 10¹⁷: steps are rounded, and
    // children touch that would not.
    for start in [9007199254740992.0, 1e17] {
        for cell in [0.25, 1.25, 1.5, 40.0] {
            for extent in [0.0, 2.0, 100.0] {
                let bounds = Bounds::new([start, 0.0, -start], [start + extent, 1.0, -start]);
                exact(&case().bounds(bounds).cell(cell).blocks(4, 2));
            }
        }
    }
}

#[test]
fn room_for_either() {
    let wide = case().bounds(Bounds::new([0.0; 3], [20.0, 1.0, 1.0]));
    let fine = case().blocks(2, 16);
    let lengths = wide.lengths().unwrap();
    let both = lengths.greater(fine.lengths().unwrap());
    assert!(opens(&wide, both));
    assert!(opens(&fine, both));
    assert!(!opens(&fine, lengths));
}
