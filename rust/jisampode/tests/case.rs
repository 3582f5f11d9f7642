//! The plane case, `(done 1 8 4 32 59)`, with all its values.

use jisampode::{Child, Counts, Cursor, OwnedMemory};

use crate::jobs::case;

/// The numbers of the done line.
fn numbers(counts: Counts) -> [u64; 5] {
    [
        counts.nodes,
        counts.active,
        counts.leaves,
        counts.sampled,
        counts.evaluations,
    ]
}

#[test]
fn counts_and_values() {
    let mut memory = OwnedMemory::for_job(&case()).unwrap();
    let mut job = case().open(memory.lend()).unwrap();
    assert_eq!(job.finish().map(numbers), Ok([1, 8, 4, 32, 59]));
    assert_eq!(numbers(job.counts()), [1, 8, 4, 32, 59]);
    assert_eq!(job.cursor(), Cursor::End);

    let field = job.field();
    assert_eq!(field.nodes(), 1);
    assert_eq!(field.children_of_node(), 8);
    assert_eq!(field.points_of_leaf(), 8);
    assert_eq!(field.kinds(), [2, 1, 2, 1, 2, 1, 2, 1]);
    let values = [0.0, 1.0, 0.0, 1.0, 0.0, 1.0, 0.0, 1.0];
    for child in [0, 2, 4, 6] {
        assert_eq!(field.child(0, child), Some(Child::Leaf(&values)));
        assert_eq!(field.child(0, child + 1), Some(Child::Constant(1.5)));
    }
    assert_eq!(field.child(0, 8), None);
    assert_eq!(field.child(1, 0), None);

    let leaves: Vec<_> = field.leaves().collect();
    assert_eq!(leaves, [0, 2, 4, 6].map(|child| (0, child, &values[..])));
    assert_eq!(field.active().count(), 8);

    assert_eq!(job.memory().places, [0, 0, 1, 0, 2, 0, 3, 0]);
    assert_eq!(job.memory().store[..32], values.repeat(4));
    assert_eq!(job.memory().store[32..], [0.0; 32]);
    assert_eq!(job.memory().corners, [0.0; 27]);
}

#[test]
fn the_field_on_the_way() {
    let mut memory = OwnedMemory::for_job(&case()).unwrap();
    let mut job = case().open(memory.lend()).unwrap();
    assert_eq!(job.cursor(), Cursor::Corner { node: 0, corner: 0 });
    assert!(job
        .field()
        .active()
        .all(|(_, _, child)| child == Child::Undecided));

    // 27 corners, then three points of the first leaf.
    job.step(30).unwrap();
    let (node, child, point) = (0, 0, 3);
    assert_eq!(job.cursor(), Cursor::Point { node, child, point });
    let begun = [0.0, 1.0, 0.0, 0.0, 0.0, 0.0, 0.0, 0.0];
    assert_eq!(job.field().child(0, 0), Some(Child::Leaf(&begun)));
    assert_eq!(job.field().child(0, 1), Some(Child::Undecided));

    // Its other five, and the first of the next leaf.
    job.step(6).unwrap();
    assert_eq!(job.field().child(0, 1), Some(Child::Constant(1.5)));
    assert_eq!(job.field().child(0, 3), Some(Child::Undecided));
    assert_eq!(job.counts().leaves, 2);
}
