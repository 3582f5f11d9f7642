//! What iterators say of their sizes, what a field holds, and the version.

use jisampode::{
    version, Active, Bounds, Cells, DenseField, Dimensions, Field, Leaves, OwnedMemory, Points,
};

use crate::jobs::{case, large};

/// That `size_hint` is right at every step, and exact where `exact` says so.
fn hints<I: Iterator + Clone>(mut walk: I, exact: bool) {
    loop {
        let (least, most) = walk.size_hint();
        let count = walk.clone().count();
        assert!(least <= count && most.map_or(true, |most| count <= most));
        assert!(!exact || (least, most) == (count, Some(count)));
        if walk.next().is_none() {
            break;
        }
    }
}

#[test]
fn walks() {
    let bounds = Bounds::new([0.0; 3], [1.0; 3]);
    let n = Dimensions::new(4, 3, 2);
    hints(Points::new(bounds, n).unwrap(), true);
    hints(Cells::new(bounds, n).unwrap(), true);
    hints(Points::starting_at(bounds, n, [1, 2, 0]).unwrap(), true);
    hints(Points::starting_at(bounds, n, [3, 2, 7]).unwrap(), true);
    let mut values = [0.0; 24];
    let field = DenseField::new(n, &mut values).unwrap();
    hints(field.octets(), true);
    hints(field.octets_from([1, 1, 0]).unwrap(), true);
    let flat = DenseField::new(Dimensions::new(4, 6, 1), &mut values).unwrap();
    hints(flat.octets(), true);
}

#[test]
fn a_walk_beyond_a_usize() {
    let most = 16_777_216;
    let bounds = Bounds::new([0.0; 3], [1.0; 3]);
    let walk = Cells::new(bounds, Dimensions::new(most, most, most)).unwrap();
    assert_eq!(walk.size_hint(), (0, None));
}

#[test]
fn one_version() {
    let header = include_str!("../../../include/jisampode.h");
    let part = |name: &str| -> u32 {
        let line = format!("#define JISAMPODE_VERSION_{name} ");
        let rest = header.split(&line).nth(1).unwrap();
        rest.lines().next().unwrap().parse().unwrap()
    };
    let (major, minor, patch) = (part("MAJOR"), part("MINOR"), part("PATCH"));
    assert_eq!(version(), major * 10_000 + minor * 100 + patch);
    assert_eq!(
        env!("CARGO_PKG_VERSION"),
        format!("{major}.{minor}.{patch}")
    );
}

/// A function of one's own can name what it hands back.
fn both<'a>(field: Field<'a>) -> (Active<'a>, Leaves<'a>) {
    (field.active(), field.leaves())
}

#[test]
fn fields() {
    let mut memory = OwnedMemory::for_job(&large()).unwrap();
    let mut job = large().open(memory.lend()).unwrap();
    for budget in [0, 3000, u64::MAX] {
        job.step(budget).unwrap();
        let (active, leaves) = both(job.field());
        assert_eq!(active.clone().count() as u64, job.counts().active);
        assert_eq!(leaves.clone().count() as u64, job.counts().leaves);
    }
    let mut memory = OwnedMemory::for_job(&case()).unwrap();
    let mut job = case().open(memory.lend()).unwrap();
    job.finish().unwrap();
    let (active, leaves) = both(job.field());
    hints(active, false);
    hints(leaves, false);
}
