//! Cases whose results are known: the plane case, and those that its
//! measurements and the differences name.

use crate::floats::NAN;
use crate::grid::{cause, Grid};
use crate::record::{Cursor, Record};
use crate::schedule::Site;
use crate::{Answer, Call, Counts, Input, Ledger, Lengths, Memory, Part};

const X_PLANE: Part = Part::Plane([1.0, 0.0, 0.0], 0.0);

/// The plane case with other bounds, cell and blocks.
fn input(min: [f64; 3], max: [f64; 3], cell: f64, inner: u32, leaf: u32) -> Input {
    Input {
        min,
        max,
        cell,
        inner,
        leaf,
        band_min: -0.25,
        band_max: 0.0,
        count: 1,
        parts: vec![X_PLANE],
    }
}

fn plane_case() -> Input {
    input([0.0; 3], [2.0; 3], 1.0, 2, 2)
}

fn lengths(children: u64, store: u64, corners: u64) -> Lengths {
    Lengths {
        kinds: children,
        numbers: children,
        places: children,
        store,
        corners,
    }
}

/// Memory with no element 0.
fn poisoned(lengths: Lengths) -> Memory {
    let mut memory = Memory::zero(lengths);
    memory.kinds.fill(9);
    memory.numbers.fill(f64::NAN);
    memory.places.fill(7);
    memory.store.fill(-1.0);
    memory.corners.fill(f64::INFINITY);
    memory
}

fn counts([nodes, active, leaves, sampled, evaluations]: [u64; 5]) -> Counts {
    Counts {
        nodes,
        active,
        leaves,
        sampled,
        evaluations,
    }
}

/// A list of an open and one step to the end.
fn finished(input: &Input, lengths: Lengths) -> Ledger {
    let mut ledger = Ledger::new(poisoned(lengths));
    assert_eq!(ledger.call(&Call::Open(input.clone())), Answer::Accepted);
    assert_eq!(ledger.call(&Call::Step(u64::MAX)), Answer::Accepted);
    assert_eq!(ledger.finished(), Some(true));
    ledger
}

#[test]
fn the_plane_case() {
    let ledger = finished(&plane_case(), lengths(8, 64, 27));
    assert_eq!(ledger.counts(), Some(counts([1, 8, 4, 32, 59])));
    let memory = ledger.elements();
    assert_eq!(memory.kinds, [2, 1, 2, 1, 2, 1, 2, 1]);
    assert_eq!(memory.numbers, [0.0, 1.5, 0.0, 1.5, 0.0, 1.5, 0.0, 1.5]);
    assert_eq!(memory.places, [0, 0, 1, 0, 2, 0, 3, 0]);
    let leaves: Vec<f64> = (0..32).map(|p| f64::from(p % 2)).collect();
    assert_eq!(memory.store[..32], leaves[..]);
    assert!(memory.store[32..].iter().all(|&x| x == 0.0));
    assert!(memory.corners.iter().all(|&x| x == 0.0));
}

#[test]
fn budgets_add_up() {
    let mut one = Ledger::new(poisoned(lengths(9, 70, 30)));
    let mut other = Ledger::new(Memory::zero(lengths(9, 70, 30)));
    let open = Call::Open(plane_case());
    one.call(&open);
    other.call(&open);
    for k in 0..59 {
        assert_eq!(one.counts().map(|c| c.evaluations), Some(k));
        assert_eq!(one.finished(), Some(false));
        let mut whole = Ledger::new(poisoned(lengths(9, 70, 30)));
        whole.call(&open);
        whole.call(&Call::Step(k));
        assert!(one.elements().same_bits(&whole.elements()));
        one.call(&Call::Step(1));
    }
    assert_eq!(one.finished(), Some(true));
    other.call(&Call::Step(u64::MAX));
    assert!(one.elements().same_bits(&other.elements()));
}

#[test]
fn drops_and_refusals() {
    let mut ledger = Ledger::new(poisoned(lengths(8, 64, 27)));
    let before = ledger.elements();
    assert_eq!(ledger.call(&Call::Step(5)), Answer::Refused(7));
    let mut bad = plane_case();
    bad.cell = 0.0;
    assert_eq!(ledger.call(&Call::Open(bad)), Answer::Refused(1));
    assert!(ledger.elements().same_bits(&before));
    ledger.call(&Call::Open(plane_case()));
    ledger.call(&Call::Step(30));
    ledger.call(&Call::Drop);
    assert_eq!(ledger.counts(), None);
    let zero = Memory::zero(lengths(8, 64, 27));
    assert!(ledger.elements().same_bits(&zero));
}

#[test]
fn active_children_and_needed_corners() {
    let active = |input: &Input| Grid::new(input).active_total();
    let needed = |input: &Input| {
        let needed = Grid::new(input).needed(0);
        needed.into_iter().filter(|&is| is).count()
    };
    assert_eq!(active(&input([0.0; 3], [1.0; 3], 1.0, 2, 2)), 8);
    let four = input([0.0; 3], [1.0; 3], 1.0, 4, 2);
    assert_eq!((active(&four), needed(&four)), (8, 27));
    let point = input([0.0; 3], [0.0; 3], 1.0, 2, 2);
    assert_eq!((active(&point), needed(&point)), (1, 8));
}

#[test]
fn nodes_along_an_axis() {
    let nodes = |extent: f64| {
        let max = [extent, 0.0, 0.0];
        Grid::new(&input([0.0; 3], max, 1.0, 2, 2)).nodes()
    };
    assert_eq!(nodes(2.0), 1);
    assert_eq!(nodes(f64::from_bits(2.0f64.to_bits() + 1)), 2);
    let refused = |extent: f64| {
        let max = [extent, 0.0, 0.0];
        cause(
            &input([0.0; 3], max, 1.0, 2, 2),
            lengths(1 << 14, 1 << 17, 27),
        )
    };
    assert_eq!(refused(2048.0), None);
    assert_eq!(refused(2049.0), Some(5));
}

/// A grid of one node with eight active children, all corners the same.
fn constant(value: f64, band_min: f64, band_max: f64) -> Memory {
    let mut input = input([0.0; 3], [1.0; 3], 1.0, 2, 2);
    input.parts = vec![Part::Const(value)];
    input.band_min = band_min;
    input.band_max = band_max;
    finished(&input, lengths(8, 64, 27)).elements()
}

#[test]
fn pruning() {
    let h = 3.0f64.sqrt() / 2.0;
    // hi + h equal to min_val
    assert_eq!(constant(0.0, h, h).kinds, [2; 8]);
    let above = f64::from_bits(h.to_bits() + 1);
    assert_eq!(constant(0.0, above, above).kinds, [1; 8]);
    // eight NaN corners, and their copied bits
    let odd = f64::from_bits(0xfff0_0000_0000_1234);
    let memory = constant(odd, 5.0, 5.0);
    assert_eq!(memory.kinds, [2; 8]);
    assert!(memory.store.iter().all(|x| x.to_bits() == odd.to_bits()));
    // eight -0 corners, pruned
    let memory = constant(-0.0, 5.0, 5.0);
    assert_eq!(memory.kinds, [1; 8]);
    assert!(memory.numbers.iter().all(|x| x.to_bits() == 0));
    // a sum of infinities of both signs is none here, but an overflow is
    assert_eq!(constant(f64::MAX, 0.0, 0.0).numbers, [f64::INFINITY; 8]);
}

#[test]
fn computed_nans_have_one_pattern() {
    let mut input = input([0.0; 3], [1.0; 3], 1.0, 2, 2);
    input.parts = vec![Part::Const(f64::INFINITY), Part::Sub(0, 0)];
    input.count = 2;
    let memory = finished(&input, lengths(8, 64, 27)).elements();
    assert!(memory.store.iter().all(|x| x.to_bits() == NAN));
}

#[test]
fn infinite_node_ends() {
    let x = f64::from_bits(0x7fe1_ccf3_85eb_c8a0);
    let huge = input([x; 3], [x; 3], f64::from_bits(0x7fdf_ffff_ffff_ffff), 2, 2);
    let ledger = finished(&huge, lengths(8, 0, 27));
    assert_eq!(ledger.counts(), Some(counts([1, 0, 0, 0, 0])));

    let cell = f64::from_bits(0x7fd0_0000_0000_0000);
    let long = input([0.0; 3], [f64::MAX, 0.0, 0.0], cell, 2, 2);
    let ledger = finished(&long, lengths(16, 16, 27));
    assert_eq!(ledger.counts(), Some(counts([2, 2, 2, 16, 28])));
}

#[test]
fn a_node_below_the_spacing_of_its_place() {
    let x = f64::from_bits(0x4340_0000_0000_0000);
    let input = input([x; 3], [x; 3], 0.25, 2, 2);
    assert_eq!(Grid::new(&input).active_total(), 8);
    assert_eq!(cause(&input, lengths(8, 63, 27)), Some(6));
    assert_eq!(cause(&input, lengths(8, 64, 27)), None);
}

#[test]
fn causes_in_order() {
    let long = lengths(8, 64, 27);
    let mut all = plane_case();
    all.band_max = f64::NAN;
    all.count = 0;
    all.inner = 3;
    all.cell = f64::INFINITY;
    assert_eq!(cause(&all, long), Some(1));
    all.cell = 1e300;
    assert_eq!(cause(&all, long), Some(2));
    all.inner = 64;
    all.leaf = 64;
    assert_eq!(cause(&all, long), Some(3));
    all.band_max = 0.0;
    assert_eq!(cause(&all, long), Some(4));
    all.count = 65;
    assert_eq!(cause(&all, long), Some(4));
    all.count = 1;
    all.parts = vec![Part::Neg(0)];
    assert_eq!(cause(&all, long), Some(4));
    all.parts = vec![X_PLANE];
    all.cell = f64::MAX;
    assert_eq!(cause(&all, long), Some(5));
    all.cell = 1.0;
    assert_eq!(cause(&all, long), Some(6));
    assert_eq!(cause(&plane_case(), long), None);
    for short in [lengths(7, 64, 27), lengths(8, 63, 27), lengths(8, 64, 26)] {
        assert_eq!(cause(&plane_case(), short), Some(6));
    }
}

/// The plane case after so many evaluations, as a record.
fn record_at(k: u64) -> (Record, Memory) {
    let mut memory = poisoned(lengths(9, 70, 30));
    let mut record = Record::none();
    record.call(&Call::Open(plane_case()), &mut memory);
    record.call(&Call::Step(k), &mut memory);
    (record, memory)
}

#[test]
fn a_record_goes_the_way_of_the_ledger() {
    for k in 0..60 {
        let (record, memory) = record_at(k);
        let mut ledger = Ledger::new(poisoned(lengths(9, 70, 30)));
        ledger.call(&Call::Open(plane_case()));
        ledger.call(&Call::Step(k));
        assert_eq!(ledger.counts(), Some(record.counts));
        assert_eq!(ledger.finished(), Some(record.finished()));
        assert!(ledger.elements().same_bits(&memory));
        assert!(!record.impossible(&memory));
    }
}

#[test]
fn cursors() {
    assert_eq!(record_at(0).0.cursor, Cursor::At(Site::Corner(0, 0)));
    assert_eq!(record_at(26).0.cursor, Cursor::At(Site::Corner(0, 26)));
    assert_eq!(record_at(27).0.cursor, Cursor::At(Site::Point(0, 0, 0)));
    assert_eq!(record_at(35).0.cursor, Cursor::At(Site::Point(0, 2, 0)));
    assert_eq!(record_at(59).0.cursor, Cursor::End);
}

#[test]
fn impossible_records() {
    let (record, memory) = record_at(35);
    let judged = |change: &dyn Fn(&mut Record)| {
        let mut forged = record.clone();
        change(&mut forged);
        forged.impossible(&memory)
    };
    assert!(!judged(&|_| ()));
    assert!(judged(&|r| r.counts.nodes = 2));
    assert!(judged(&|r| r.counts.active = 7));
    assert!(judged(&|r| r.counts.sampled = 17));
    assert!(!judged(&|r| r.counts.evaluations = 27 + 64));
    assert!(judged(&|r| r.counts.evaluations = 27 + 64 + 1));
    assert!(judged(&|r| r.lengths.corners = 27));
    assert!(judged(&|r| r.input.leaf = 4));
    // child 2 is the third, so three leaves pass
    let leaves = |n: u64| {
        judged(&|r| {
            r.counts.leaves = n;
            r.counts.sampled = n.wrapping_mul(8);
        })
    };
    assert!(leaves(0));
    assert!(!leaves(1));
    assert!(!leaves(3));
    assert!(leaves(4));
    // sampled wraps to 0
    assert!(leaves(1 << 61));
    let at = |site: Site| judged(&|r| r.cursor = Cursor::At(site));
    assert!(at(Site::Corner(0, 0)));
    assert!(at(Site::Point(0, 0, 0)));
    assert!(!at(Site::Point(0, 1, 7)));
    assert!(at(Site::Point(0, 1, 8)));
    assert!(at(Site::Point(0, 8, 0)));
    assert!(at(Site::Point(1, 1, 0)));
    assert!(!judged(&|r| r.cursor = Cursor::End));
}

#[test]
fn kinds_are_judged_whole() {
    let (record, memory) = record_at(35);
    let judged = |place: usize, kind: u8| {
        let mut poked = memory.clone();
        poked.kinds[place] = kind;
        record.impossible(&poked)
    };
    assert!(!judged(1, 3));
    assert!(judged(1, 0));
    assert!(!judged(8, 0));
    assert!(judged(8, 1));
}

#[test]
fn a_forged_record_goes_on_from_its_cursor() {
    // Corner 26 again, with 40 evaluations said to be made and corner 0 set.
    let (mut record, mut memory) = record_at(20);
    record.cursor = Cursor::At(Site::Corner(0, 26));
    record.counts.evaluations = 40;
    memory.corners[0] = 100.0;
    record.call(&Call::Step(1), &mut memory);
    assert_eq!(record.counts.evaluations, 41);
    assert_eq!(memory.corners[20..27], [0.0, 0.0, 0.0, 0.0, 0.0, 0.0, 2.0]);
    // Child 0 has one corner of 100 and a least value of 0: a leaf.
    assert_eq!(record.cursor, Cursor::At(Site::Point(0, 0, 0)));
}
