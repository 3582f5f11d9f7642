//! Walks: what they visit, where they start and end, causes 1, 10 and 11.

use jisampode::{Bounds, Cells, DenseField, Dimensions, Points, Refusal};

fn n(x: usize, y: usize, z: usize) -> Dimensions {
    Dimensions::new(x, y, z)
}

fn bounds() -> Bounds {
    Bounds::new([0.0, 10.0, 20.0], [4.0, 13.0, 22.0])
}

#[test]
fn points_in_order() {
    let mut points = Points::new(bounds(), n(5, 4, 3)).unwrap();
    for (z, y) in (0..3).flat_map(|z| (0..4).map(move |y| (z, y))) {
        for x in 0..5 {
            assert_eq!(points.cursor(), [x, y, z]);
            let expected = [x as f64, 10.0 + y as f64, 20.0 + z as f64];
            assert_eq!(points.next(), Some(expected));
        }
    }
    let end = points.cursor();
    assert_eq!(points.next(), None);
    assert_eq!(points.next(), None);
    assert_eq!(points.cursor(), end);
}

#[test]
fn points_from_one_on() {
    let all: Vec<_> = Points::new(bounds(), n(5, 4, 3)).unwrap().collect();
    let rest = Points::starting_at(bounds(), n(5, 4, 3), [2, 1, 1]).unwrap();
    assert_eq!(rest.collect::<Vec<_>>(), all[27..]);
    let none = Points::starting_at(bounds(), n(5, 4, 3), [0, 0, 3]);
    assert_eq!(none.unwrap().count(), 0);
}

#[test]
fn cells_in_order() {
    let mut cells = Cells::new(bounds(), n(4, 3, 2)).unwrap();
    for (z, y) in (0..2).flat_map(|z| (0..3).map(move |y| (z, y))) {
        for x in 0..4 {
            assert_eq!(cells.cursor(), [x, y, z]);
            let min = [x as f64, 10.0 + y as f64, 20.0 + z as f64];
            let cell = Bounds::new(min, min.map(|low| low + 1.0));
            assert_eq!(cells.next(), Some(cell));
        }
    }
    assert_eq!(cells.next(), None);
    let rest = Cells::starting_at(bounds(), n(4, 3, 2), [3, 2, 1]).unwrap();
    assert_eq!(rest.count(), 1);
}

#[test]
fn grids_that_are_refused() {
    let wrong = Bounds::new([1.0; 3], [0.0; 3]);
    let points = |bounds, counts, at| Points::starting_at(bounds, counts, at).err();
    let cells = |bounds, counts, at| Cells::starting_at(bounds, counts, at).err();
    assert_eq!(points(wrong, n(0, 0, 0), [0; 3]), Some(Refusal::Bounds));
    assert_eq!(cells(wrong, n(0, 0, 0), [0; 3]), Some(Refusal::Bounds));
    for counts in [n(1, 2, 2), n(2, 2, 16_777_217)] {
        assert_eq!(points(bounds(), counts, [0; 3]), Some(Refusal::Walk));
    }
    for counts in [n(1, 0, 1), n(16_777_217, 1, 1)] {
        assert_eq!(cells(bounds(), counts, [0; 3]), Some(Refusal::Walk));
    }
    for at in [[2, 0, 0], [0, 2, 0], [0, 2, 9]] {
        assert_eq!(points(bounds(), n(2, 2, 2), at), Some(Refusal::Walk));
        assert_eq!(cells(bounds(), n(2, 2, 2), at), Some(Refusal::Walk));
    }
    assert_eq!(points(bounds(), n(2, 2, 2), [0; 3]), None);
    assert_eq!(cells(bounds(), n(1, 1, 1), [0; 3]), None);
}

#[test]
fn octets_in_order() {
    let mut values: Vec<f64> = (0..60).map(f64::from).collect();
    let field = DenseField::new(n(5, 4, 3), &mut values).unwrap();
    let mut octets = field.octets();
    for (k, j) in (0..2).flat_map(|k| (0..3).map(move |j| (k, j))) {
        for i in 0..4 {
            assert_eq!(octets.cursor(), [i, j, k]);
            let first = k * 20 + j * 5 + i;
            let expected = [0, 1, 6, 5, 20, 21, 26, 25].map(|more| (first + more) as f64);
            assert_eq!(octets.next(), Some(expected));
        }
    }
    assert_eq!(octets.next(), None);
    assert_eq!(octets.next(), None);
}

#[test]
fn octets_from_a_cell_on() {
    let mut values = [0.0; 60];
    let field = DenseField::new(n(5, 4, 3), &mut values).unwrap();
    assert_eq!(field.octets_from([3, 2, 1]).unwrap().count(), 1);
    assert_eq!(field.octets_from([0, 0, 1]).unwrap().count(), 12);
    assert_eq!(field.octets_from([9, 9, 2]).unwrap().count(), 0);
    for cell in [[4, 0, 0], [0, 3, 1]] {
        assert_eq!(field.octets_from(cell).err(), Some(Refusal::Outside));
    }
}

#[test]
fn a_dimension_of_one_has_no_cells() {
    let mut values = [0.0; 4];
    let field = DenseField::new(n(2, 2, 1), &mut values).unwrap();
    assert_eq!(field.octets().count(), 0);
    assert_eq!(field.octets_from([7, 7, 7]).unwrap().count(), 0);
}
