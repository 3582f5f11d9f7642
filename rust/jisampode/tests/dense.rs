//! Dense fields: measured facts, and cause 9.

use jisampode::{point_count, Bounds, DenseField, Dimensions, Model, Part, Points, Refusal};

fn n(x: usize, y: usize, z: usize) -> Dimensions {
    Dimensions::new(x, y, z)
}

#[test]
fn points_over_bounds() {
    let bounds = Bounds::new([-1.0, 0.0, 0.0], [1.0, 0.0, 0.99]);
    assert_eq!(point_count(bounds, 0.5), Ok(n(5, 1, 2)));
    assert_eq!(point_count(bounds, 0.0), Err(Refusal::Bounds));
    let wide = Bounds::new([0.0; 3], [256.0; 3]);
    assert_eq!(point_count(wide, 1.0), Err(Refusal::Dimensions));
}

#[test]
fn sampling() {
    let mut model = Model::new();
    model.plane([1.0, 10.0, 100.0], 0.5).unwrap();
    let mut values = [0.0; 24];
    let mut field = DenseField::new(n(2, 3, 4), &mut values).unwrap();
    field.sample(&model, [1.0, 2.0, 3.0], 0.5).unwrap();
    for (place, &value) in field.values().iter().enumerate() {
        let [i, j, k] = [place % 2, place / 2 % 3, place / 6].map(|index| index as f64);
        let (x, y, z) = (1.0 + 0.5 * i, 2.0 + 0.5 * j, 3.0 + 0.5 * k);
        assert_eq!(value, x + y * 10.0 + z * 100.0 - 0.5);
    }

    let before = field.values().to_vec();
    let nowhere = [f64::NAN, 0.0, 0.0];
    assert_eq!(field.sample(&model, nowhere, 1.0), Err(Refusal::Bounds));
    assert_eq!(field.sample(&model, [0.0; 3], 0.0), Err(Refusal::Bounds));
    let empty = Model::new();
    assert_eq!(field.sample(&empty, [0.0; 3], 1.0), Err(Refusal::Model));
    assert_eq!(field.values(), before);
}

#[test]
fn every_part() {
    let shape = |point: [f64; 3]| point[0] + 2.0 * point[1] + 4.0 * point[2] - 3.0;
    let ball = |point: [f64; 3]| {
        let [x, y, z] = point.map(|at| (at - 1.0) * (at - 1.0));
        ((x + y) + z).sqrt() - 0.5
    };
    type Value<'a> = &'a dyn Fn(f64, f64) -> f64;
    let operations: [(Part, Value); 5] = [
        (Part::Min(0, 1), &|a, b| a.min(b)),
        (Part::Max(0, 1), &|a, b| a.max(b)),
        (Part::Add(0, 1), &|a, b| a + b),
        (Part::Sub(0, 1), &|a, b| a - b),
        (Part::Neg(0), &|a, _| -a),
    ];
    let bounds = Bounds::new([0.0; 3], [3.0; 3]);
    for (operation, value) in operations {
        let mut model = Model::new();
        model.plane([1.0, 2.0, 4.0], 3.0).unwrap();
        model.sphere([1.0; 3], 0.5).unwrap();
        model.push(operation).unwrap();
        let mut values = [0.0; 64];
        let mut field = DenseField::new(n(4, 4, 4), &mut values).unwrap();
        field.sample(&model, [0.0; 3], 1.0).unwrap();
        let points = Points::new(bounds, n(4, 4, 4)).unwrap();
        for (point, &sampled) in points.zip(field.values()) {
            assert_eq!(sampled, value(shape(point), ball(point)), "{operation:?}");
        }
    }
}

#[test]
fn smoothing_three_by_three_by_three() {
    // A 0 in the middle, and sixes around it.
    let mut values = [0.0; 27];
    for place in [4, 10, 12, 14, 16, 22] {
        values[place] = 6.0;
    }
    let mut scratch = [9.0; 30];
    let mut field = DenseField::new(n(3, 3, 3), &mut values).unwrap();
    field.smooth(0.5, 1, &mut scratch).unwrap();
    assert_eq!(field.values()[13], 3.0);
    let others = field.values().iter().enumerate();
    for (place, &value) in others.filter(|&(place, _)| place != 13) {
        let neighbour = [4, 10, 12, 14, 16, 22].contains(&place);
        assert_eq!(value, if neighbour { 6.0 } else { 0.0 });
    }
    assert!(scratch.iter().all(|value| value.to_bits() == 0));
}

#[test]
fn smoothing_a_dimension_of_two() {
    let mut values: Vec<f64> = (0..32).map(f64::from).collect();
    let before = values.clone();
    let mut scratch = vec![1.0; 32];
    let mut field = DenseField::new(n(4, 2, 4), &mut values).unwrap();
    field.smooth(0.5, 3, &mut scratch).unwrap();
    assert_eq!(values, before);
}

#[test]
fn smoothing_with_a_shorter_scratch() {
    let mut values = [1.0; 27];
    let mut scratch = [2.0; 26];
    let mut field = DenseField::new(n(3, 3, 3), &mut values).unwrap();
    let refused = field.smooth(0.5, 1, &mut scratch);
    assert_eq!(refused, Err(Refusal::Dimensions));
    assert_eq!(scratch, [2.0; 26]);
    assert_eq!(values, [1.0; 27]);
}

#[test]
fn padding_writes_56() {
    let mut values = [0.0; 64];
    let mut field = DenseField::new(n(4, 4, 4), &mut values).unwrap();
    field.pad(7.0);
    let padded = field.values().iter().filter(|&&value| value == 7.0);
    assert_eq!(padded.count(), 56);
    assert_eq!(field.values()[21], 0.0);
}

#[test]
fn threshold_one() {
    let mut values = [-1.0, -0.0, 0.999, 1.0, -0.5, f64::NEG_INFINITY, 2.0, 0.0];
    let mut field = DenseField::new(n(2, 2, 2), &mut values).unwrap();
    field.threshold(1.0);
    let expected = [-1.0, 0.0, 0.0, 1.0, 0.0, f64::NEG_INFINITY, 2.0, 0.0f64];
    assert_eq!(values.map(f64::to_bits), expected.map(f64::to_bits));
}

#[test]
fn nine() {
    let mut values = [0.0; 8];
    let mut refuses = |dimensions, length: usize| {
        let field = DenseField::new(dimensions, &mut values[..length]);
        field.err() == Some(Refusal::Dimensions)
    };
    assert!(!refuses(n(2, 2, 2), 8));
    assert!(!refuses(n(1, 1, 8), 8));
    assert!(refuses(n(2, 2, 2), 7));
    assert!(refuses(n(1, 1, 1), 8));
    assert!(refuses(n(0, 2, 2), 0));
    assert!(refuses(n(usize::MAX, usize::MAX, 2), 8));
    assert_eq!(n(usize::MAX, 2, 1).product(), None);
    assert_eq!(n(2, 3, 4).product(), Some(24));
}

/// What the original takes (docs/DIFFERENCES.md, items 14 to 16).
#[test]
fn what_the_original_takes() {
    let mut model = Model::new();
    model.plane([1.0, 0.0, 0.0], 0.0).unwrap();
    let mut values = [2.0; 8];
    let mut field = DenseField::new(n(2, 2, 2), &mut values).unwrap();
    for origin in [f64::INFINITY, f64::NEG_INFINITY, f64::NAN] {
        let refused = field.sample(&model, [origin, 0.0, 0.0], 1.0);
        assert_eq!(refused, Err(Refusal::Bounds));
    }
    for cell in [f64::INFINITY, f64::NAN, -1.0, 0.0] {
        let refused = field.sample(&model, [0.0; 3], cell);
        assert_eq!(refused, Err(Refusal::Bounds));
    }
    assert_eq!(values, [2.0; 8]);

    let mut many = vec![0.5; 16_777_217];
    let refused = DenseField::new(n(16_777_217, 1, 1), &mut many).err();
    assert_eq!(refused, Some(Refusal::Dimensions));
    for length in [7, 9] {
        let refused = DenseField::new(n(2, 2, 2), &mut many[..length]).err();
        assert_eq!(refused, Some(Refusal::Dimensions));
    }
}
