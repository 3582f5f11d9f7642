//! Tests of the reader and of the listing.

use super::faults;
use super::listing::listing;
use super::text::{read, written};
use super::{of_lines, CASE};
use ledger::Part;

/// The case with other part lines.
fn with_parts(parts: &[&str]) -> String {
    of_lines(&[&CASE[..4], parts].concat())
}

/// The line that the reader names.
fn fault(text: &[u8]) -> Option<u32> {
    read(text).err()
}

#[test]
fn the_case_is_read() {
    let input = read(of_lines(&CASE).as_bytes()).unwrap();
    assert_eq!((input.min, input.max), ([0.0; 3], [2.0; 3]));
    assert_eq!((input.cell, input.inner, input.leaf), (1.0, 2, 2));
    assert_eq!((input.band_min, input.band_max), (-0.25, 0.0));
    assert_eq!(input.count, 1);
    assert!(matches!(input.parts[..], [Part::Plane([x, y, z], d)]
        if [x, y, z, d] == [1.0, 0.0, 0.0, 0.0]));
}

#[test]
fn every_number_has_its_place() {
    let digits = |n: u64| format!("{n:016x}");
    let d: Vec<String> = (1..=9).map(digits).collect();
    let lines = [
        format!(
            "(bounds (min {} {} {}) (max {} {} {}))",
            d[0], d[1], d[2], d[3], d[4], d[5]
        ),
        format!("(cell {})", d[6]),
        "(blocks 10 4294967295)".to_string(),
        format!("(band {} {})", d[7], d[8]),
        format!("(sphere {} {} {} {})", d[0], d[1], d[2], d[3]),
        format!("(plane {} {} {} {})", d[4], d[5], d[6], d[7]),
        "(min 11 12)".to_string(),
        "(max 13 14)".to_string(),
        "(add 15 16)".to_string(),
        "(sub 17 18)".to_string(),
        "(neg 19)".to_string(),
        format!("(const {})", d[8]),
    ];
    let text = lines.map(|line| line + "\n").concat();
    let input = read(text.as_bytes()).unwrap();
    let floats = |from: u64| [0, 1, 2].map(|at| f64::from_bits(from + at));
    let last = |bits: u64| f64::from_bits(bits);
    assert_eq!((input.min, input.max), (floats(1), floats(4)));
    assert_eq!(
        (input.cell, input.inner, input.leaf),
        (last(7), 10, u32::MAX)
    );
    assert_eq!((input.band_min, input.band_max), (last(8), last(9)));
    let parts = [
        Part::Sphere(floats(1), last(4)),
        Part::Plane(floats(5), last(8)),
        Part::Min(11, 12),
        Part::Max(13, 14),
        Part::Add(15, 16),
        Part::Sub(17, 18),
        Part::Neg(19),
        Part::Const(last(9)),
    ];
    assert_eq!(format!("{:?}", input.parts), format!("{parts:?}"));
    assert_eq!(written(&input), text);
}

#[test]
fn a_nan_keeps_its_bits() {
    for bits in ["7ff0000000000001", "fff8000000000000", "ffffffffffffffff"] {
        let text = with_parts(&[&format!("(const {bits})")]);
        assert_eq!(written(&read(text.as_bytes()).unwrap()), text);
        assert!(listing(text.as_bytes()).contains(bits));
    }
}

#[test]
fn faults_name_their_line() {
    for (text, line) in faults::texts() {
        assert_eq!(fault(&text), Some(line as u32), "{}", text.escape_ascii());
    }
}

#[test]
fn the_limits_of_numbers() {
    for good in ["0", "9", "10", "4294967295"] {
        assert_eq!(
            fault(with_parts(&[&format!("(neg {good})")]).as_bytes()),
            None
        );
    }
    for bad in [
        "00",
        "010",
        "4294967296",
        "4294967300",
        "9999999999",
        "42949672950",
    ] {
        assert_eq!(
            fault(with_parts(&[&format!("(neg {bad})")]).as_bytes()),
            Some(5)
        );
    }
}

#[test]
fn the_count_of_lines() {
    assert_eq!(fault(b""), Some(1));
    assert_eq!(fault(of_lines(&CASE[..3]).as_bytes()), Some(4));
    assert_eq!(fault(of_lines(&CASE[..4]).as_bytes()), None);
    for (count, line) in [(63, None), (64, None), (65, Some(69)), (66, Some(69))] {
        assert_eq!(fault(&faults::with_parts(count)), line);
    }
    assert_eq!(faults::longest().len(), 5147);
    assert_eq!(fault(&faults::longest()), None);
}

#[test]
fn refusals() {
    let of = |parts: &[&str]| listing(with_parts(parts).as_bytes());
    assert_eq!(of(&[]), "(refused 4)\n");
    assert_eq!(of(&["(neg 0)"]), "(refused 4)\n");
    assert_eq!(of(&["(neg)"]), "(refused 12 5)\n");
    assert_eq!(listing(b"\n"), "(refused 12 1)\n");
}
