//! Job texts, read and written.
//!
//! A line has a form: H stands for the 16 digits of a float (rule T1), D for a
//! decimal number (rule T2), every other byte for itself. Byte 10 ends the line.

use ledger::input::MOST_PARTS;
use ledger::{Input, Part};

const BOUNDS: &str = "(bounds (min H H H) (max H H H))";
const CELL: &str = "(cell H)";
const BLOCKS: &str = "(blocks D D)";
const BAND: &str = "(band H H)";

const CONST: &str = "(const H)";
const SPHERE: &str = "(sphere H H H H)";
const PLANE: &str = "(plane H H H H)";
const MIN: &str = "(min D D)";
const MAX: &str = "(max D D)";
const ADD: &str = "(add D D)";
const SUB: &str = "(sub D D)";
const NEG: &str = "(neg D)";
const PARTS: [&str; 8] = [CONST, SPHERE, PLANE, MIN, MAX, ADD, SUB, NEG];

const LINE_END: u8 = 10;

/// 16 digits, lowercase.
fn hexadecimal(digits: &[u8]) -> Option<u64> {
    digits.iter().try_fold(0, |number, &digit| {
        let value = match digit {
            b'0'..=b'9' => digit - b'0',
            b'a'..=b'f' => digit - b'a' + 10,
            _ => return None,
        };
        Some(number << 4 | u64::from(value))
    })
}

/// A number without leading zeros that is at most 4,294,967,295.
fn decimal(digits: &[u8]) -> Option<u64> {
    if digits.is_empty() || digits.len() > 10 || (digits.len() > 1 && digits[0] == b'0') {
        return None;
    }
    let value = |number, digit: &u8| number * 10 + u64::from(digit - b'0');
    let number = digits.iter().fold(0, value);
    (number <= u32::MAX.into()).then_some(number)
}

/// The numbers of a line, if it is of a form.
fn numbers(form: &str, line: &[u8]) -> Option<Vec<u64>> {
    let mut numbers = Vec::new();
    let mut rest = line;
    for byte in form.bytes() {
        let length = match byte {
            b'H' => 16,
            b'D' => rest.iter().take_while(|b| b.is_ascii_digit()).count(),
            _ => 1,
        };
        if rest.len() < length {
            return None;
        }
        let (taken, after) = rest.split_at(length);
        match byte {
            b'H' => numbers.push(hexadecimal(taken)?),
            b'D' => numbers.push(decimal(taken)?),
            _ if taken == [byte] => (),
            _ => return None,
        }
        rest = after;
    }
    rest.is_empty().then_some(numbers)
}

/// The line of a form with these numbers.
fn line(form: &str, numbers: &[u64]) -> String {
    let mut numbers = numbers.iter();
    let mut next = || numbers.next().expect("a number for each H and D");
    let mut line = String::new();
    for character in form.chars() {
        match character {
            'H' => line += &format!("{:016x}", next()),
            'D' => line += &next().to_string(),
            _ => line.push(character),
        }
    }
    line.push(char::from(LINE_END));
    line
}

fn part(line: &[u8]) -> Option<Part> {
    let of_form = |form: &&'static str| Some((*form, numbers(form, line)?));
    let (form, n) = PARTS.iter().find_map(of_form)?;
    let float = |at: usize| f64::from_bits(n[at]);
    let place = |at: usize| n[at] as u32;
    let point = || [0, 1, 2].map(float);
    Some(match form {
        CONST => Part::Const(float(0)),
        SPHERE => Part::Sphere(point(), float(3)),
        PLANE => Part::Plane(point(), float(3)),
        MIN => Part::Min(place(0), place(1)),
        MAX => Part::Max(place(0), place(1)),
        ADD => Part::Add(place(0), place(1)),
        SUB => Part::Sub(place(0), place(1)),
        _ => Part::Neg(place(0)),
    })
}

fn part_line(part: &Part) -> String {
    let shape = |form, at: [f64; 3], last: f64| {
        let [x, y, z] = at.map(f64::to_bits);
        line(form, &[x, y, z, last.to_bits()])
    };
    let operation = |form, a: u32, b: u32| line(form, &[a.into(), b.into()]);
    match *part {
        Part::Const(value) => line(CONST, &[value.to_bits()]),
        Part::Sphere(centre, radius) => shape(SPHERE, centre, radius),
        Part::Plane(normal, offset) => shape(PLANE, normal, offset),
        Part::Min(a, b) => operation(MIN, a, b),
        Part::Max(a, b) => operation(MAX, a, b),
        Part::Add(a, b) => operation(ADD, a, b),
        Part::Sub(a, b) => operation(SUB, a, b),
        Part::Neg(a) => line(NEG, &[a.into()]),
    }
}

/// What is left of a text, and how many lines were begun.
struct Lines<'a> {
    rest: &'a [u8],
    begun: u32,
}

impl Lines<'_> {
    /// Reads the next line. The error is its number: it is off its form, has
    /// no end, or is not there.
    fn next<T>(&mut self, read: impl Fn(&[u8]) -> Option<T>) -> Result<T, u32> {
        self.begun += 1;
        let end = self.rest.iter().position(|&byte| byte == LINE_END);
        let end = end.ok_or(self.begun)?;
        let value = read(&self.rest[..end]).ok_or(self.begun)?;
        self.rest = &self.rest[end + 1..];
        Ok(value)
    }

    fn floats<const N: usize>(&mut self, form: &str) -> Result<[f64; N], u32> {
        let numbers = self.next(|line| numbers(form, line))?;
        Ok(std::array::from_fn(|at| f64::from_bits(numbers[at])))
    }

    /// All parts. Whatever follows the last that a text has is off its form.
    fn parts(&mut self) -> Result<Vec<Part>, u32> {
        let mut parts = Vec::new();
        while !self.rest.is_empty() {
            if parts.len() == MOST_PARTS as usize {
                return Err(self.begun + 1);
            }
            parts.push(self.next(part)?);
        }
        Ok(parts)
    }
}

/// The job of a text, or the number of the first line that is off its form.
pub fn read(text: &[u8]) -> Result<Input, u32> {
    let mut lines = Lines {
        rest: text,
        begun: 0,
    };
    let [a, b, c, d, e, f] = lines.floats(BOUNDS)?;
    let [cell] = lines.floats(CELL)?;
    let blocks = lines.next(|line| numbers(BLOCKS, line))?;
    let [band_min, band_max] = lines.floats(BAND)?;
    let parts = lines.parts()?;
    Ok(Input {
        min: [a, b, c],
        max: [d, e, f],
        cell,
        inner: blocks[0] as u32,
        leaf: blocks[1] as u32,
        band_min,
        band_max,
        count: parts.len() as u32,
        parts,
    })
}

/// The text of a job.
pub fn written(input: &Input) -> String {
    let bounds: Vec<u64> = input
        .min
        .iter()
        .chain(&input.max)
        .map(|x| x.to_bits())
        .collect();
    let band = [input.band_min, input.band_max].map(f64::to_bits);
    let mut text = line(BOUNDS, &bounds);
    text += &line(CELL, &[input.cell.to_bits()]);
    text += &line(BLOCKS, &[input.inner.into(), input.leaf.into()]);
    text += &line(BAND, &band);
    let parts = &input.parts[..input.count as usize];
    text.extend(parts.iter().map(part_line));
    text
}
