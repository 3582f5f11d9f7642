//! The arrays of the C interface: how a model, an input and a record stand in
//! them. Floats are their bits.

use jisampode::sys::{MOST_PARTS, PARTS, REALS, SETTINGS, WORDS};
use ledger::record::{Cursor, Record};
use ledger::schedule::Site;
use ledger::{Counts, Input, Lengths, Part};

/// What a code above 7 reads as.
const NO_PART: Part = Part::Neg(u32::MAX);

#[derive(Clone, PartialEq)]
pub struct Model {
    pub parts: [u32; PARTS],
    pub reals: [u64; REALS],
}

impl Model {
    /// The parts, and constants of 0 for those that are not given. What a part
    /// does not use is 0.
    pub fn of(parts: &[Part]) -> Model {
        let mut model = Model {
            parts: [0; PARTS],
            reals: [0; REALS],
        };
        for (place, part) in parts.iter().enumerate() {
            model.put(place, part);
        }
        model
    }

    fn put(&mut self, place: usize, part: &Part) {
        let (code, inputs, vector, number) = match *part {
            Part::Const(value) => (0, [0; 2], [0.0; 3], value),
            Part::Sphere(centre, radius) => (1, [0; 2], centre, radius),
            Part::Plane(normal, offset) => (2, [0; 2], normal, offset),
            Part::Min(a, b) => (3, [a, b], [0.0; 3], 0.0),
            Part::Max(a, b) => (4, [a, b], [0.0; 3], 0.0),
            Part::Add(a, b) => (5, [a, b], [0.0; 3], 0.0),
            Part::Sub(a, b) => (6, [a, b], [0.0; 3], 0.0),
            Part::Neg(a) => (7, [a, 0], [0.0; 3], 0.0),
        };
        self.parts[place] = code;
        for (row, input) in (1..).zip(inputs) {
            self.parts[row * MOST_PARTS + place] = input;
        }
        for (row, x) in vector.into_iter().chain([number]).enumerate() {
            self.reals[row * MOST_PARTS + place] = x.to_bits();
        }
    }

    fn part(&self, place: usize) -> Part {
        let [code, a, b] = [0, 1, 2].map(|row| self.parts[row * MOST_PARTS + place]);
        let real = |row: usize| f64::from_bits(self.reals[row * MOST_PARTS + place]);
        let (vector, number) = ([real(0), real(1), real(2)], real(3));
        match code {
            0 => Part::Const(number),
            1 => Part::Sphere(vector, number),
            2 => Part::Plane(vector, number),
            3 => Part::Min(a, b),
            4 => Part::Max(a, b),
            5 => Part::Add(a, b),
            6 => Part::Sub(a, b),
            7 => Part::Neg(a),
            _ => NO_PART,
        }
    }

    /// All 64 parts, those past a model's count too.
    pub fn read(&self) -> Vec<Part> {
        (0..MOST_PARTS).map(|place| self.part(place)).collect()
    }
}

/// The numbers of settings, in order.
fn settings_of(input: &Input) -> [u64; SETTINGS] {
    let [a, b, c] = input.min;
    let [d, e, f] = input.max;
    [a, b, c, d, e, f, input.cell, input.band_min, input.band_max].map(f64::to_bits)
}

fn input_of(settings: &[u64; SETTINGS], [inner, leaf, count]: [u32; 3], parts: Vec<Part>) -> Input {
    let [a, b, c, d, e, f, cell, band_min, band_max] = settings.map(f64::from_bits);
    Input {
        min: [a, b, c],
        max: [d, e, f],
        cell,
        inner,
        leaf,
        band_min,
        band_max,
        count,
        parts,
    }
}

/// What open is given.
#[derive(Clone, PartialEq)]
pub struct Opening {
    pub settings: [u64; SETTINGS],
    pub inner: u32,
    pub leaf: u32,
    pub count: u32,
    pub model: Model,
}

impl Opening {
    pub fn of(input: &Input) -> Opening {
        Opening {
            settings: settings_of(input),
            inner: input.inner,
            leaf: input.leaf,
            count: input.count,
            model: Model::of(&input.parts),
        }
    }

    /// The input that stands in the arrays.
    pub fn input(&self) -> Input {
        let numbers = [self.inner, self.leaf, self.count];
        input_of(&self.settings, numbers, self.model.read())
    }
}

/// A record's four arrays.
#[derive(Clone, PartialEq)]
pub struct RecordArrays {
    pub words: [u64; WORDS],
    pub settings: [u64; SETTINGS],
    pub model: Model,
}

/// What four arrays are.
pub enum Reading {
    /// The job word is 0. The rest is not looked at.
    NoJob,
    /// Words that no record has.
    NoRecord,
    Record(Box<Record>),
}

fn lengths_of(words: &[u64]) -> Lengths {
    Lengths {
        kinds: words[0],
        numbers: words[1],
        places: words[2],
        store: words[3],
        corners: words[4],
    }
}

pub fn count_numbers(counts: &Counts) -> [u64; 5] {
    [
        counts.nodes,
        counts.active,
        counts.leaves,
        counts.sampled,
        counts.evaluations,
    ]
}

/// A cursor's kind and three numbers, 0 where there is none.
pub fn cursor_numbers(cursor: Cursor) -> [u64; 4] {
    match cursor {
        Cursor::End => [0; 4],
        Cursor::At(Site::Corner(v, corner)) => [1, v, corner, 0],
        Cursor::At(Site::Point(v, c, p)) => [2, v, c, p],
    }
}

impl RecordArrays {
    pub fn of(record: &Record) -> RecordArrays {
        let input = &record.input;
        let lengths = record.lengths;
        let mut words = vec![record.job.into()];
        words.extend([input.inner, input.leaf, input.count].map(u64::from));
        words.extend([lengths.kinds, lengths.numbers, lengths.places]);
        words.extend([lengths.store, lengths.corners]);
        words.extend(count_numbers(&record.counts));
        words.extend(cursor_numbers(record.cursor));
        RecordArrays {
            words: words.try_into().expect("a record has 18 words"),
            settings: settings_of(input),
            model: Model::of(&input.parts),
        }
    }

    pub fn read(&self) -> Reading {
        let words = &self.words;
        if words[0] == 0 {
            return Reading::NoJob;
        }
        let numbers = [words[1], words[2], words[3]].map(u32::try_from);
        let [Ok(inner), Ok(leaf), Ok(count)] = numbers else {
            return Reading::NoRecord;
        };
        let cursor = match words[14] {
            0 => Cursor::End,
            1 => Cursor::At(Site::Corner(words[15], words[16])),
            2 => Cursor::At(Site::Point(words[15], words[16], words[17])),
            _ => return Reading::NoRecord,
        };
        if words[0] > 1 {
            return Reading::NoRecord;
        }
        let input = input_of(&self.settings, [inner, leaf, count], self.model.read());
        Reading::Record(Box::new(Record {
            job: true,
            input,
            lengths: lengths_of(&words[4..9]),
            counts: Counts {
                nodes: words[9],
                active: words[10],
                leaves: words[11],
                sampled: words[12],
                evaluations: words[13],
            },
            cursor,
        }))
    }
}
