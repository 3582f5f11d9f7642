//! Lists of calls as they are written, with what each answers.

use super::original;
use crate::bits::result;
use crate::fields::List;
use ledger::record::{Cursor, Record};
use ledger::schedule::Site;
use ledger::{Answer, Call, Counts, Input, Ledger, Lengths, Memory, Part};

/// The fields of a record, as `forge` names them. Those between stand in the
/// record's order.
pub const JOB: u64 = 0;
pub const MIN_X: u64 = 1;
pub const MAX_X: u64 = 4;
pub const CELL: u64 = 7;
pub const INNER: u64 = 8;
pub const LEAF: u64 = 9;
pub const BAND_MIN: u64 = 10;
pub const BAND_MAX: u64 = 11;
pub const COUNT: u64 = 12;
/// Five numbers for each of the 64 parts.
const PARTS: u64 = 13;
pub const KINDS_LENGTH: u64 = 333;
pub const CORNERS_LENGTH: u64 = 337;
pub const NODES: u64 = 338;
pub const ACTIVE: u64 = 339;
pub const LEAVES: u64 = 340;
pub const SAMPLED: u64 = 341;
pub const EVALUATIONS: u64 = 342;
/// A kind and three numbers.
const CURSOR: u64 = 343;

/// The slices, as `poke` names them.
pub const KINDS: u64 = 0;
pub const NUMBERS: u64 = 1;
pub const PLACES: u64 = 2;
pub const STORE: u64 = 3;
pub const CORNERS: u64 = 4;

/// How many parts a line sets, and where those lines begin that set them all.
const PARTS_OF_LINE: usize = 31;
const LINE_STARTS: [usize; 3] = [0, 31, 33];

/// How many numbers a line of elements has.
const ROW: usize = 160;

pub struct Script {
    pub list: List,
    /// Where the answers to each list begin.
    starts: Vec<usize>,
    memory: Memory,
    record: Record,
    /// None once a record or an element was set from outside.
    ledger: Option<Ledger>,
    /// The parts of the next open.
    parts: Vec<Part>,
}

impl Default for Script {
    fn default() -> Script {
        let memory = Memory::zero(Record::none().lengths);
        Script {
            list: List::default(),
            starts: Vec::new(),
            ledger: Some(Ledger::new(memory.clone())),
            memory,
            record: Record::none(),
            parts: vec![Part::Const(0.0); 64],
        }
    }
}

/// The poison of a place.
fn mixed(seed: u64, at: usize) -> u64 {
    let a = seed.wrapping_add(at as u64);
    let b = a ^ (a << 13);
    let c = b ^ (b >> 7);
    c ^ (c << 17)
}

fn poisoned_floats(seed: u64, length: u64) -> Vec<f64> {
    let float = |at| match mixed(seed, at) {
        n if n % 8 == 0 => f64::NAN,
        n => f64::from_bits(n | 1),
    };
    (0..length as usize).map(float).collect()
}

fn poisoned(lengths: Lengths, seed: u64) -> Memory {
    let after = |steps: u64| seed.wrapping_add(steps);
    let kind = |at| (mixed(seed, at) % 255 + 1) as u8;
    let place = |at| (mixed(after(0x2000), at) % 0xffff_ffff + 1) as u32;
    Memory {
        kinds: (0..lengths.kinds as usize).map(kind).collect(),
        numbers: poisoned_floats(after(0x1000), lengths.numbers),
        places: (0..lengths.places as usize).map(place).collect(),
        store: poisoned_floats(after(0x3000), lengths.store),
        corners: poisoned_floats(after(0x6000), lengths.corners),
    }
}

fn short(n: u64) -> u32 {
    u32::try_from(n).unwrap_or(u32::MAX)
}

/// A record without a job whose other fields belong to no job.
fn poisoned_record(seed: u64) -> Record {
    let x = f64::from_bits(seed);
    Record {
        job: false,
        input: Input {
            min: [x; 3],
            max: [x; 3],
            cell: x,
            inner: short(seed),
            leaf: short(seed),
            band_min: x,
            band_max: x,
            count: short(seed),
            parts: vec![part_of([seed; 5]); 64],
        },
        lengths: Lengths {
            kinds: seed,
            numbers: seed,
            places: seed,
            store: seed,
            corners: seed,
        },
        counts: Counts {
            nodes: seed,
            active: seed,
            leaves: seed,
            sampled: seed,
            evaluations: seed,
        },
        cursor: cursor_of([seed; 4]),
    }
}

/// The part of a kind and four numbers.
fn part_of([kind, a, b, c, last]: [u64; 5]) -> Part {
    let vector = [a, b, c].map(f64::from_bits);
    let last = f64::from_bits(last);
    let (one, other) = (short(a), short(b));
    match kind {
        0 => Part::Const(vector[0]),
        1 => Part::Sphere(vector, last),
        2 => Part::Plane(vector, last),
        3 => Part::Min(one, other),
        4 => Part::Max(one, other),
        5 => Part::Add(one, other),
        6 => Part::Sub(one, other),
        _ => Part::Neg(one),
    }
}

fn cursor_of([kind, a, b, c]: [u64; 4]) -> Cursor {
    match kind {
        0 => Cursor::End,
        1 => Cursor::At(Site::Corner(a, b)),
        _ => Cursor::At(Site::Point(a, b, c)),
    }
}

/// A part's kind, and four numbers.
fn part_numbers(part: &Part) -> [u64; 5] {
    let shape = |kind, at: [f64; 3], last: f64| {
        let [x, y, z] = at.map(f64::to_bits);
        [kind, x, y, z, last.to_bits()]
    };
    let operation = |kind, a: u32, b: u32| [kind, a.into(), b.into(), 0, 0];
    match *part {
        Part::Const(value) => [0, value.to_bits(), 0, 0, 0],
        Part::Sphere(centre, radius) => shape(1, centre, radius),
        Part::Plane(normal, offset) => shape(2, normal, offset),
        Part::Min(a, b) => operation(3, a, b),
        Part::Max(a, b) => operation(4, a, b),
        Part::Add(a, b) => operation(5, a, b),
        Part::Sub(a, b) => operation(6, a, b),
        Part::Neg(a) => operation(7, a, 0),
    }
}

/// Grid, band and count of parts.
fn input_numbers(input: &Input) -> Vec<u64> {
    let ends = input.min.iter().chain(&input.max);
    let mut numbers: Vec<u64> = ends.map(|&x| result(x)).collect();
    let cell = result(input.cell);
    numbers.extend([cell, input.inner.into(), input.leaf.into()]);
    numbers.extend([result(input.band_min), result(input.band_max)]);
    numbers.push(input.count.into());
    numbers
}

fn length_numbers(lengths: Lengths) -> [u64; 5] {
    [
        lengths.kinds,
        lengths.numbers,
        lengths.places,
        lengths.store,
        lengths.corners,
    ]
}

/// The kind of a cursor and three numbers.
fn cursor_numbers(cursor: Cursor) -> [u64; 4] {
    match cursor {
        Cursor::End => [0; 4],
        Cursor::At(Site::Corner(v, corner)) => [1, v, corner, 0],
        Cursor::At(Site::Point(v, c, p)) => [2, v, c, p],
    }
}

impl Script {
    /// A new list: slices of these lengths with poison in them, and a record
    /// without a job.
    pub fn lend(&mut self, lengths: Lengths, seed: u64) {
        let mut numbers = length_numbers(lengths).to_vec();
        numbers.push(seed);
        self.starts.push(self.list.answers.len());
        self.list.case("lend", &numbers);
        self.memory = poisoned(lengths, seed);
        self.record = poisoned_record(seed);
        self.ledger = Some(Ledger::new(self.memory.clone()));
        self.parts = vec![part_of([seed; 5]); 64];
    }

    /// The answers to each list.
    pub fn answers(&self) -> Vec<String> {
        let answers = &self.list.answers;
        let ends = self.starts.iter().skip(1).copied().chain([answers.len()]);
        let one = |(start, end): (&usize, usize)| answers[*start..end].to_string();
        self.starts.iter().zip(ends).map(one).collect()
    }

    pub fn lengths(&self) -> Lengths {
        self.memory.lengths()
    }

    pub fn record(&self) -> &Record {
        &self.record
    }

    /// The kind of a place.
    pub fn kind(&self, place: u64) -> u64 {
        self.memory.kinds[place as usize].into()
    }

    /// The number that a field of the record holds.
    pub fn field(&self, field: u64) -> u64 {
        let counts = self.record.counts;
        let mut fields = vec![self.record.job.into()];
        fields.extend(input_numbers(&self.record.input));
        fields.extend(self.record.input.parts.iter().flat_map(part_numbers));
        fields.extend(length_numbers(self.record.lengths));
        fields.extend([counts.nodes, counts.active, counts.leaves]);
        fields.extend([counts.sampled, counts.evaluations]);
        fields.extend(cursor_numbers(self.record.cursor));
        fields[field as usize]
    }

    /// Sets the parts of the next open, where they are not set already.
    pub fn parts(&mut self, parts: &[Part]) {
        let bits = |parts: &[Part]| parts.iter().map(part_numbers).collect::<Vec<_>>();
        if bits(&self.parts[..parts.len()]) == bits(parts) {
            return;
        }
        let some = |from: &usize| *from == 0 || *from < parts.len();
        for from in LINE_STARTS.into_iter().filter(some) {
            let given = &parts[from..(from + PARTS_OF_LINE).min(parts.len())];
            let mut numbers = vec![from as u64];
            numbers.extend(given.iter().flat_map(part_numbers));
            self.list.case("parts", &numbers);
            for place in from..from + PARTS_OF_LINE {
                let part = given.get(place - from).copied();
                self.parts[place] = part.unwrap_or(Part::Const(0.0));
            }
        }
    }

    pub fn open(&mut self, input: &Input) -> Answer {
        self.parts(&input.parts);
        let mut input = input.clone();
        input.parts = self.parts.clone();
        let numbers = input_numbers(&input);
        self.call("open", &numbers, &Call::Open(input))
    }

    pub fn step(&mut self, budget: u64) -> Answer {
        self.call("step", &[budget], &Call::Step(budget))
    }

    pub fn drop(&mut self) {
        self.call("drop", &[], &Call::Drop);
    }

    fn call(&mut self, word: &str, numbers: &[u64], call: &Call) -> Answer {
        let answer = self.record.call(call, &mut self.memory);
        if let Some(ledger) = &mut self.ledger {
            assert_eq!(ledger.call(call), answer);
        }
        self.agree();
        let mut numbers_after = vec![match answer {
            Answer::Accepted => 0,
            Answer::Refused(cause) => cause.into(),
        }];
        let counts = self.record.counts;
        numbers_after.extend([self.record.job.into(), counts.nodes, counts.active]);
        numbers_after.extend([counts.leaves, counts.sampled, counts.evaluations]);
        numbers_after.push(self.record.finished().into());
        numbers_after.extend(cursor_numbers(self.record.cursor));
        self.list.add(word, numbers, &numbers_after);
        answer
    }

    /// Holds the model of the records to the ledger, and a finished job to the
    /// original.
    fn agree(&self) {
        let Some(ledger) = &self.ledger else {
            return;
        };
        assert!(ledger.elements().same_bits(&self.memory));
        assert_eq!(ledger.counts().is_some(), self.record.job);
        if let (Some(counts), Some(finished)) = (ledger.counts(), ledger.finished()) {
            assert_eq!(counts, self.record.counts);
            assert_eq!(finished, self.record.finished());
            if finished {
                original::holds(&self.record.input, &self.memory);
            }
        }
    }

    /// What the record says that its job was opened with, and every element.
    pub fn dump(&mut self) {
        self.list.case("dump", &[]);
        let mut opened = input_numbers(&self.record.input);
        opened.extend(length_numbers(self.record.lengths));
        self.list.answer(&opened);
        let memory = &self.memory;
        let floats = |values: &[f64]| values.iter().map(|&x| result(x)).collect::<Vec<u64>>();
        for elements in [
            memory.kinds.iter().map(|&kind| kind.into()).collect(),
            floats(&memory.numbers),
            memory.places.iter().map(|&place| place.into()).collect(),
            floats(&memory.store),
            floats(&memory.corners),
        ] {
            for row in elements.chunks(ROW) {
                self.list.answer(row);
            }
        }
    }

    /// Sets one field of the record.
    pub fn forge(&mut self, field: u64, value: u64) {
        self.list.case("forge", &[field, value]);
        self.ledger = None;
        let at = field as usize;
        let record = &mut self.record;
        let input = &mut record.input;
        match field {
            JOB => record.job = value != 0,
            MIN_X..=3 => input.min[at - 1] = f64::from_bits(value),
            MAX_X..=6 => input.max[at - 4] = f64::from_bits(value),
            CELL => input.cell = f64::from_bits(value),
            INNER => input.inner = short(value),
            LEAF => input.leaf = short(value),
            BAND_MIN => input.band_min = f64::from_bits(value),
            BAND_MAX => input.band_max = f64::from_bits(value),
            COUNT => input.count = short(value),
            KINDS_LENGTH => record.lengths.kinds = value,
            334 => record.lengths.numbers = value,
            335 => record.lengths.places = value,
            336 => record.lengths.store = value,
            CORNERS_LENGTH => record.lengths.corners = value,
            NODES => record.counts.nodes = value,
            ACTIVE => record.counts.active = value,
            LEAVES => record.counts.leaves = value,
            SAMPLED => record.counts.sampled = value,
            EVALUATIONS => record.counts.evaluations = value,
            PARTS..=332 => {
                let place = (at - PARTS as usize) / 5;
                let mut numbers = part_numbers(&input.parts[place]);
                numbers[(at - PARTS as usize) % 5] = value;
                input.parts[place] = part_of(numbers);
            }
            CURSOR..=346 => {
                let mut numbers = cursor_numbers(record.cursor);
                numbers[at - CURSOR as usize] = value;
                record.cursor = cursor_of(numbers);
            }
            _ => unreachable!("no field has this number"),
        }
    }

    /// Sets the record's cursor.
    pub fn cursor(&mut self, cursor: Cursor) {
        for (field, number) in (CURSOR..).zip(cursor_numbers(cursor)) {
            self.forge(field, number);
        }
        self.record.cursor = cursor;
    }

    /// Sets a part of the record's model.
    pub fn part(&mut self, place: u64, part: Part) {
        for (field, number) in (PARTS + 5 * place..).zip(part_numbers(&part)) {
            self.forge(field, number);
        }
        self.record.input.parts[place as usize] = part;
    }

    /// Sets one element.
    pub fn poke(&mut self, slice: u64, place: u64, value: u64) {
        self.list.case("poke", &[slice, place, value]);
        self.ledger = None;
        let at = place as usize;
        match slice {
            KINDS => self.memory.kinds[at] = value as u8,
            NUMBERS => self.memory.numbers[at] = f64::from_bits(value),
            PLACES => self.memory.places[at] = short(value),
            STORE => self.memory.store[at] = f64::from_bits(value),
            CORNERS => self.memory.corners[at] = f64::from_bits(value),
            _ => unreachable!("no slice has this number"),
        }
    }
}
