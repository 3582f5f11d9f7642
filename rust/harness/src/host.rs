//! A record and five slices, lent to the C interface between guard bytes.

use crate::arrays::{Model, Opening, RecordArrays};
use crate::guarded::{Element, Guarded};
use jisampode::sys;
use ledger::{Lengths, Memory};
use std::fmt::LowerHex;

#[derive(Clone)]
pub struct Host {
    pub words: Guarded<u64>,
    pub parts: Guarded<u32>,
    pub settings: Guarded<u64>,
    pub reals: Guarded<u64>,
    pub kinds: Guarded<u8>,
    pub numbers: Guarded<u64>,
    pub places: Guarded<u32>,
    pub store: Guarded<u64>,
    pub corners: Guarded<u64>,
}

fn bits(floats: &[f64]) -> Guarded<u64> {
    let bits: Vec<u64> = floats.iter().map(|x| x.to_bits()).collect();
    Guarded::new(&bits)
}

fn floats(bits: &Guarded<u64>) -> Vec<f64> {
    bits.elements().iter().map(|&x| f64::from_bits(x)).collect()
}

/// The first place at which two slices differ, with both elements.
fn same<T: PartialEq + LowerHex>(name: &str, got: &[T], expected: &[T]) -> Result<(), String> {
    if got.len() != expected.len() {
        return Err(format!("{name} has another length than expected"));
    }
    match got.iter().zip(expected).position(|(a, b)| a != b) {
        None => Ok(()),
        Some(place) => Err(format!(
            "{name}[{place}] is {:x}, not {:x}",
            got[place], expected[place]
        )),
    }
}

/// Writes the lengths that an open needs.
pub fn lengths(opening: &Opening, lengths: &mut [usize; 5]) -> u32 {
    unsafe {
        sys::jisampode_lengths(
            opening.settings.as_ptr().cast(),
            opening.inner,
            opening.leaf,
            opening.model.parts.as_ptr(),
            opening.model.reals.as_ptr().cast(),
            opening.count,
            lengths.as_mut_ptr(),
        )
    }
}

impl Host {
    pub fn new(record: &RecordArrays, memory: &Memory) -> Host {
        Host {
            words: Guarded::new(&record.words),
            parts: Guarded::new(&record.model.parts),
            settings: Guarded::new(&record.settings),
            reals: Guarded::new(&record.model.reals),
            kinds: Guarded::new(&memory.kinds),
            numbers: bits(&memory.numbers),
            places: Guarded::new(&memory.places),
            store: bits(&memory.store),
            corners: bits(&memory.corners),
        }
    }

    pub fn open(&mut self, opening: &Opening) -> u32 {
        unsafe {
            sys::jisampode_open(
                opening.settings.as_ptr().cast(),
                opening.inner,
                opening.leaf,
                opening.model.parts.as_ptr(),
                opening.model.reals.as_ptr().cast(),
                opening.count,
                self.words.pointer(),
                self.parts.pointer(),
                self.settings.floats(),
                self.reals.floats(),
                self.kinds.pointer(),
                self.kinds.length(),
                self.numbers.floats(),
                self.numbers.length(),
                self.places.pointer(),
                self.places.length(),
                self.store.floats(),
                self.store.length(),
                self.corners.floats(),
                self.corners.length(),
            )
        }
    }

    pub fn step(&mut self, budget: u64) -> u32 {
        unsafe {
            sys::jisampode_step(
                budget,
                self.words.pointer(),
                self.parts.pointer(),
                self.settings.floats(),
                self.reals.floats(),
                self.kinds.pointer(),
                self.kinds.length(),
                self.numbers.floats(),
                self.numbers.length(),
                self.places.pointer(),
                self.places.length(),
                self.store.floats(),
                self.store.length(),
                self.corners.floats(),
                self.corners.length(),
            )
        }
    }

    pub fn drop(&mut self) -> u32 {
        unsafe {
            sys::jisampode_drop(
                self.words.pointer(),
                self.parts.pointer(),
                self.settings.floats(),
                self.reals.floats(),
                self.kinds.pointer(),
                self.kinds.length(),
                self.numbers.floats(),
                self.numbers.length(),
                self.places.pointer(),
                self.places.length(),
                self.store.floats(),
                self.store.length(),
                self.corners.floats(),
                self.corners.length(),
            )
        }
    }

    /// The counts, or the refusal.
    pub fn counts(&mut self) -> Result<[u64; 5], u32> {
        let mut counts = Guarded::new(&[u64::MAX; 5]);
        let answer = unsafe { sys::jisampode_counts(self.words.pointer(), counts.pointer()) };
        handed_back(answer, &counts, u64::MAX)
    }

    /// The cursor's four numbers, or the refusal.
    pub fn cursor(&mut self) -> Result<[u64; 4], u32> {
        let mut cursor = Guarded::new(&[u64::MAX; 4]);
        let answer = unsafe { sys::jisampode_cursor(self.words.pointer(), cursor.pointer()) };
        handed_back(answer, &cursor, u64::MAX)
    }

    pub fn record(&self) -> RecordArrays {
        let array = "the arrays have their lengths";
        RecordArrays {
            words: self.words.elements().try_into().expect(array),
            settings: self.settings.elements().try_into().expect(array),
            model: Model {
                parts: self.parts.elements().try_into().expect(array),
                reals: self.reals.elements().try_into().expect(array),
            },
        }
    }

    pub fn lengths(&self) -> Lengths {
        Lengths {
            kinds: self.kinds.length() as u64,
            numbers: self.numbers.length() as u64,
            places: self.places.length() as u64,
            store: self.store.length() as u64,
            corners: self.corners.length() as u64,
        }
    }

    pub fn memory(&self) -> Memory {
        Memory {
            kinds: self.kinds.elements().to_vec(),
            numbers: floats(&self.numbers),
            places: self.places.elements().to_vec(),
            store: floats(&self.store),
            corners: floats(&self.corners),
        }
    }

    /// How many elements the slices have.
    pub fn elements(&self) -> u64 {
        let lengths = self.lengths();
        let shorter = lengths.kinds + lengths.numbers + lengths.places;
        shorter + lengths.store + lengths.corners
    }

    /// How many bytes the slices have.
    pub fn bytes(&self) -> u64 {
        let lengths = self.lengths();
        let floats = lengths.numbers + lengths.store + lengths.corners;
        lengths.kinds + 4 * lengths.places + 8 * floats
    }

    /// Holds every element to another memory, floats by their bits.
    pub fn holds(&self, memory: &Memory) -> Result<(), String> {
        let bits = |floats: &[f64]| floats.iter().map(|x| x.to_bits()).collect::<Vec<_>>();
        same("kinds", self.kinds.elements(), &memory.kinds)?;
        same("numbers", self.numbers.elements(), &bits(&memory.numbers))?;
        same("places", self.places.elements(), &memory.places)?;
        same("store", self.store.elements(), &bits(&memory.store))?;
        same("corners", self.corners.elements(), &bits(&memory.corners))
    }

    /// Holds the record's arrays to others.
    pub fn holds_record(&self, record: &RecordArrays) -> Result<(), String> {
        same("record_words", self.words.elements(), &record.words)?;
        same("record_parts", self.parts.elements(), &record.model.parts)?;
        same(
            "record_settings",
            self.settings.elements(),
            &record.settings,
        )?;
        same("record_reals", self.reals.elements(), &record.model.reals)
    }

    /// Holds every guard byte to what it was made.
    pub fn guards_hold(&self) -> Result<(), String> {
        for (name, hold) in [
            ("record_words", self.words.guards_hold()),
            ("record_parts", self.parts.guards_hold()),
            ("record_settings", self.settings.guards_hold()),
            ("record_reals", self.reals.guards_hold()),
            ("kinds", self.kinds.guards_hold()),
            ("numbers", self.numbers.guards_hold()),
            ("places", self.places.guards_hold()),
            ("store", self.store.guards_hold()),
            ("corners", self.corners.guards_hold()),
        ] {
            if !hold {
                return Err(format!("a guard byte beside {name} has changed"));
            }
        }
        Ok(())
    }
}

/// What an accepted call wrote. A refused one has written nothing.
pub fn handed_back<T: Element, const N: usize>(
    answer: u32,
    written: &Guarded<T>,
    before: T,
) -> Result<[T; N], u32> {
    assert!(written.guards_hold(), "a guard byte has changed");
    if answer != 0 {
        let unchanged = written.elements().iter().all(|x| *x == before);
        assert!(unchanged, "a refused call has written");
        return Err(answer);
    }
    let elements = written.elements();
    Ok(std::array::from_fn(|at| elements[at]))
}
