//! Jobs of a sparse field, on a record and lent memory, and listings. All calls
//! are to be accepted.

use super::{Layout, ROW};

extern "C" {
    fn jisampode_open(
        settings: &[f64; 9],
        inner: u32,
        leaf: u32,
        parts: &[u32; 3 * ROW],
        reals: &[f64; 4 * ROW],
        count: u32,
        record_words: &mut [u64; 18],
        record_parts: &mut [u32; 3 * ROW],
        record_settings: &mut [f64; 9],
        record_reals: &mut [f64; 4 * ROW],
        kinds: *mut u8,
        kinds_length: usize,
        numbers: *mut f64,
        numbers_length: usize,
        places: *mut u32,
        places_length: usize,
        store: *mut f64,
        store_length: usize,
        corners: *mut f64,
        corners_length: usize,
    ) -> u32;
    fn jisampode_step(
        budget: u64,
        record_words: &mut [u64; 18],
        record_parts: &mut [u32; 3 * ROW],
        record_settings: &mut [f64; 9],
        record_reals: &mut [f64; 4 * ROW],
        kinds: *mut u8,
        kinds_length: usize,
        numbers: *mut f64,
        numbers_length: usize,
        places: *mut u32,
        places_length: usize,
        store: *mut f64,
        store_length: usize,
        corners: *mut f64,
        corners_length: usize,
    ) -> u32;
    fn jisampode_counts(record_words: &[u64; 18], counts: &mut [u64; 5]) -> u32;
    fn jisampode_list_job(
        text: *const u8,
        text_length: usize,
        listing: *mut u8,
        listing_length: usize,
        written: &mut [usize; 1],
    ) -> u32;
}

/// The grid of a job, and its band's two limits.
#[derive(Clone, Copy)]
pub struct Grid {
    pub min: [f64; 3],
    pub max: [f64; 3],
    pub cell: f64,
    pub inner: u32,
    pub leaf: u32,
    pub band: [f64; 2],
}

impl Grid {
    fn settings(&self) -> [f64; 9] {
        let mut settings = [0.0; 9];
        settings[..3].copy_from_slice(&self.min);
        settings[3..6].copy_from_slice(&self.max);
        settings[6] = self.cell;
        settings[7..].copy_from_slice(&self.band);
        settings
    }
}

/// The record of a job: the four arrays that its calls hand on.
pub struct Record {
    words: [u64; 18],
    parts: [u32; 3 * ROW],
    settings: [f64; 9],
    reals: [f64; 4 * ROW],
}

impl Record {
    /// A record without a job.
    pub fn new() -> Record {
        Record {
            words: [0; 18],
            parts: [0; 3 * ROW],
            settings: [0.0; 9],
            reals: [0.0; 4 * ROW],
        }
    }

    pub fn counts(&self) -> Counts {
        let mut counts = [0; 5];
        let answer = unsafe { jisampode_counts(&self.words, &mut counts) };
        assert_eq!(answer, 0, "a call was refused");
        let [_, active, leaves, _, evaluations] = counts;
        Counts {
            active,
            leaves,
            evaluations,
        }
    }
}

/// What the benchmark reads of a job's counts.
pub struct Counts {
    pub active: u64,
    pub leaves: u64,
    pub evaluations: u64,
}

/// The five lent slices.
pub struct Lent {
    pub kinds: Vec<u8>,
    pub numbers: Vec<f64>,
    pub places: Vec<u32>,
    pub store: Vec<f64>,
    pub corners: Vec<f64>,
}

impl Lent {
    /// What a grid of so many children needs where all of them are active.
    pub fn new(grid: &Grid, children: usize) -> Lent {
        let cube = |n: u32| (n as usize).pow(3);
        Lent {
            kinds: vec![0; children],
            numbers: vec![0.0; children],
            places: vec![0; children],
            store: vec![0.0; children * cube(grid.leaf)],
            corners: vec![0.0; cube(grid.inner + 1)],
        }
    }
}

fn open(grid: &Grid, model: &Layout, record: &mut Record, lent: &mut Lent) {
    let answer = unsafe {
        jisampode_open(
            &grid.settings(),
            grid.inner,
            grid.leaf,
            &model.words,
            &model.numbers,
            model.count as u32,
            &mut record.words,
            &mut record.parts,
            &mut record.settings,
            &mut record.reals,
            lent.kinds.as_mut_ptr(),
            lent.kinds.len(),
            lent.numbers.as_mut_ptr(),
            lent.numbers.len(),
            lent.places.as_mut_ptr(),
            lent.places.len(),
            lent.store.as_mut_ptr(),
            lent.store.len(),
            lent.corners.as_mut_ptr(),
            lent.corners.len(),
        )
    };
    assert_eq!(answer, 0, "a call was refused");
}

fn step(budget: u64, record: &mut Record, lent: &mut Lent) {
    let answer = unsafe {
        jisampode_step(
            budget,
            &mut record.words,
            &mut record.parts,
            &mut record.settings,
            &mut record.reals,
            lent.kinds.as_mut_ptr(),
            lent.kinds.len(),
            lent.numbers.as_mut_ptr(),
            lent.numbers.len(),
            lent.places.as_mut_ptr(),
            lent.places.len(),
            lent.store.as_mut_ptr(),
            lent.store.len(),
            lent.corners.as_mut_ptr(),
            lent.corners.len(),
        )
    };
    assert_eq!(answer, 0, "a call was refused");
}

/// Opens a job and makes a step for each budget.
pub fn job(grid: &Grid, model: &Layout, budgets: &[u64], record: &mut Record, lent: &mut Lent) {
    open(grid, model, record, lent);
    for budget in budgets {
        step(*budget, record, lent);
    }
}

/// Writes the listing of a job's text, and answers how many bytes it has.
pub fn list_job(text: &[u8], out: &mut [u8]) -> usize {
    let (place, len) = (out.as_mut_ptr(), out.len());
    let mut written = [0];
    let answer = unsafe { jisampode_list_job(text.as_ptr(), text.len(), place, len, &mut written) };
    assert_eq!(answer, 0, "a call was refused");
    written[0]
}
