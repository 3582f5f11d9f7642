//! The engine's calls on arrays and slices. All unsafe code of this crate is here.
//!
//! What the C functions ask of their caller, Rust's references give: a pointer
//! comes from a reference to an array of the length that the function takes, or
//! from a slice, whose length goes with it; it is aligned, and not null for an
//! empty slice either. What a function may write comes from `&mut`, so it overlaps
//! nothing else of the call, and no other call has it at the same time. The
//! functions keep no pointer after they return, and take any numbers.

use crate::dense::Dimensions;
use crate::memory::{Lengths, Memory};
use crate::model::LaidOut;
use crate::record::Record;
use crate::refusal::Refusal;
use crate::sys;

/// What an answer says.
fn accepted(answer: u32) -> Result<(), Refusal> {
    match Refusal::from_number(answer) {
        None => Ok(()),
        Some(refusal) => Err(refusal),
    }
}

/// What a step of a walk says: what stands at the cursor, or that it is past the
/// last one.
fn walked<T>(answer: u32, found: T) -> Result<Option<T>, Refusal> {
    if answer == sys::DONE {
        return Ok(None);
    }
    accepted(answer).map(|()| Some(found))
}

/// The result of a call that the engine has no cause to refuse. Panics where it
/// does.
pub fn certain<T>(result: Result<T, Refusal>) -> T {
    result.unwrap_or_else(|refusal| panic!("a call that cannot be refused was {refusal}"))
}

/// The version of the archive.
pub fn version() -> u32 {
    // SAFETY: the function takes nothing.
    unsafe { sys::jisampode_version() }
}

pub fn lengths(
    settings: &[f64; sys::SETTINGS],
    (inner, leaf): (u32, u32),
    model: &LaidOut,
) -> Result<Lengths, Refusal> {
    let mut lengths = [0; 5];
    // SAFETY: settings, the model's arrays and the lengths have as many elements as
    // the header names. The lengths are our own.
    accepted(unsafe {
        sys::jisampode_lengths(
            settings.as_ptr(),
            inner,
            leaf,
            model.parts.as_ptr(),
            model.reals.as_ptr(),
            model.count,
            lengths.as_mut_ptr(),
        )
    })?;
    let [kinds, numbers, places, store, corners] = lengths;
    Ok(Lengths {
        kinds,
        numbers,
        places,
        store,
        corners,
    })
}

pub fn open(
    settings: &[f64; sys::SETTINGS],
    (inner, leaf): (u32, u32),
    model: &LaidOut,
    record: &mut Record,
    memory: &mut Memory<'_>,
) -> Result<(), Refusal> {
    // SAFETY: settings, the model's arrays and the record's are references to
    // arrays of the lengths that the header names. The record's and the five
    // slices are borrowed mutably, each by itself.
    accepted(unsafe {
        sys::jisampode_open(
            settings.as_ptr(),
            inner,
            leaf,
            model.parts.as_ptr(),
            model.reals.as_ptr(),
            model.count,
            record.words.as_mut_ptr(),
            record.parts.as_mut_ptr(),
            record.settings.as_mut_ptr(),
            record.reals.as_mut_ptr(),
            memory.kinds.as_mut_ptr(),
            memory.kinds.len(),
            memory.numbers.as_mut_ptr(),
            memory.numbers.len(),
            memory.places.as_mut_ptr(),
            memory.places.len(),
            memory.store.as_mut_ptr(),
            memory.store.len(),
            memory.corners.as_mut_ptr(),
            memory.corners.len(),
        )
    })
}

pub fn step(budget: u64, record: &mut Record, memory: &mut Memory<'_>) -> Result<(), Refusal> {
    // SAFETY: the record's arrays have the lengths that the header names. They and
    // the five slices are borrowed mutably, each by itself.
    accepted(unsafe {
        sys::jisampode_step(
            budget,
            record.words.as_mut_ptr(),
            record.parts.as_mut_ptr(),
            record.settings.as_mut_ptr(),
            record.reals.as_mut_ptr(),
            memory.kinds.as_mut_ptr(),
            memory.kinds.len(),
            memory.numbers.as_mut_ptr(),
            memory.numbers.len(),
            memory.places.as_mut_ptr(),
            memory.places.len(),
            memory.store.as_mut_ptr(),
            memory.store.len(),
            memory.corners.as_mut_ptr(),
            memory.corners.len(),
        )
    })
}

/// Ends the job, zeroes the memory, and leaves a record without a job.
pub fn drop(record: &mut Record, memory: &mut Memory<'_>) {
    // SAFETY: as for `step`. The engine never refuses this call, and its answer is
    // always 0.
    unsafe {
        sys::jisampode_drop(
            record.words.as_mut_ptr(),
            record.parts.as_mut_ptr(),
            record.settings.as_mut_ptr(),
            record.reals.as_mut_ptr(),
            memory.kinds.as_mut_ptr(),
            memory.kinds.len(),
            memory.numbers.as_mut_ptr(),
            memory.numbers.len(),
            memory.places.as_mut_ptr(),
            memory.places.len(),
            memory.store.as_mut_ptr(),
            memory.store.len(),
            memory.corners.as_mut_ptr(),
            memory.corners.len(),
        );
    }
}

/// Nodes, active children, leaves, sampled, evaluations.
pub fn counts(record: &Record) -> Result<[u64; 5], Refusal> {
    let mut counts = [0; 5];
    // SAFETY: the words are 18, read alone; the counts are five, borrowed mutably.
    accepted(unsafe { sys::jisampode_counts(record.words.as_ptr(), counts.as_mut_ptr()) })?;
    Ok(counts)
}

/// Which of the three places, the node, the corner or child, the point.
pub fn cursor(record: &Record) -> Result<[u64; 4], Refusal> {
    let mut cursor = [0; 4];
    // SAFETY: the words are 18, read alone; the cursor has four, borrowed mutably.
    accepted(unsafe { sys::jisampode_cursor(record.words.as_ptr(), cursor.as_mut_ptr()) })?;
    Ok(cursor)
}

pub fn point_count(bounds: &[f64; 6], cell: f64) -> Result<[usize; 3], Refusal> {
    let mut counts = [0; 3];
    // SAFETY: the bounds are six, read alone; the counts are three, borrowed
    // mutably.
    accepted(unsafe { sys::jisampode_point_count(bounds.as_ptr(), cell, counts.as_mut_ptr()) })?;
    Ok(counts)
}

pub fn sample(
    model: &LaidOut,
    [x, y, z]: [f64; 3],
    cell: f64,
    n: Dimensions,
    values: &mut [f64],
) -> Result<(), Refusal> {
    // SAFETY: the model's arrays have the lengths that the header names and are
    // read alone; the values are a slice, borrowed mutably.
    accepted(unsafe {
        sys::jisampode_sample(
            model.parts.as_ptr(),
            model.reals.as_ptr(),
            model.count,
            x,
            y,
            z,
            cell,
            n.x,
            n.y,
            n.z,
            values.as_mut_ptr(),
            values.len(),
        )
    })
}

pub fn padding(n: Dimensions, value: f64, values: &mut [f64]) -> Result<(), Refusal> {
    // SAFETY: the values are a slice, borrowed mutably.
    accepted(unsafe {
        sys::jisampode_padding(n.x, n.y, n.z, value, values.as_mut_ptr(), values.len())
    })
}

pub fn threshold(n: Dimensions, limit: f64, values: &mut [f64]) -> Result<(), Refusal> {
    // SAFETY: the values are a slice, borrowed mutably.
    accepted(unsafe {
        sys::jisampode_threshold(n.x, n.y, n.z, limit, values.as_mut_ptr(), values.len())
    })
}

pub fn smooth(
    n: Dimensions,
    factor: f64,
    rounds: u32,
    values: &mut [f64],
    scratch: &mut [f64],
) -> Result<(), Refusal> {
    // SAFETY: values and scratch are slices, each borrowed mutably by itself.
    accepted(unsafe {
        sys::jisampode_smooth(
            n.x,
            n.y,
            n.z,
            factor,
            rounds,
            values.as_mut_ptr(),
            values.len(),
            scratch.as_mut_ptr(),
            scratch.len(),
        )
    })
}

/// The point at the cursor, which moves on.
pub fn point_step(
    bounds: &[f64; 6],
    n: Dimensions,
    cursor: &mut [usize; 3],
) -> Result<Option<[f64; 3]>, Refusal> {
    let mut point = [0.0; 3];
    // SAFETY: the bounds are six, read alone; cursor and point are arrays of three,
    // each borrowed mutably.
    let answer = unsafe {
        sys::jisampode_point_step(
            bounds.as_ptr(),
            n.x,
            n.y,
            n.z,
            cursor.as_mut_ptr(),
            point.as_mut_ptr(),
        )
    };
    walked(answer, point)
}

/// The cell at the cursor, which moves on.
pub fn cell_step(
    bounds: &[f64; 6],
    n: Dimensions,
    cursor: &mut [usize; 3],
) -> Result<Option<[f64; 6]>, Refusal> {
    let mut cell = [0.0; 6];
    // SAFETY: the bounds are six, read alone; the cursor is an array of three and
    // the cell one of six, each borrowed mutably.
    let answer = unsafe {
        sys::jisampode_cell_step(
            bounds.as_ptr(),
            n.x,
            n.y,
            n.z,
            cursor.as_mut_ptr(),
            cell.as_mut_ptr(),
        )
    };
    walked(answer, cell)
}

/// The values at the corners of the cell at the cursor, which moves on.
pub fn octet_step(
    n: Dimensions,
    values: &[f64],
    cursor: &mut [usize; 3],
) -> Result<Option<[f64; 8]>, Refusal> {
    let mut octet = [0.0; 8];
    // SAFETY: the values are a slice, read alone; the cursor is an array of three
    // and the octet one of eight, each borrowed mutably.
    let answer = unsafe {
        sys::jisampode_octet_step(
            n.x,
            n.y,
            n.z,
            values.as_ptr(),
            values.len(),
            cursor.as_mut_ptr(),
            octet.as_mut_ptr(),
        )
    };
    walked(answer, octet)
}

/// Writes a job's listing at the front of the bytes, and hands back its length.
pub fn list_job(text: &[u8], listing: &mut [u8]) -> Result<usize, Refusal> {
    let mut written = [0usize; 1];
    // SAFETY: the text is a slice, read alone; the listing is a slice and the
    // length an array of one, each borrowed mutably.
    accepted(unsafe {
        sys::jisampode_list_job(
            text.as_ptr(),
            text.len(),
            listing.as_mut_ptr(),
            listing.len(),
            written.as_mut_ptr(),
        )
    })?;
    Ok(written[0])
}
