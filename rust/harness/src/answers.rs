//! What the C interface answers to a whole job and to a call on a dense field,
//! as numbers: the refusal's number or 0, then the results. Where answers are
//! compared with the original's, every NaN has one pattern.

use crate::arrays::{Model, Opening};
use crate::guarded::Guarded;
use crate::host::Host;
use crate::poison;
use cases::bits::result;
use cases::dense::{Case, Walk};
use cases::dense_rules::{Bounds, Triple};
use cases::inputs::exact;
use cases::jobs::{refusal, Job};
use jisampode::sys::{self, DONE};
use ledger::Lengths;

/// Slices for an input that is refused whatever is lent.
const SOME: Lengths = Lengths {
    kinds: 8,
    numbers: 8,
    places: 8,
    store: 64,
    corners: 27,
};

/// A job that runs through: counts, then for each child 0, or 1 and its number,
/// or 2 and its leaf's values.
pub fn job(job: &Job) -> Result<Vec<u64>, String> {
    let mut random = job.random.clone();
    let lengths = match refusal(&job.input) {
        Some(_) => SOME,
        None => exact(&job.input),
    };
    let memory = poison::memory(&mut random, lengths);
    let mut host = Host::new(&poison::record(&mut random), &memory);
    let mut opening = Opening::of(&job.input);
    poison::unused(&mut random, &mut opening);
    let answer = host.open(&opening);
    host.guards_hold()?;
    if answer != 0 {
        host.holds(&memory)?;
        return Ok(vec![answer.into()]);
    }
    for &budget in &job.budgets {
        let answer = host.step(budget);
        host.guards_hold()?;
        if answer != 0 {
            return Err(format!("a step answers {answer}"));
        }
    }
    if host.cursor().map(|cursor| cursor[0]) != Ok(0) {
        return Err("the job is not finished".into());
    }
    let counts = host.counts().map_err(|n| format!("counts answers {n}"))?;
    let mut numbers = vec![0];
    numbers.extend(counts);
    let points = (job.input.leaf as usize).pow(3);
    let mut leaves = 0;
    for (child, &kind) in host.kinds.elements().iter().enumerate() {
        numbers.push(kind.into());
        if kind == 1 {
            numbers.push(one_nan(host.numbers.elements()[child]));
        } else if kind == 2 {
            if host.places.elements()[child] != leaves {
                return Err(format!("child {child} has another leaf's place"));
            }
            let from = leaves as usize * points;
            let values = &host.store.elements()[from..from + points];
            numbers.extend(values.iter().map(|&x| one_nan(x)));
            leaves += 1;
        }
    }
    Ok(numbers)
}

/// What a float's bits count as.
pub type Bits = fn(u64) -> u64;

/// Any NaN counts as any other.
pub fn one_nan(bits: u64) -> u64 {
    result(f64::from_bits(bits))
}

pub fn as_it_is(bits: u64) -> u64 {
    bits
}

fn bits_of(floats: &[f64]) -> Vec<u64> {
    floats.iter().map(|x| x.to_bits()).collect()
}

/// A call on a dense field, steps of a walk, or a corner list. A refused call
/// is held to have changed nothing, and guard bytes to what they were.
pub fn dense(case: &Case, float: Bits) -> Result<Vec<u64>, String> {
    match case {
        Case::Count(bounds, cell) => Ok(count(bounds, *cell)),
        Case::Sample {
            parts,
            origin: [x, y, z],
            cell,
            n,
            length,
        } => {
            let model = Model::of(parts);
            let before = vec![100.0; *length];
            changed(float, &before, &mut [], |values, length, _| unsafe {
                sys::jisampode_sample(
                    model.parts.as_ptr(),
                    model.reals.as_ptr().cast(),
                    parts.len() as u32,
                    *x,
                    *y,
                    *z,
                    *cell,
                    n[0],
                    n[1],
                    n[2],
                    values,
                    length,
                )
            })
        }
        Case::Padding(n, value, values) => {
            changed(float, values, &mut [], |values, length, _| unsafe {
                sys::jisampode_padding(n[0], n[1], n[2], *value, values, length)
            })
        }
        Case::Threshold(n, limit, values) => {
            changed(float, values, &mut [], |values, length, _| unsafe {
                sys::jisampode_threshold(n[0], n[1], n[2], *limit, values, length)
            })
        }
        Case::Smooth {
            n,
            factor,
            rounds,
            values,
            scratch,
        } => {
            let mut scratch = vec![100.0f64.to_bits(); *scratch];
            let (i, j, k) = (n[0], n[1], n[2]);
            let (factor, rounds) = (*factor, *rounds);
            changed(
                float,
                values,
                &mut scratch,
                |values, length, scratch| unsafe {
                    let (first, other) = (scratch.floats(), scratch.length());
                    sys::jisampode_smooth(i, j, k, factor, rounds, values, length, first, other)
                },
            )
        }
        Case::Points(bounds, walk) => walked::<3>(float, walk, |cursor, point| unsafe {
            let ([nx, ny, nz], bounds) = (walk.n, flat(bounds));
            sys::jisampode_point_step(bounds.as_ptr(), nx, ny, nz, cursor, point)
        }),
        Case::Cells(bounds, walk) => walked::<6>(float, walk, |cursor, cell| unsafe {
            let ([nx, ny, nz], bounds) = (walk.n, flat(bounds));
            sys::jisampode_cell_step(bounds.as_ptr(), nx, ny, nz, cursor, cell)
        }),
        Case::Octets(walk, values) => {
            let mut lent = Guarded::new(&bits_of(values));
            let length = lent.length();
            let first = lent.floats();
            let steps = walked::<8>(float, walk, |cursor, octet| unsafe {
                let [nx, ny, nz] = walk.n;
                sys::jisampode_octet_step(nx, ny, nz, first, length, cursor, octet)
            });
            if lent.elements() != bits_of(values) || !lent.guards_hold() {
                return Err("an octet walk has changed the values".into());
            }
            steps
        }
        Case::Corners(inner, active) => corner_list(*inner, active),
    }
}

fn flat([min, max]: &Bounds) -> [f64; 6] {
    [min[0], min[1], min[2], max[0], max[1], max[2]]
}

fn count(bounds: &Bounds, cell: f64) -> Vec<u64> {
    let mut counts = Guarded::new(&[usize::MAX; 3]);
    let bounds = flat(bounds);
    let answer = unsafe { sys::jisampode_point_count(bounds.as_ptr(), cell, counts.pointer()) };
    match crate::host::handed_back::<usize, 3>(answer, &counts, usize::MAX) {
        Ok(counts) => [0].into_iter().chain(counts.map(|n| n as u64)).collect(),
        Err(refused) => vec![refused.into()],
    }
}

/// A call that changes a field's values, and a scratch. An accepted call has
/// the values and how many numbers of the scratch are not 0.
fn changed(
    float: Bits,
    before: &[f64],
    scratch: &mut [u64],
    call: impl Fn(*mut f64, usize, &mut Guarded<u64>) -> u32,
) -> Result<Vec<u64>, String> {
    let mut values = Guarded::new(&bits_of(before));
    let mut lent = Guarded::new(scratch);
    let length = values.length();
    let answer = call(values.floats(), length, &mut lent);
    if !values.guards_hold() || !lent.guards_hold() {
        return Err("a guard byte beside values or scratch has changed".into());
    }
    if answer != 0 {
        if values.elements() != bits_of(before) || lent.elements() != scratch {
            return Err("a refused call has changed its values or its scratch".into());
        }
        return Ok(vec![answer.into()]);
    }
    let mut numbers = vec![0];
    numbers.extend(values.elements().iter().map(|&x| float(x)));
    let left = lent.elements().iter().filter(|&&x| x != 0).count();
    numbers.push(left as u64);
    Ok(numbers)
}

/// Steps of a walk: for each 1, what it hands out and the next cursor; where it
/// is done or refused its answer, and no more.
fn walked<const N: usize>(
    float: Bits,
    walk: &Walk,
    step: impl Fn(*mut usize, *mut f64) -> u32,
) -> Result<Vec<u64>, String> {
    let mut cursor = Guarded::new(&walk.from);
    let mut numbers = Vec::new();
    for _ in 0..walk.steps {
        let before: Triple = std::array::from_fn(|axis| cursor.elements()[axis]);
        let mut out = Guarded::new(&[u64::MAX; N]);
        let answer = step(cursor.pointer(), out.floats());
        if !cursor.guards_hold() || !out.guards_hold() {
            return Err("a guard byte beside a walk's cursor or result has changed".into());
        }
        if answer != 0 {
            if cursor.elements() != before || out.elements() != [u64::MAX; N] {
                return Err(format!("a walk's step that answers {answer} has written"));
            }
            numbers.push(if answer == DONE { 0 } else { answer.into() });
            break;
        }
        numbers.push(1);
        numbers.extend(out.elements().iter().map(|&x| float(x)));
        numbers.extend(cursor.elements().iter().map(|&n| n as u64));
    }
    Ok(numbers)
}

/// The count, and the corners ascending.
fn corner_list(inner: u32, active: &[bool]) -> Result<Vec<u64>, String> {
    let kinds: Vec<u8> = active.iter().map(|&is| u8::from(is)).collect();
    let mut kinds = Guarded::new(&kinds);
    let most = (inner as usize + 1).pow(3);
    let mut list = Guarded::new(&vec![u32::MAX; most + 3]);
    let mut count = Guarded::new(&[usize::MAX]);
    let answer = unsafe {
        sys::jisampode_corner_list(
            inner,
            kinds.pointer(),
            active.len(),
            list.pointer(),
            list.length(),
            count.pointer(),
        )
    };
    if !kinds.guards_hold() || !list.guards_hold() || !count.guards_hold() {
        return Err("a guard byte beside a corner list has changed".into());
    }
    if answer != 0 {
        return Ok(vec![answer.into()]);
    }
    let count = count.elements()[0];
    let (listed, rest) = list.elements().split_at(count.min(most));
    if rest.iter().any(|&corner| corner != 0) {
        return Err("the rest of a corner list is not 0".into());
    }
    let mut corners: Vec<u64> = listed.iter().map(|&corner| corner.into()).collect();
    corners.sort_unstable();
    let mut numbers = vec![0, count as u64];
    numbers.extend(corners);
    Ok(numbers)
}
