//! Random jobs and dense cases: the C interface against the original, bit for
//! bit, any NaN as any other. Where a cause refuses a call the
//! original is not asked: the answer is the cause's number.
//!
//! usage: differential [JOBS [DENSE [SEED [FIRST]]]]

mod dense;
mod jobs;

use cases::bits::NAN;
use cases::digest::{self, Digest};
use std::panic::{self, AssertUnwindSafe};
use std::process::ExitCode;

const CASES: u64 = 20_000;

/// What was compared.
#[derive(Default)]
struct Tally {
    cases: u64,
    /// Those that a cause refuses.
    refused: u64,
    /// Those that the rules answer and the original has no answer to.
    by_rule: u64,
    numbers: u64,
    /// Those of them that are NaN.
    nans: u64,
    /// The original's leaves and constants.
    leaves: u64,
    constants: u64,
    digest: Digest,
}

/// What a case is expected to answer, and who says so.
enum Expected {
    Original(Vec<u64>),
    Rule(Vec<u64>),
    Refused(u64),
}

impl Tally {
    /// Holds an answer to the expected one.
    fn compare(&mut self, got: Vec<u64>, expected: Expected) -> Result<(), String> {
        let expected = match expected {
            Expected::Original(numbers) => numbers,
            Expected::Rule(numbers) => {
                self.by_rule += 1;
                numbers
            }
            Expected::Refused(cause) => {
                self.refused += 1;
                vec![cause]
            }
        };
        self.cases += 1;
        self.numbers += got.len() as u64;
        self.nans += got.iter().filter(|&&bits| bits == NAN).count() as u64;
        if self.cases <= digest::SAMPLE {
            self.digest.add(&got);
        }
        if got == expected {
            return Ok(());
        }
        let shorter = got.len().min(expected.len());
        let at = (0..shorter).find(|&at| got[at] != expected[at]);
        let at = at.unwrap_or(shorter);
        Err(format!(
            "number {at} of {} is {:x?}, expected {:x?} of {}",
            got.len(),
            got.get(at),
            expected.get(at),
            expected.len()
        ))
    }

    fn report(&self, name: &str) -> String {
        format!(
            "differential: {} {name}, {} refused by a cause, {} answered by a rule alone, \
             {} numbers compared, {} of them NaN, 0 differences",
            self.cases, self.refused, self.by_rule, self.numbers, self.nans
        )
    }
}

/// Runs cases. A panic of the original is a difference too.
fn run(
    name: &str,
    [count, seed, first]: [u64; 3],
    case: impl Fn(u64, &mut Tally) -> Result<(), String>,
) -> Result<Tally, String> {
    let mut tally = Tally::default();
    for number in first..first + count {
        let compared = panic::catch_unwind(AssertUnwindSafe(|| case(number, &mut tally)));
        let compared = compared.unwrap_or_else(|_| Err("the original panics".into()));
        compared.map_err(|what| {
            let [jobs, dense] = if name == "jobs" { [1, 0] } else { [0, 1] };
            format!(
                "{name}, case {number} of seed {seed}: {what}\n\
                 repeat with: differential {jobs} {dense} {seed} {number}"
            )
        })?;
    }
    println!("{}", tally.report(name));
    if tally.leaves + tally.constants > 0 {
        let (leaves, constants) = (tally.leaves, tally.constants);
        println!("differential: {leaves} leaves and {constants} constants in these {name}");
    }
    if seed == digest::SEED && first == 0 && count >= digest::SAMPLE {
        tally.digest.holds(name)?;
    }
    Ok(tally)
}

fn compare([jobs, dense, seed, first]: [u64; 4]) -> Result<String, String> {
    let jobs = run("jobs", [jobs, seed, first], |number, tally| {
        jobs::compare(seed, number, tally)
    })?;
    let dense = run("dense", [dense, seed, first], |number, tally| {
        dense::compare(seed, number, tally)
    })?;
    Ok(format!(
        "differential: {} jobs and {} dense cases, {} numbers compared, 0 differences",
        jobs.cases,
        dense.cases,
        jobs.numbers + dense.numbers
    ))
}

fn main() -> ExitCode {
    // The original's loops run on one thread.
    std::env::set_var("RAYON_NUM_THREADS", "1");
    let mut numbers = [CASES, CASES, digest::SEED, 0];
    for (at, word) in std::env::args().skip(1).enumerate() {
        match (numbers.get_mut(at), word.parse()) {
            (Some(number), Ok(given)) => *number = given,
            _ => {
                eprintln!("usage: differential [JOBS [DENSE [SEED [FIRST]]]]");
                return ExitCode::from(2);
            }
        }
    }
    match compare(numbers) {
        Ok(report) => {
            println!("{report}");
            ExitCode::SUCCESS
        }
        Err(difference) => {
            println!("differential: FAILED: {difference}");
            ExitCode::FAILURE
        }
    }
}
