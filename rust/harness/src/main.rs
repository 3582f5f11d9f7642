//! Runs random lists of calls on the C interface or calls on dense fields, or
//! replays the sample of answers that were compared with the original.
//!
//! usage: harness lists|dense [COUNT [SEED [FIRST]]]
//!        harness sample

use harness::{dense, lists, sample};
use std::process::ExitCode;

const USAGE: &str = "usage: harness lists|dense [COUNT [SEED [FIRST]]], or: harness sample";
const COUNT: u64 = 20_000;
const SEED: u64 = 1;

/// A number of cases, a seed and the first case. None where a word is no number.
fn numbers(words: &[&str]) -> Option<[u64; 3]> {
    let mut numbers = [COUNT, SEED, 0];
    for (at, word) in words.iter().enumerate() {
        *numbers.get_mut(at)? = word.parse().ok()?;
    }
    Some(numbers)
}

fn run(words: &[&str]) -> Option<Result<String, String>> {
    match words {
        ["sample"] => Some(sample::replay()),
        ["lists", words @ ..] => {
            let [count, seed, first] = numbers(words)?;
            let tally = lists::run(first, count, seed);
            Some(tally.map(|tally| tally.to_string()))
        }
        ["dense", words @ ..] => {
            let [count, seed, first] = numbers(words)?;
            Some(dense::run(first, count, seed))
        }
        _ => None,
    }
}

fn main() -> ExitCode {
    let words: Vec<String> = std::env::args().skip(1).collect();
    let words: Vec<&str> = words.iter().map(String::as_str).collect();
    match run(&words) {
        Some(Ok(report)) => {
            println!("{report}");
            ExitCode::SUCCESS
        }
        Some(Err(difference)) => {
            println!("harness: FAILED: {difference}");
            ExitCode::FAILURE
        }
        None => {
            eprintln!("{USAGE}");
            ExitCode::from(2)
        }
    }
}
