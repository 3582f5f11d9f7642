//! Writes the lists of stored cases. The same list comes out each time.
//!
//! usage: vectors float|model|dense|grid|sparse|jobs [answers]
//!        vectors sparse|jobs whole [NUMBER]
//!        vectors listing < JOB

mod dense;
mod fields;
mod floats;
mod grid_rules;
mod grids;
mod jobs;
mod models;
mod sparse;
mod whole;

use cases::{bits, random};
use std::io::{self, Read, Write};
use std::process::ExitCode;

fn main() -> ExitCode {
    let words: Vec<String> = std::env::args().skip(1).collect();
    let words: Vec<&str> = words.iter().map(String::as_str).collect();
    let written = match words[..] {
        ["float"] => floats::list().into_bytes(),
        ["model"] => models::list().into_bytes(),
        ["dense"] => dense::list().cases.into_bytes(),
        ["dense", "answers"] => dense::list().answers.into_bytes(),
        ["grid"] => grids::list().cases.into_bytes(),
        ["grid", "answers"] => grids::list().answers.into_bytes(),
        ["sparse"] => sparse::lists().list.cases.into_bytes(),
        ["sparse", "answers"] => whole::digests(&sparse::lists().answers()).into_bytes(),
        ["jobs"] => jobs::list().cases,
        ["jobs", "answers"] => whole::digests(&jobs::list().answers).into_bytes(),
        [list @ ("sparse" | "jobs"), "whole", ref number @ ..] if number.len() < 2 => {
            let answers = match list {
                "sparse" => sparse::lists().answers(),
                _ => jobs::list().answers,
            };
            match whole::whole(&answers, number.first().copied()) {
                Some(whole) => whole.into_bytes(),
                None => return usage(),
            }
        }
        ["listing"] => match listing() {
            Ok(lines) => lines,
            Err(error) => return failed(&error),
        },
        _ => return usage(),
    };
    match io::stdout().write_all(&written) {
        Ok(()) => ExitCode::SUCCESS,
        Err(error) => failed(&error),
    }
}

/// The listing of the job text on standard input.
fn listing() -> io::Result<Vec<u8>> {
    let mut text = Vec::new();
    io::stdin().read_to_end(&mut text)?;
    Ok(jobs::listing(&text).into_bytes())
}

fn usage() -> ExitCode {
    eprintln!("usage: vectors float|model|dense|grid|sparse|jobs [answers]");
    eprintln!("       vectors sparse|jobs whole [NUMBER]");
    eprintln!("       vectors listing < JOB");
    ExitCode::from(2)
}

fn failed(error: &io::Error) -> ExitCode {
    eprintln!("vectors: {error}");
    ExitCode::FAILURE
}
