//! Our functions, through two static libraries, against the machine's root and
//! the original's calls, in one process. Prints a table of ratios and one of what
//! steps cost; with the word `sparse` the rows of sparse fields and listings
//! alone; or with the word `check` compares the bits of many results.

mod check;
mod fields;
mod host;
mod measure;
mod models;
mod roots;
mod sparse;
mod table;
mod threads;

use std::process::ExitCode;

fn main() -> ExitCode {
    let word = std::env::args().nth(1);
    if word.as_deref() == Some("check") {
        return compare_bits();
    }
    let whole = word.as_deref() != Some("sparse");
    table::head();
    if whole {
        roots::rows();
        models::rows();
    }
    sparse::rows();
    if whole {
        fields::rows();
    }
    sparse::listing::rows();
    table::head_alone();
    sparse::steps();
    ExitCode::SUCCESS
}

fn compare_bits() -> ExitCode {
    let wrong = check::roots::values() + check::floats::values() + check::points::values();
    #[cfg(feature = "original")]
    let wrong = wrong + check::models::values() + check::fields::values() + check::sparse::values();
    #[cfg(not(feature = "original"))]
    println!("check: SKIPPED, the values of models, of fields and of jobs");
    if wrong == 0 {
        ExitCode::SUCCESS
    } else {
        ExitCode::FAILURE
    }
}
