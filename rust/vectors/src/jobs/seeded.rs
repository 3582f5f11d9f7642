//! Texts of the first jobs that the differential harness compares with the
//! original.

use super::listing::LENT;
use super::text::written;
use super::List;
use cases::digest::SEED;
use cases::jobs::numbered;
use ledger::grid::cause;
use ledger::Input;

const JOBS: usize = 120;

pub fn texts(list: &mut List) {
    let inputs = (0..).map(|number| numbered(SEED, number).input);
    for input in inputs.filter(fits).take(JOBS) {
        list.add(written(&input));
    }
}

/// Whether a text gives all its parts, and the program's slices take it.
fn fits(input: &Input) -> bool {
    input.count as usize <= input.parts.len() && cause(input, LENT) != Some(6)
}
