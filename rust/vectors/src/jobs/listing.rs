//! What `fieldlist` prints.

use super::text::read;
use crate::sparse::original;
use ledger::floats::NAN;
use ledger::{Answer, Call, Input, Ledger, Lengths, Memory, Part};
use std::fmt::Write;

/// The slices that the program lends.
pub const LENT: Lengths = Lengths {
    kinds: 512,
    numbers: 512,
    places: 512,
    store: 4096,
    corners: 125,
};

/// The bits of a NaN leaf value. Min and max of two NaNs copy the first, and
/// give no other NaN. So the way goes from the last part through first
/// operands of min and max, to a constant or to what is computed.
fn nan_bits(parts: &[Part]) -> u64 {
    let mut place = parts.len() - 1;
    loop {
        match parts[place] {
            Part::Min(first, _) | Part::Max(first, _) => place = first as usize,
            Part::Const(value) => return value.to_bits(),
            _ => return NAN,
        }
    }
}

/// Ends where a NaN has other bits than the model says, or an average has
/// other bits than a computed NaN.
fn hold_nan_bits(input: &Input, memory: &Memory) {
    let nans = |values: &[f64]| -> Vec<u64> {
        let nans = values.iter().filter(|value| value.is_nan());
        nans.map(|value| value.to_bits()).collect()
    };
    let copied = nan_bits(&input.parts);
    assert!(nans(&memory.store).iter().all(|&bits| bits == copied));
    assert!(nans(&memory.numbers).iter().all(|&bits| bits == NAN));
}

/// The lines of the active children.
fn children(input: &Input, memory: &Memory) -> String {
    let children = (input.inner as usize).pow(3);
    let points = (input.leaf as usize).pow(3);
    let mut lines = String::new();
    for (place, kind) in memory.kinds.iter().enumerate() {
        let (word, from) = match kind {
            0 => continue,
            1 => ("constant", &memory.numbers[place..][..1]),
            _ => {
                let from = memory.places[place] as usize * points;
                ("leaf", &memory.store[from..][..points])
            }
        };
        let (node, child) = (place / children, place % children);
        write!(lines, "({word} {node} {child}").unwrap();
        for value in from {
            write!(lines, " {:016x}", value.to_bits()).unwrap();
        }
        lines.push_str(")\n");
    }
    lines
}

/// What the ledger says of a job that is opened and run to its end. The
/// original is held against it.
fn of_job(input: Input) -> String {
    let mut ledger = Ledger::new(Memory::zero(LENT));
    if let Answer::Refused(cause) = ledger.call(&Call::Open(input.clone())) {
        return format!("(refused {cause})\n");
    }
    ledger.call(&Call::Step(u64::MAX));
    let counts = ledger.counts().expect("an open job");
    let memory = ledger.elements();
    original::holds(&input, &memory);
    hold_nan_bits(&input, &memory);
    format!(
        "(done {} {} {} {} {})\n{}",
        counts.nodes,
        counts.active,
        counts.leaves,
        counts.sampled,
        counts.evaluations,
        children(&input, &memory)
    )
}

/// The listing of a text.
pub fn listing(text: &[u8]) -> String {
    match read(text) {
        Ok(input) => of_job(input),
        Err(line) => format!("(refused 12 {line})\n"),
    }
}
