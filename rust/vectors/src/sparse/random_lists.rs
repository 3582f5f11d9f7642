//! Lists of any calls.

use super::inputs::{self, both, exact};
use super::script::Script;
use crate::random::Random;
use ledger::{Input, Lengths};

const LISTS: usize = 200;

pub fn lists(script: &mut Script) {
    let mut random = Random::new(6);
    let refused = inputs::refused();
    for _ in 0..LISTS {
        let inputs: Vec<Input> = (0..3)
            .map(|_| inputs::random_accepted(&mut random))
            .collect();
        script.lend(room(&mut random, &inputs), random.below(1 << 32));
        let most = 1 + random.below(40);
        for _ in 0..1 + random.below(most) {
            call(script, &mut random, &inputs, &refused);
        }
        script.dump();
    }
}

/// Slices that take all inputs, or all but the last.
fn room(random: &mut Random, inputs: &[Input]) -> Lengths {
    let taken = if random.below(4) == 0 { 2 } else { 3 };
    let room = inputs[..taken].iter().map(exact).reduce(both).unwrap();
    Lengths {
        kinds: room.kinds + random.below(3),
        numbers: room.numbers + random.below(3),
        places: room.places + random.below(3),
        store: room.store + random.below(9),
        corners: room.corners + random.below(3),
    }
}

fn call(script: &mut Script, random: &mut Random, inputs: &[Input], refused: &[Input]) {
    match random.below(24) {
        0 | 1 => {
            let input = &inputs[random.below(3) as usize];
            script.open(input);
        }
        2 => {
            let input = &refused[random.below(refused.len() as u64) as usize];
            script.open(input);
        }
        3 => script.drop(),
        4 if random.below(3) == 0 => script.dump(),
        5 => {
            script.step(u64::MAX);
        }
        6 => {
            script.step(0);
        }
        _ => {
            if !script.record().job && random.below(4) > 0 {
                script.open(&inputs[random.below(3) as usize]);
            }
            let most = random.pick(&[2, 5, 10, 40]);
            script.step(random.below(most));
        }
    }
}
