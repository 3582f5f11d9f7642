//! Random lists of calls. The ledger judges them: it reads the calls, the
//! slices' lengths and their first contents. A model of the records judges
//! calls on forged ones.

use crate::arrays::{count_numbers, cursor_numbers, Opening, Reading, RecordArrays};
use crate::forging::forge;
use crate::host::{self, Host};
use crate::poison;
pub use crate::tally::Tally;
use cases::inputs::{self, both, exact};
use cases::jobs::{self, LARGE, MIDDLE, SMALL};
use cases::random::Random;
use ledger::grid;
use ledger::record::Record;
use ledger::{Answer, Call, Input, Ledger, Lengths};

/// The calls of a list.
const MOST_CALLS: u64 = 60;

/// Runs lists with these numbers. The first that differs is named with its call.
pub fn run(first: u64, count: u64, seed: u64) -> Result<Tally, String> {
    let mut tally = Tally::default();
    for number in first..first + count {
        let mut list = List::new(seed, number, &mut tally);
        let calls = list.calls;
        for call in 0..calls {
            let done = list.random_call().and_then(|()| list.forgings());
            done.map_err(|what| {
                format!(
                    "list {number} of seed {seed}, call {call} of {calls}: {what}\n\
                     repeat with: harness lists 1 {seed} {number}"
                )
            })?;
        }
        tally.lists += 1;
    }
    Ok(tally)
}

struct List<'a> {
    random: Random,
    calls: u64,
    inputs: Vec<Input>,
    host: Host,
    ledger: Ledger,
    /// What the job was opened with.
    opened: Option<Opening>,
    tally: &'a mut Tally,
}

fn number_of(answer: Answer) -> u32 {
    match answer {
        Answer::Accepted => 0,
        Answer::Refused(cause) => cause,
    }
}

/// Slices that take the inputs, or not all of them, exactly or not.
fn room(random: &mut Random, inputs: &[Input]) -> Lengths {
    let taken = random.pick(&[1, inputs.len(), inputs.len()]);
    let mut room = inputs[..taken].iter().map(exact).reduce(both).unwrap();
    let style = random.below(4);
    let lengths = [
        &mut room.kinds,
        &mut room.numbers,
        &mut room.places,
        &mut room.store,
        &mut room.corners,
    ];
    let short = random.below(16);
    for (at, length) in (0..).zip(lengths) {
        *length += match style {
            0 | 1 => 0,
            2 => random.below(4),
            _ => random.pick(&[0, 1, 17, 64]),
        };
        if at == short {
            *length = length.saturating_sub(1);
        }
    }
    room
}

impl List<'_> {
    fn new(seed: u64, number: u64, tally: &mut Tally) -> List<'_> {
        let mut random = Random::new(seed ^ number.wrapping_mul(0x2545_f491_4f6c_dd1d));
        let (size, most) = match random.below(100) {
            0 => (LARGE, MOST_CALLS / 4),
            1..=20 => (MIDDLE, MOST_CALLS),
            _ => (SMALL, MOST_CALLS),
        };
        let mut inputs: Vec<Input> = (0..1 + random.below(3))
            .map(|_| jobs::accepted(&mut random, size))
            .collect();
        if random.below(4) == 0 {
            inputs.push(match random.below(6) {
                0 => inputs::plane_case(),
                1 => inputs::one_child(),
                2 => inputs::no_child(),
                3 => inputs::empty_node(),
                4 => inputs::all_active(),
                _ => inputs::two_nodes(),
            });
        }
        let lengths = room(&mut random, &inputs);
        let memory = poison::memory(&mut random, lengths);
        let record = poison::record(&mut random);
        let most = random.pick(&[most / 4, most]);
        List {
            calls: 1 + random.below(most),
            host: Host::new(&record, &memory),
            ledger: Ledger::new(memory),
            opened: None,
            inputs,
            random,
            tally,
        }
    }

    fn random_call(&mut self) -> Result<(), String> {
        // Without work left, an open is more likely.
        let idle = self.ledger.finished() != Some(false);
        match self.random.below(24) {
            0 => self.open(),
            1 | 2 => self.open_refused(),
            3 => self.drop(),
            _ if idle && self.random.below(2) == 0 => self.open(),
            _ => {
                let budget = self.budget();
                self.step(budget)
            }
        }
    }

    fn budget(&mut self) -> u64 {
        let random = &mut self.random;
        match random.below(10) {
            0 => 0,
            1 => u64::MAX,
            2 => 1,
            3 => {
                let digits = random.below(64);
                random.draw() >> digits
            }
            _ => {
                let most = random.pick(&[3, 10, 30, 100]);
                random.below(most)
            }
        }
    }

    fn any_input(&mut self) -> Input {
        let at = self.random.below(self.inputs.len() as u64);
        self.inputs[at as usize].clone()
    }

    fn opening(&mut self, input: &Input) -> Opening {
        let mut opening = Opening::of(input);
        poison::unused(&mut self.random, &mut opening);
        opening
    }

    fn open(&mut self) -> Result<(), String> {
        let input = self.any_input();
        let opening = self.opening(&input);
        self.open_with(opening)
    }

    /// An open with faults for one of the causes 1 to 5 or for several, or with a
    /// code above 7.
    fn open_refused(&mut self) -> Result<(), String> {
        let mut input = self.any_input();
        let parts = input.parts.len() as u64;
        for _ in 0..self.random.pick(&[1, 1, 2, 3]) {
            let cause = 1 + self.random.below(5);
            input = jobs::faulty(&mut self.random, cause, input);
        }
        let no_code = self.random.below(6);
        if no_code == 0 {
            input = self.any_input();
        }
        let mut opening = self.opening(&input);
        if no_code <= 1 {
            let place = self.random.below(parts) as usize;
            opening.model.parts[place] = self.random.pick(&[8, 9, 255, 1 << 31, u32::MAX]);
        }
        self.open_with(opening)
    }

    fn open_with(&mut self, opening: Opening) -> Result<(), String> {
        let before = self.host.record();
        let given = opening.clone();
        let answer = self.host.open(&opening);
        if opening != given {
            return Err("open has changed what it was given".into());
        }
        let input = opening.input();
        check_lengths(&opening, &input)?;
        let due = self.ledger.call(&Call::Open(input));
        if due == Answer::Accepted {
            self.opened = Some(opening);
        }
        self.after(0, "open", answer, due, 0, before)
    }

    fn step(&mut self, budget: u64) -> Result<(), String> {
        let before = self.host.record();
        let made = self.made();
        let answer = self.host.step(budget);
        let due = self.ledger.call(&Call::Step(budget));
        self.after(1, "step", answer, due, made, before)
            .map_err(|what| format!("budget {budget}: {what}"))
    }

    fn drop(&mut self) -> Result<(), String> {
        let before = self.host.record();
        let answer = self.host.drop();
        let due = self.ledger.call(&Call::Drop);
        self.opened = None;
        self.after(2, "drop", answer, due, 0, before)
    }

    /// The evaluations that the ledger counts.
    fn made(&self) -> u64 {
        self.ledger.counts().map_or(0, |counts| counts.evaluations)
    }

    /// Holds what a call left to the ledger.
    fn after(
        &mut self,
        which: usize,
        name: &str,
        answer: u32,
        due: Answer,
        made: u64,
        before: RecordArrays,
    ) -> Result<(), String> {
        let due = number_of(due);
        if answer != due {
            return Err(format!("{name} answers {answer}, the ledger {due}"));
        }
        let named = |what: String| format!("after {name} with answer {answer}: {what}");
        self.host.guards_hold().map_err(named)?;
        self.host.holds(&self.ledger.elements()).map_err(named)?;
        self.tally.elements += self.host.elements();
        self.tally.bytes += self.host.bytes();
        if due == 0 {
            self.tally.accepted[which] += 1;
            self.tally.evaluations += self.made() - made;
            self.record_holds().map_err(named)?;
        } else {
            self.tally.refused[due as usize] += 1;
            self.host.holds_record(&before).map_err(named)?;
        }
        self.counts_hold().map_err(named)
    }

    /// Holds a record that an accepted call wrote: all but its cursor.
    fn record_holds(&self) -> Result<(), String> {
        let (Some(opening), Some(counts)) = (&self.opened, self.ledger.counts()) else {
            return self.host.holds_record(&RecordArrays::of(&Record::none()));
        };
        let mut expected = RecordArrays::of(&Record {
            job: true,
            input: opening.input(),
            lengths: self.host.lengths(),
            counts,
            ..Record::none()
        });
        let words = self.host.words.elements();
        expected.words[14..].copy_from_slice(&words[14..]);
        self.host.holds_record(&expected)
    }

    /// Holds the counts, and whether the job is finished.
    fn counts_hold(&mut self) -> Result<(), String> {
        let counts = self.host.counts();
        let cursor = self.host.cursor();
        let due = self.ledger.counts().map(|counts| count_numbers(&counts));
        if counts != due.ok_or(7) {
            return Err(format!("the counts are {counts:?}, the ledger's {due:?}"));
        }
        let finished = cursor.map(|cursor| cursor[0] == 0);
        let due = self.ledger.finished();
        if finished != due.ok_or(7) {
            return Err(format!("finished is {finished:?}, the ledger's {due:?}"));
        }
        self.tally.finished += u64::from(due == Some(true));
        if let (Some(counts), Some(opening)) = (self.ledger.counts(), &self.opened) {
            let children = counts.nodes * u64::from(opening.inner).pow(3);
            let values = counts.active * u64::from(opening.leaf).pow(3);
            self.tally.job([children, values, counts.evaluations]);
        }
        Ok(())
    }

    /// Sometimes forges a copy, and goes on with what was there before.
    fn forgings(&mut self) -> Result<(), String> {
        let likely = if self.opened.is_some() { 3 } else { 1 };
        while self.random.below(6) < likely {
            let saved = self.host.clone();
            forge(&mut self.random, &mut self.host);
            if self.random.below(6) == 0 {
                forge(&mut self.random, &mut self.host);
            }
            self.forged_call()
                .map_err(|what| format!("forged record: {what}"))?;
            self.host = saved;
        }
        Ok(())
    }

    /// A call on a forged record, held to the model of the records.
    fn forged_call(&mut self) -> Result<(), String> {
        let before = self.host.record();
        let mut memory = self.host.memory();
        let reading = before.read();
        self.forged_reads(&reading)?;
        let call = match self.random.below(16) {
            0 => Call::Drop,
            1 => {
                let input = self.any_input();
                Call::Open(Opening::of(&input).input())
            }
            _ => Call::Step(self.budget()),
        };
        let answer = match &call {
            Call::Open(input) => self.host.open(&Opening::of(input)),
            Call::Step(budget) => self.host.step(*budget),
            Call::Drop => self.host.drop(),
        };
        // Open and drop do not look at the record.
        let (due, record) = match (reading, &call) {
            (Reading::NoJob, Call::Step(_)) => (Answer::Refused(7), None),
            (Reading::NoRecord, Call::Step(_)) => (Answer::Refused(8), None),
            (Reading::Record(mut record), Call::Step(_)) => {
                (record.call(&call, &mut memory), Some(*record))
            }
            _ => {
                let mut record = Record::none();
                (record.call(&call, &mut memory), Some(record))
            }
        };
        let due = number_of(due);
        if answer != due {
            return Err(format!("{call:?} answers {answer}, the model {due}"));
        }
        let named = |what: String| format!("after {call:?} with answer {answer}: {what}");
        self.host.guards_hold().map_err(named)?;
        self.host.holds(&memory).map_err(named)?;
        self.tally.elements += self.host.elements();
        self.tally.bytes += self.host.bytes();
        let expected = match record {
            Some(record) if due == 0 => RecordArrays::of(&record),
            _ => before,
        };
        self.host.holds_record(&expected).map_err(named)?;
        match (&call, due) {
            (Call::Step(_), 0) => self.tally.forged[0] += 1,
            (Call::Step(_), 7) => self.tally.forged[1] += 1,
            (Call::Step(_), _) => self.tally.forged[2] += 1,
            _ => self.tally.forged_others += 1,
        }
        Ok(())
    }

    /// Holds the counts and the cursor of a forged record.
    fn forged_reads(&mut self, reading: &Reading) -> Result<(), String> {
        let (counts, cursor) = match reading {
            Reading::NoJob => (Err(7), Err(7)),
            Reading::NoRecord => (Err(8), Err(8)),
            Reading::Record(record) => (
                Ok(count_numbers(&record.counts)),
                Ok(cursor_numbers(record.cursor)),
            ),
        };
        if self.host.counts() != counts || self.host.cursor() != cursor {
            return Err(format!("counts or cursor are not {counts:?}, {cursor:?}"));
        }
        Ok(())
    }
}

/// Holds what the interface says of the lengths that an open needs: the first of
/// the causes 1 to 5, or the lengths. Refused, it leaves them as they were.
fn check_lengths(opening: &Opening, input: &Input) -> Result<(), String> {
    const BEFORE: [usize; 5] = [usize::MAX; 5];
    let mut lengths = BEFORE;
    let answer = host::lengths(opening, &mut lengths);
    let longest = Lengths {
        kinds: u64::MAX,
        numbers: u64::MAX,
        places: u64::MAX,
        store: u64::MAX,
        corners: u64::MAX,
    };
    let (due, expected) = match grid::cause(input, longest) {
        Some(cause) => (cause, BEFORE),
        None => {
            let needed = grid::lengths_needed(input);
            let five = [
                needed.kinds,
                needed.numbers,
                needed.places,
                needed.store,
                needed.corners,
            ];
            (0, five.map(|length| length as usize))
        }
    };
    if (answer, lengths) != (due, expected) {
        return Err(format!(
            "the lengths answer {answer} with {lengths:?}, not {due} with {expected:?}"
        ));
    }
    Ok(())
}
