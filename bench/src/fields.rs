//! The rows about dense fields: ours against the original's `DenseField`.

use crate::host::{self, Layout};
use crate::measure::{jobs, Job};
use crate::models::{self, Part};

const ORIGIN: [f64; 3] = [-0.5, -0.25, 0.125];

/// The cells of a field are such that 100 points span the shapes.
const CELL: f64 = 0.05;

const LARGE: [usize; 3] = [100; 3];
const SMALL: [usize; 3] = [32; 3];

const FACTOR: f64 = 0.5;

pub fn rows() {
    let models = models::measured();
    for (name, parts) in &models {
        sampling(name, parts, LARGE);
    }
    let (name, parts) = &models[1];
    sampling(name, parts, SMALL);
    for n in [LARGE, SMALL] {
        for rounds in [1, 2, 5] {
            let name = format!("smoothing {}, rounds {rounds}", size(n));
            call(&name, n, Call::Smooth(rounds));
        }
    }
    call("padding 100×100×100", LARGE, Call::Pad(1.5));
    call("threshold 100×100×100", LARGE, Call::Threshold(0.25));
}

fn size([nx, ny, nz]: [usize; 3]) -> String {
    format!("{nx}×{ny}×{nz}")
}

/// Values with all their digits, of both signs.
fn values(n: [usize; 3]) -> Vec<f64> {
    let mut digits = 0x9e37_79b9_7f4a_7c15u64;
    let value = |_| {
        digits = digits.wrapping_mul(0x5851_f42d_4c95_7f2d).wrapping_add(1);
        (digits >> 11) as f64 / (1u64 << 52) as f64 - 1.0
    };
    (0..n[0] * n[1] * n[2]).map(value).collect()
}

/// Our side: a call on values that are put back before each run.
struct Ours<'a, F> {
    input: &'a [f64],
    values: Vec<f64>,
    call: F,
}

impl<F: FnMut(&mut [f64]) + Send> Job for Ours<'_, F> {
    fn prepare(&mut self) {
        self.values.copy_from_slice(self.input);
    }
    fn run(&mut self) {
        (self.call)(&mut self.values);
    }
    fn results(&self) -> Vec<f64> {
        self.values.clone()
    }
}

fn ours<F: FnMut(&mut [f64])>(input: &[f64], call: F) -> Ours<'_, F> {
    Ours {
        input,
        values: input.to_vec(),
        call,
    }
}

/// A call that changes values.
#[derive(Clone, Copy)]
enum Call {
    /// The rounds.
    Smooth(u32),
    Pad(f64),
    Threshold(f64),
}

/// The table's row for one call.
fn call(name: &str, n: [usize; 3], call: Call) {
    let input = values(n);
    let mut scratch = vec![0.0; input.len()];
    let mut ours = ours(&input, |values: &mut [f64]| match call {
        Call::Smooth(rounds) => host::fields::smooth(n, FACTOR, rounds, values, &mut scratch),
        Call::Pad(value) => host::fields::padding(n, value, values),
        Call::Threshold(limit) => host::fields::threshold(n, limit, values),
    });
    compare(name, &mut ours, &input, n, call);
}

/// The table's row for the sampling of one model.
fn sampling(name: &str, parts: &[Part], n: [usize; 3]) {
    let name = format!("sampling {name}, {}", size(n));
    let input = values(n);
    let layout = Layout::new(parts);
    let mut ours = ours(&input, |values: &mut [f64]| {
        host::fields::sample(&layout, ORIGIN, CELL, n, values)
    });
    compare_sampling(&name, &mut ours, &input, n, parts);
}

#[cfg(feature = "original")]
use original_side::{compare, compare_sampling};

#[cfg(feature = "original")]
mod original_side {
    use super::{jobs, models, Call, Job, Part, CELL, FACTOR, ORIGIN};
    use crate::measure;
    use original::benched::{field, sample, DenseField};
    use original::parts::Model;

    /// Their side: a call on the original's field, which owns its values.
    struct Theirs<'a, F> {
        input: &'a [f64],
        field: DenseField<f64>,
        call: F,
    }

    impl<F: Fn(&mut DenseField<f64>) + Send> Job for Theirs<'_, F> {
        fn prepare(&mut self) {
            for (place, value) in self.input.iter().enumerate() {
                self.field.set_value(place, *value);
            }
        }
        fn run(&mut self) {
            (self.call)(&mut self.field);
        }
        fn results(&self) -> Vec<f64> {
            self.field.copy_data()
        }
    }

    fn theirs<F: Fn(&mut DenseField<f64>)>(input: &[f64], n: [usize; 3], call: F) -> Theirs<'_, F> {
        Theirs {
            input,
            field: field(ORIGIN, CELL, n, input.to_vec()),
            call,
        }
    }

    /// Smoothing alone has a parallel call.
    pub fn compare(name: &str, ours: &mut dyn Job, input: &[f64], n: [usize; 3], call: Call) {
        let mut one = theirs(input, n, |field| match call {
            Call::Smooth(rounds) => field.smooth(FACTOR, rounds),
            Call::Pad(value) => field.padding(value),
            Call::Threshold(limit) => field.threshold(limit),
        });
        let one = &mut one;
        let Call::Smooth(rounds) = call else {
            jobs(
                name,
                input.len(),
                ours,
                Some(measure::Theirs { one, all: None }),
            );
            return;
        };
        let mut all = theirs(input, n, |field| field.smooth_par(FACTOR, rounds));
        let all: Option<&mut dyn Job> = Some(&mut all);
        jobs(name, input.len(), ours, Some(measure::Theirs { one, all }));
    }

    pub fn compare_sampling(
        name: &str,
        ours: &mut dyn Job,
        input: &[f64],
        n: [usize; 3],
        parts: &[Part],
    ) {
        let parts: Vec<_> = parts.iter().map(models::theirs).collect();
        let model = Model::new(&parts).expect("a model that is not refused");
        let graph = model.graph();
        let sampled = |field: &mut DenseField<f64>| sample(field, &graph);
        let (mut one, mut all) = (theirs(input, n, sampled), theirs(input, n, sampled));
        let theirs = measure::Theirs {
            one: &mut one,
            all: Some(&mut all),
        };
        jobs(name, input.len(), ours, Some(theirs));
    }
}

#[cfg(not(feature = "original"))]
fn compare(name: &str, ours: &mut dyn Job, input: &[f64], _: [usize; 3], _: Call) {
    jobs(name, input.len(), ours, None);
}

#[cfg(not(feature = "original"))]
fn compare_sampling(name: &str, ours: &mut dyn Job, input: &[f64], _: [usize; 3], _: &[Part]) {
    jobs(name, input.len(), ours, None);
}
