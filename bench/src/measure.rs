//! Medians of interleaved runs.

use std::hint::black_box;
use std::time::{Duration, Instant};

use crate::table::{self, Row};
use crate::threads::{on_all, on_one};

/// How many runs of each side are measured at most.
const RUNS: usize = 2001;

/// How many there are at least, and how long a row takes where they are long.
const FEWEST: usize = 7;
const ROW_TIME: Duration = Duration::from_secs(2);

/// About how many nanoseconds one run of short calls takes. Short, so that on a
/// busy machine most runs are not interrupted: with longer ones the median is of
/// interrupted runs.
const RUN: f64 = 200_000.0;

/// How often a number of calls is tried before the runs.
const TRIALS: usize = 5;

/// One side of a comparison: writes its results, all of them at each call.
pub type Side<'a> = &'a mut dyn FnMut(&mut [f64]);

/// A side with its results and its measured runs.
struct Runs<'a> {
    side: Side<'a>,
    results: Vec<f64>,
    calls: u32,
    times: Vec<f64>,
}

impl<'a> Runs<'a> {
    /// Doubles the calls of a run until it takes long enough. The fastest of
    /// a few trials decides: one that was interrupted would end this too soon.
    fn new(side: Side<'a>, results: usize) -> Self {
        let mut runs = Runs {
            side,
            results: vec![0.0; results],
            calls: 1,
            times: Vec::new(),
        };
        while runs.fastest() * 2.0 < RUN && runs.calls < 1 << 24 {
            runs.calls *= 2;
        }
        runs
    }

    fn fastest(&mut self) -> f64 {
        (0..TRIALS).fold(f64::INFINITY, |least, _| least.min(self.elapsed()))
    }

    /// The nanoseconds of one run.
    fn elapsed(&mut self) -> f64 {
        let spent = elapsed(&mut || {
            for _ in 0..self.calls {
                (self.side)(black_box(&mut self.results));
            }
        });
        spent.thread
    }

    fn run(&mut self) {
        let time = self.elapsed();
        self.times
            .push(time / self.calls as f64 / self.results.len() as f64);
    }
}

fn median(mut times: Vec<f64>) -> f64 {
    times.sort_by(f64::total_cmp);
    times[times.len() / 2]
}

/// Whether so many runs of a row that began then are enough.
fn enough(runs: usize, begun: Instant) -> bool {
    runs >= RUNS || (runs >= FEWEST && begun.elapsed() > ROW_TIME)
}

/// Ends the benchmark where two sides have other results. A NaN is as any other.
fn compare(name: &str, ours: &[f64], theirs: &[f64]) {
    let equal = |(x, y): (&f64, &f64)| x.to_bits() == y.to_bits() || (x.is_nan() && y.is_nan());
    let same = ours.len() == theirs.len() && ours.iter().zip(theirs).all(equal);
    assert!(same, "{name}: the results differ");
}

/// Measures one row of short calls, a run of each side in turn, and prints it.
/// Where there is no other side, ours stands alone.
pub fn row(name: &str, results: usize, ours: Side, theirs: Option<Side>) {
    let mut ours = Runs::new(ours, results);
    let mut theirs = theirs.map(|side| Runs::new(side, results));
    if let Some(theirs) = &theirs {
        compare(name, &ours.results, &theirs.results);
    }
    let begun = Instant::now();
    while !enough(ours.times.len(), begun) {
        ours.run();
        if let Some(theirs) = &mut theirs {
            theirs.run();
        }
    }
    let row = Row {
        ours: median(ours.times),
        one: theirs.map(|theirs| median(theirs.times)),
        all: None,
    };
    row.print(name);
}

/// One side of a comparison of calls that are long enough to be timed one by one.
pub trait Job: Send {
    /// Puts the input back. Not measured.
    fn prepare(&mut self);
    fn run(&mut self);
    fn results(&self) -> Vec<f64>;
}

/// The original's side: on one thread, and on all where its call has a parallel
/// part.
#[cfg_attr(not(feature = "original"), allow(dead_code))]
pub struct Theirs<'a> {
    pub one: &'a mut dyn Job,
    pub all: Option<&'a mut dyn Job>,
}

/// Measures one row of jobs, whose times are for one of so many results. Both
/// sides run once before.
pub fn jobs(name: &str, results: usize, ours: &mut dyn Job, mut theirs: Option<Theirs>) {
    let due = once(ours);
    if let Some(Theirs { one, all }) = &mut theirs {
        compare(name, &due, &on_one(|| once(&mut **one)));
        if let Some(all) = all {
            compare(name, &due, &on_all(|| once(&mut **all)));
        }
    }
    let [mut by_thread, mut by_wall] = [Vec::new(), Vec::new()];
    let [mut on_one_times, mut on_all_times] = [Vec::new(), Vec::new()];
    let begun = Instant::now();
    while !enough(by_thread.len(), begun) {
        let spent = timed(ours);
        by_thread.push(spent.thread);
        by_wall.push(spent.wall);
        if let Some(Theirs { one, all }) = &mut theirs {
            on_one_times.push(on_one(|| timed(&mut **one)).thread);
            if let Some(all) = all {
                on_all_times.push(on_all(|| timed(&mut **all)).wall);
            }
        }
    }
    let each = |times: Vec<f64>| median(times) / results as f64;
    let some = |times: Vec<f64>| (!times.is_empty()).then(|| each(times));
    let row = Row {
        ours: each(by_thread),
        one: some(on_one_times),
        all: some(on_all_times).map(|theirs| [each(by_wall), theirs]),
    };
    row.print(name);
}

fn once(job: &mut dyn Job) -> Vec<f64> {
    job.prepare();
    job.run();
    job.results()
}

/// The nanoseconds of one run: those that its thread ran, to which other
/// processes do not add, and those by the wall, for jobs of several threads.
struct Spent {
    thread: f64,
    wall: f64,
}

fn timed(job: &mut dyn Job) -> Spent {
    job.prepare();
    elapsed(&mut || job.run())
}

fn elapsed(call: &mut dyn FnMut()) -> Spent {
    let (wall, thread) = (Instant::now(), thread_time());
    call();
    let thread = thread_time() - thread;
    Spent {
        thread: thread.as_nanos() as f64,
        wall: wall.elapsed().as_nanos() as f64,
    }
}

/// Measures one call, and prints its time.
pub fn alone(name: &str, call: &mut dyn FnMut()) {
    let mut times = Vec::new();
    let begun = Instant::now();
    while !enough(times.len(), begun) {
        times.push(elapsed(call).thread);
    }
    table::alone(name, median(times));
}

/// Measures a call in two ways in turn, of which one makes so many steps more,
/// and prints the time of a step. The call is told whether it is that one.
pub fn beyond(name: &str, steps: usize, call: &mut dyn FnMut(bool)) {
    let [mut more, mut less] = [Vec::new(), Vec::new()];
    let begun = Instant::now();
    while !enough(more.len(), begun) {
        more.push(elapsed(&mut || call(true)).thread);
        less.push(elapsed(&mut || call(false)).thread);
    }
    table::alone(name, (median(more) - median(less)) / steps as f64);
}

/// The time that this thread has run.
fn thread_time() -> Duration {
    #[repr(C)]
    struct Time {
        seconds: i64,
        nanoseconds: i64,
    }
    extern "C" {
        fn clock_gettime(clock: i32, time: &mut Time) -> i32;
    }
    const THREAD: i32 = 3;
    let mut time = Time {
        seconds: 0,
        nanoseconds: 0,
    };
    unsafe { clock_gettime(THREAD, &mut time) };
    Duration::new(time.seconds as u64, time.nanoseconds as u32)
}
