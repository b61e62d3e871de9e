//! Timing: all jobs of a group take turns, so that a drift of the machine meets every one of them; of each, the median is kept.
//! What is measured is the time that the thread has the processor, which other programs do not add to.

use std::os::raw::{c_int, c_long};
use std::time::Duration;

/// The nanoseconds one repetition took: of a call, or of an edit and of the one that takes it back.
pub type Taken = [f64; 2];

/// Runs so many repetitions.
pub type Job<'a> = Box<dyn FnMut(u32) -> Taken + 'a>;

#[derive(Clone, Copy)]
pub struct Time {
    /// Nanoseconds.
    pub median: f64,
    /// The distance of the quartiles, as a part of the median.
    pub spread: f64,
}

pub struct Plan {
    pub samples: usize,
    /// A sample takes at least this long.
    pub sample: Duration,
}

/// `struct timespec` and the clock's number of Linux on 64-bit machines.
#[repr(C)]
struct Timespec {
    seconds: i64,
    nanoseconds: c_long,
}

const THREAD_CPU_TIME: c_int = 3;

extern "C" {
    fn clock_gettime(clock: c_int, time: *mut Timespec) -> c_int;
}

/// Nanoseconds that this thread has had the processor.
fn now() -> u64 {
    let mut time = Timespec { seconds: 0, nanoseconds: 0 };
    let answer = unsafe { clock_gettime(THREAD_CPU_TIME, &mut time) };
    assert_eq!(answer, 0, "the thread's clock can't be read");
    time.seconds as u64 * 1_000_000_000 + time.nanoseconds as u64
}

/// What reading the clock adds to the time between two readings.
fn clock_cost() -> f64 {
    let mut costs: Vec<u64> = (0..101)
        .map(|_| {
            let begin = now();
            now() - begin
        })
        .collect();
    costs.sort_unstable();
    costs[costs.len() / 2] as f64
}

/// The repetitions that make a sample long enough.
fn repetitions(job: &mut Job, plan: &Plan) -> u32 {
    let mut count = 1;
    loop {
        let begin = now();
        job(count);
        let took = now() - begin;
        let wanted = plan.sample.as_nanos() as u64;
        if took >= wanted || count > 1 << 24 {
            return count;
        }
        count *= (wanted / took.max(1) + 1).clamp(2, 16) as u32;
    }
}

pub fn run(jobs: &mut [Job], plan: &Plan) -> Vec<[Time; 2]> {
    let counts: Vec<u32> = jobs.iter_mut().map(|job| repetitions(job, plan)).collect();
    let mut taken = vec![Vec::with_capacity(plan.samples); jobs.len()];
    for _ in 0..plan.samples {
        for ((job, &count), taken) in jobs.iter_mut().zip(&counts).zip(&mut taken) {
            taken.push(job(count));
        }
    }
    taken.iter().map(|taken| [time(taken, 0), time(taken, 1)]).collect()
}

fn time(taken: &[Taken], part: usize) -> Time {
    let mut sorted: Vec<f64> = taken.iter().map(|taken| taken[part]).collect();
    sorted.sort_by(f64::total_cmp);
    let quartile = |k: usize| sorted[k * (sorted.len() - 1) / 4];
    Time { median: quartile(2), spread: (quartile(3) - quartile(1)) / quartile(2).max(1.0) }
}

/// The time of `call`, repeated.
pub fn repeat(count: u32, mut call: impl FnMut()) -> Taken {
    let begin = now();
    for _ in 0..count {
        call();
    }
    [(now() - begin) as f64 / f64::from(count), 0.0]
}

/// The times of two calls that take turns, each by itself. The clock's own cost is taken off.
pub fn repeat_pair<T>(count: u32, state: &mut T, mut one: impl FnMut(&mut T), mut other: impl FnMut(&mut T)) -> Taken {
    let cost = clock_cost();
    let mut taken = [0, 0];
    let mut begin = now();
    for _ in 0..count {
        one(state);
        let middle = now();
        other(state);
        let end = now();
        taken[0] += middle - begin;
        taken[1] += end - middle;
        begin = end;
    }
    taken.map(|taken| taken as f64 / f64::from(count) - cost)
}

/// The value, as if it came from outside: nothing is worked out before the run.
pub fn from_outside<T: Copy>(value: T) -> T {
    unsafe { std::ptr::read_volatile(&value) }
}
