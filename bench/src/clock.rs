//! Times of runs that alternate, and their ratios.

use std::fmt;
use std::hint::black_box;

const ROUNDS: usize = 61;

/// A `timespec` of Linux on x86-64.
#[repr(C)]
#[derive(Default)]
struct Time {
    seconds: i64,
    nanoseconds: i64,
}

/// The clock of the thread's processor time.
const THREAD: i32 = 3;

unsafe extern "C" {
    fn clock_gettime(clock: i32, time: &mut Time) -> i32;
}

/// Nanoseconds that this thread has run for: what other programs take of the machine is left out.
fn now() -> f64 {
    let mut time = Time::default();
    // SAFETY: the call writes one `timespec`, which is lent to it.
    let failed = unsafe { clock_gettime(THREAD, &mut time) };
    assert_eq!(failed, 0, "Linux has this clock");
    time.seconds as f64 * 1e9 + time.nanoseconds as f64
}

/// Nanoseconds of one run, on what was prepared before the clock starts.
pub fn time<T, R>(prepared: T, run: impl FnOnce(T) -> R) -> f64 {
    let start = now();
    black_box(run(prepared));
    now() - start
}

/// The times of each run, round by round: in a round each runs once, one after the other.
pub fn alternate<const N: usize>(mut runs: [&mut dyn FnMut() -> f64; N]) -> [Vec<f64>; N] {
    let mut times = [const { Vec::new() }; N];
    for _ in 0..ROUNDS {
        for (run, times) in runs.iter_mut().zip(&mut times) {
            times.push(run());
        }
    }
    times
}

pub fn median(times: &[f64]) -> f64 {
    at(&sorted(times.to_vec()), 50)
}

fn sorted(mut times: Vec<f64>) -> Vec<f64> {
    times.sort_by(f64::total_cmp);
    times
}

/// What so many percent of sorted times do not exceed.
fn at(times: &[f64], percent: usize) -> f64 {
    times[(times.len() - 1) * percent / 100]
}

/// The ratio of two runs: the median over the rounds, and what nine of ten rounds lie between.
pub struct Ratio {
    middle: f64,
    low: f64,
    high: f64,
}

impl Ratio {
    pub fn of(ours: &[f64], theirs: &[f64]) -> Self {
        let ratios = sorted(ours.iter().zip(theirs).map(|(a, b)| a / b).collect());
        Self {
            middle: at(&ratios, 50),
            low: at(&ratios, 5),
            high: at(&ratios, 95),
        }
    }
}

impl fmt::Display for Ratio {
    fn fmt(&self, out: &mut fmt::Formatter) -> fmt::Result {
        let Self { middle, low, high } = self;
        write!(out, "{middle:.2} ({low:.2} to {high:.2})")
    }
}
