//! A run over seeds: its command line, and its threads.

use std::num::NonZero;
use std::process::ExitCode;
use std::sync::atomic::{AtomicBool, AtomicU64, Ordering};
use std::thread;
use std::time::{Duration, Instant, SystemTime, UNIX_EPOCH};

use oracle::options;

use crate::tally::Tally;

/// Seeds that a thread takes at a time.
const BLOCK: u64 = 16;

/// From which seed, how many, how long, and by how many threads.
pub struct Plan {
    seed: u64,
    count: u64,
    seconds: Option<u64>,
    threads: usize,
    pub guards: bool,
}

impl Plan {
    /// The command line's plan. The seed, which the clock gives if the command line does not, is printed.
    pub fn from_command_line(usual_count: u64) -> Self {
        let names = ["--seed", "--count", "--seconds", "--threads", "--guards"];
        let [seed, count, seconds, threads, guards] = options::numbers(names);
        let seed = seed.unwrap_or_else(clock);
        println!("seed {seed}");
        let usual_count = if seconds.is_some() {
            u64::MAX
        } else {
            usual_count
        };
        let cores = thread::available_parallelism().map_or(1, NonZero::get);
        Plan {
            seed,
            count: count.unwrap_or(usual_count),
            seconds,
            threads: threads.map_or(cores, |n| n.max(1) as usize),
            guards: guards != Some(0),
        }
    }

    /// Tries seed after seed until the count, the time or a failed try ends the run; each thread has a worker of its own.
    pub fn each_seed<W: Send>(
        &self,
        worker: impl Fn() -> W + Sync,
        passes: impl Fn(&mut W, u64) -> bool + Sync,
    ) -> Vec<W> {
        let (next, failed) = (AtomicU64::new(0), AtomicBool::new(false));
        let end = self
            .seconds
            .map(|n| Instant::now() + Duration::from_secs(n));
        let work = || {
            let mut worker = worker();
            while !failed.load(Ordering::Relaxed) && end.is_none_or(|end| Instant::now() < end) {
                let first = next.fetch_add(BLOCK, Ordering::Relaxed);
                if first >= self.count {
                    break;
                }
                for at in first..self.count.min(first + BLOCK) {
                    if !passes(&mut worker, self.seed.wrapping_add(at)) {
                        failed.store(true, Ordering::Relaxed);
                        break;
                    }
                }
            }
            worker
        };
        thread::scope(|scope| {
            let threads: Vec<_> = (0..self.threads).map(|_| scope.spawn(work)).collect();
            let joined = threads
                .into_iter()
                .map(|thread| thread.join().expect("no panic"));
            joined.collect()
        })
    }
}

fn clock() -> u64 {
    let since = SystemTime::now().duration_since(UNIX_EPOCH);
    since.map_or(1, |time| time.as_nanos() as u64)
}

/// Prints the last line of a program that has tried so many crops, calls or pairs; the exit status says whether there was a
/// difference.
pub fn finish(program: &str, what: &str, tallies: impl Iterator<Item = Tally>) -> ExitCode {
    let all = tallies.fold(Tally::default(), Tally::merge);
    println!("{program}: {}", all.line(what));
    if all.differences == 0 {
        ExitCode::SUCCESS
    } else {
        ExitCode::FAILURE
    }
}

/// What a program does that has nothing to compare with.
pub fn no_judge(program: &str) -> ExitCode {
    eprintln!(
        "{program}: built without the source's text, so there is no judge (ORACLE_SOURCE names its folder)"
    );
    ExitCode::FAILURE
}
