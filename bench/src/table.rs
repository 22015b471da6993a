//! What tables have in common: a line for each set; in those of whole calls the answers, the times and the ratios.

use std::collections::BTreeMap;

use crate::clock::{self, Ratio};
use crate::sets::Set;

/// Nanoseconds that a timed run lasts at least, by repetition.
const LEAST_RUN: f64 = 300_000.0;

/// Prints a table with a line for each set.
pub fn print(header: &str, sets: &[Set], line: impl Fn(&Set) -> String) {
    println!("{header}");
    for set in sets {
        println!("{}", line(set));
    }
}

/// Answers, with their counts where there are several crops.
pub fn answers(all: &[u32]) -> String {
    let mut counts: BTreeMap<u32, usize> = BTreeMap::new();
    for answer in all {
        *counts.entry(*answer).or_default() += 1;
    }
    let counts: Vec<_> = (counts.iter())
        .map(|(answer, count)| match all {
            [_] => answer.to_string(),
            _ => format!("{answer} ({count})"),
        })
        .collect();
    counts.join(", ")
}

/// The last columns: microseconds for each of so many crops, by the first run, which is the product's, and by each of the others with the
/// product's ratio to it. A run calls all crops once.
pub fn columns<const N: usize>(crops: usize, mut runs: [&mut dyn FnMut(); N]) -> String {
    let once = clock::time((), |()| runs[0]());
    let often = (LEAST_RUN / once).ceil() as usize;
    let mut timed = runs.map(|run| move || clock::time((), |()| (0..often).for_each(|_| run())));
    let times = clock::alternate(timed.each_mut().map(|run| run as &mut dyn FnMut() -> f64));
    let each = |times: &[f64]| clock::median(times) / (often * crops) as f64 / 1000.0;
    let mut columns = format!("{:.2}", each(&times[0]));
    for other in &times[1..] {
        let ratio = Ratio::of(&times[0], other);
        columns += &format!(" | {:.2} | {ratio}", each(other));
    }
    columns
}
